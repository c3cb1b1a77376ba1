// A text display with an HD44780 by its pins, with the calls of Arduino's library of this name. It is taken where that library
// is not installed: the IDE brings it, arduino-cli and Debian's core do not.
#ifndef LIQUID_CRYSTAL_H
#define LIQUID_CRYSTAL_H

#include <CharacterDisplay.h>

class LiquidCrystal : public CharacterDisplay {
public:
  LiquidCrystal(uint8_t rs, uint8_t enable, uint8_t d4, uint8_t d5, uint8_t d6, uint8_t d7);
  LiquidCrystal(uint8_t rs, uint8_t rw, uint8_t enable, uint8_t d4, uint8_t d5, uint8_t d6, uint8_t d7);
  LiquidCrystal(uint8_t rs, uint8_t enable, uint8_t d0, uint8_t d1, uint8_t d2, uint8_t d3, uint8_t d4, uint8_t d5, uint8_t d6, uint8_t d7);
  LiquidCrystal(uint8_t rs, uint8_t rw, uint8_t enable, uint8_t d0, uint8_t d1, uint8_t d2, uint8_t d3, uint8_t d4, uint8_t d5, uint8_t d6, uint8_t d7);

  void begin(uint8_t columns, uint8_t lines, uint8_t dots = 0);

protected:
  virtual void send(uint8_t byte, uint8_t rs);

private:
  static const uint8_t NONE = 255;

  void pins(uint8_t rs, uint8_t rw, uint8_t enable, const uint8_t data[], bool eight);
  void put(uint8_t bits, uint8_t count);

  uint8_t rs, rw, enable, data[8];
  bool eight;
};

#endif
