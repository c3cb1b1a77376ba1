// A text display with an HD44780 behind an expander of eight bits on I2C, with the calls that libraries of this name have. It is
// taken where none is installed. RS, RW, E and the light are bits 0 to 3 of the expander, D4 to D7 its bits 4 to 7.
#ifndef LIQUID_CRYSTAL_I2C_H
#define LIQUID_CRYSTAL_I2C_H

#include <CharacterDisplay.h>
#include <Wire.h>

class LiquidCrystal_I2C : public CharacterDisplay {
public:
  LiquidCrystal_I2C(uint8_t address, uint8_t columns, uint8_t lines) : address(address), columns(columns), lines(lines), light(0) {}

  void init();
  void begin() { init(); }
  void begin(uint8_t columns, uint8_t lines, uint8_t = 0) {
    this->columns = columns;
    this->lines = lines;
    init();
  }
  void backlight() { setBacklight(1); }
  void noBacklight() { setBacklight(0); }
  void setBacklight(uint8_t on) {
    light = on ? 8 : 0;
    put(0);
  }

protected:
  virtual void send(uint8_t byte, uint8_t rs);

private:
  void put(uint8_t bits);
  void half(uint8_t bits);

  uint8_t address, columns, lines, light;
};

#endif
