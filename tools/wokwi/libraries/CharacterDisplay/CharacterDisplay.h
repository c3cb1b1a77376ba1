// What all text displays with an HD44780 do, whatever way its bytes take.
#ifndef CHARACTER_DISPLAY_H
#define CHARACTER_DISPLAY_H

#include <Arduino.h>
#include <Print.h>

class CharacterDisplay : public Print {
public:
  void clear();
  void home();
  void setCursor(uint8_t column, uint8_t line);
  void setRowOffsets(int line0, int line1, int line2, int line3);
  void createChar(uint8_t code, uint8_t rows[]);

  void display() { show(ON, true); }
  void noDisplay() { show(ON, false); }
  void cursor() { show(CURSOR, true); }
  void noCursor() { show(CURSOR, false); }
  void blink() { show(BLINK, true); }
  void noBlink() { show(BLINK, false); }
  void leftToRight() { enter(RIGHT, true); }
  void rightToLeft() { enter(RIGHT, false); }
  void autoscroll() { enter(SCROLL, true); }
  void noAutoscroll() { enter(SCROLL, false); }
  void scrollDisplayLeft() { command(0x18); }
  void scrollDisplayRight() { command(0x1C); }

  void command(uint8_t byte) { send(byte, LOW); }
  virtual size_t write(uint8_t byte) {
    send(byte, HIGH);
    return 1;
  }
  using Print::write;

protected:
  // A byte, with RS as it is given.
  virtual void send(uint8_t byte, uint8_t rs) = 0;
  // What begins each mode, once the display is in it: `function` is the instruction for bits, lines and dots.
  void start(uint8_t function, uint8_t columns, uint8_t lines);

private:
  enum { ON = 4, CURSOR = 2, BLINK = 1, RIGHT = 2, SCROLL = 1 };

  void show(uint8_t bit, bool set);
  void enter(uint8_t bit, bool set);

  uint8_t lines, shown, entry;
  uint8_t offsets[4];
};

#endif
