// The same display behind an I2C expander at 0x27, by Arduino's Wire. What the library LiquidCrystal_I2C sends stands here in
// full, so that the sketch needs none: RS, RW and E are bits 0 to 2 of the expander, the light is bit 3, D4 to D7 are bits 4 to 7.
#include <Wire.h>

const byte address = 0x27, rs = 1, enable = 4, light = 8;

void expander(byte value) {
  Wire.beginTransmission(address);
  Wire.write(value | light);
  Wire.endTransmission();
}

void writeHalf(byte value) {
  expander(value);
  expander(value | enable);
  expander(value);  // the display takes the half here
}

void send(byte value, byte mode) {
  writeHalf((value & 0xF0) | mode);
  writeHalf((value << 4) | mode);
}

void command(byte value) {
  send(value, 0);
}

void print(const char *text) {
  while (*text) send(*text++, rs);
}

void begin() {
  Wire.begin();
  delay(50);
  expander(0);
  for (byte i = 0; i < 3; i++) {
    writeHalf(0x30);
    delay(5);
  }
  writeHalf(0x20);
  command(0x28);  // four data lines, two lines of text
  command(0x0C);  // on
  command(0x01);  // clear
  delay(2);
  command(0x06);  // from left to right
}

void setup() {
  begin();
  print("hello, world!");
  command(0x80 + 0x40);  // the second line
  print("by two wires");
}

void loop() {}
