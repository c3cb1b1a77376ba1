#include "LiquidCrystal_I2C.h"

// The sequence by which the display comes into its mode whatever it was in before ("Initializing by Instruction").
void LiquidCrystal_I2C::init() {
  Wire.begin();
  delay(50);
  put(0);
  for (uint8_t n = 0; n < 3; n++) {
    half(0x30);
    delayMicroseconds(4500);
  }
  half(0x20);
  start(lines > 1 ? 0x28 : 0x20, columns, lines);
}

void LiquidCrystal_I2C::send(uint8_t byte, uint8_t rs) {
  half((byte & 0xF0) | rs);
  half(byte << 4 | rs);
}

// Four bits and RS, which the display takes where E falls.
void LiquidCrystal_I2C::half(uint8_t bits) {
  put(bits | 4);
  put(bits);
  delayMicroseconds(50);
}

void LiquidCrystal_I2C::put(uint8_t bits) {
  Wire.beginTransmission(address);
  Wire.write(bits | light);
  Wire.endTransmission();
}
