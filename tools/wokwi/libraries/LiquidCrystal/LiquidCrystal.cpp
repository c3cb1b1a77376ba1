#include "LiquidCrystal.h"

LiquidCrystal::LiquidCrystal(uint8_t rs, uint8_t enable, uint8_t d4, uint8_t d5, uint8_t d6, uint8_t d7) {
  const uint8_t given[] = {d4, d5, d6, d7};
  pins(rs, NONE, enable, given, false);
}

LiquidCrystal::LiquidCrystal(uint8_t rs, uint8_t rw, uint8_t enable, uint8_t d4, uint8_t d5, uint8_t d6, uint8_t d7) {
  const uint8_t given[] = {d4, d5, d6, d7};
  pins(rs, rw, enable, given, false);
}

LiquidCrystal::LiquidCrystal(uint8_t rs, uint8_t enable, uint8_t d0, uint8_t d1, uint8_t d2, uint8_t d3, uint8_t d4, uint8_t d5, uint8_t d6, uint8_t d7) {
  const uint8_t given[] = {d0, d1, d2, d3, d4, d5, d6, d7};
  pins(rs, NONE, enable, given, true);
}

LiquidCrystal::LiquidCrystal(uint8_t rs, uint8_t rw, uint8_t enable, uint8_t d0, uint8_t d1, uint8_t d2, uint8_t d3, uint8_t d4, uint8_t d5, uint8_t d6, uint8_t d7) {
  const uint8_t given[] = {d0, d1, d2, d3, d4, d5, d6, d7};
  pins(rs, rw, enable, given, true);
}

void LiquidCrystal::pins(uint8_t rs, uint8_t rw, uint8_t enable, const uint8_t data[], bool eight) {
  this->rs = rs;
  this->rw = rw;
  this->enable = enable;
  this->eight = eight;
  for (uint8_t n = 0; n < (eight ? 8 : 4); n++) this->data[n] = data[n];
  begin(16, 1);
}

// The sequence by which the display comes into its mode whatever it was in before ("Initializing by Instruction").
void LiquidCrystal::begin(uint8_t columns, uint8_t lines, uint8_t dots) {
  pinMode(rs, OUTPUT);
  pinMode(enable, OUTPUT);
  if (rw != NONE) {
    pinMode(rw, OUTPUT);
    digitalWrite(rw, LOW);
  }
  for (uint8_t n = 0; n < (eight ? 8 : 4); n++) pinMode(data[n], OUTPUT);
  for (uint8_t ms = 0; ms < 50; ms++) delayMicroseconds(1000);  // `delay` waits for ever before `setup`
  digitalWrite(rs, LOW);
  digitalWrite(enable, LOW);
  for (uint8_t n = 0; n < 3; n++) {
    if (eight) put(0x30, 8); else put(3, 4);
    delayMicroseconds(4500);
  }
  if (!eight) put(2, 4);
  start(0x20 | (eight ? 0x10 : 0) | (lines > 1 ? 8 : 0) | (dots && lines == 1 ? 4 : 0), columns, lines);
}

void LiquidCrystal::send(uint8_t byte, uint8_t rs) {
  digitalWrite(this->rs, rs);
  if (eight) {
    put(byte, 8);
  } else {
    put(byte >> 4, 4);
    put(byte & 15, 4);
  }
}

void LiquidCrystal::put(uint8_t bits, uint8_t count) {
  for (uint8_t n = 0; n < count; n++) digitalWrite(data[n], bits >> n & 1);
  digitalWrite(enable, HIGH);
  delayMicroseconds(1);
  digitalWrite(enable, LOW);  // the display takes the bits here
  delayMicroseconds(100);
}
