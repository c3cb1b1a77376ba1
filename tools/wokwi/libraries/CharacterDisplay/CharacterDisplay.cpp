#include "CharacterDisplay.h"

void CharacterDisplay::start(uint8_t function, uint8_t columns, uint8_t lines) {
  this->lines = lines;
  setRowOffsets(0x00, 0x40, columns, 0x40 + columns);
  command(function);
  shown = ON;
  show(ON, true);
  clear();
  entry = RIGHT;
  enter(RIGHT, true);
}

void CharacterDisplay::clear() {
  command(0x01);
  delayMicroseconds(2000);
}

void CharacterDisplay::home() {
  command(0x02);
  delayMicroseconds(2000);
}

void CharacterDisplay::setRowOffsets(int line0, int line1, int line2, int line3) {
  offsets[0] = line0;
  offsets[1] = line1;
  offsets[2] = line2;
  offsets[3] = line3;
}

void CharacterDisplay::setCursor(uint8_t column, uint8_t line) {
  if (line > 3) line = 3;
  if (line >= lines) line = lines - 1;
  command(0x80 | (column + offsets[line]));
}

void CharacterDisplay::createChar(uint8_t code, uint8_t rows[]) {
  command(0x40 | (code & 7) << 3);
  for (uint8_t n = 0; n < 8; n++) write(rows[n]);
}

void CharacterDisplay::show(uint8_t bit, bool set) {
  shown = set ? shown | bit : shown & ~bit;
  command(0x08 | shown);
}

void CharacterDisplay::enter(uint8_t bit, bool set) {
  entry = set ? entry | bit : entry & ~bit;
  command(0x04 | entry);
}
