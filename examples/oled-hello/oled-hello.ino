// An OLED of 128 by 64 dots on I2C, driven as the usual libraries do it: the picture is drawn into a buffer of 1 KiB, and the
// buffer is sent whole, in horizontal mode. Commands by the SSD1306's data sheet, "Command Table" and "Application Example".
#include <Wire.h>

const uint8_t ADDRESS = 0x3C;
const uint8_t COMMANDS = 0x00, DATA = 0x40; // control bytes: all bytes after them are one or the other
const uint8_t WIDTH = 128, HEIGHT = 64;

const uint8_t start[] PROGMEM = {
  0xAE,             // off
  0xD5, 0x80,       // clock
  0xA8, HEIGHT - 1, // lines
  0xD3, 0x00,       // offset
  0x40,             // first line
  0x8D, 0x14,       // charge pump on
  0x20, 0x00,       // horizontal mode
  0xA1, 0xC8,       // columns and lines in reverse order
  0xDA, 0x12,       // how the lines are connected
  0x81, 0xCF,       // contrast
  0xD9, 0xF1,       // precharge
  0xDB, 0x40,       // deselect level
  0xA4, 0xA6,       // what is stored, not inverted
  0x2E,             // no scrolling
  0xAF,             // on
};

struct Glyph {
  char letter;
  uint8_t columns[5];
};

// the letters that this sketch needs, five columns each, the lowest bit on top
const Glyph glyphs[] PROGMEM = {
  { 'H', { 0x7F, 0x08, 0x08, 0x08, 0x7F } },
  { 'e', { 0x38, 0x54, 0x54, 0x54, 0x18 } },
  { 'l', { 0x00, 0x41, 0x7F, 0x40, 0x00 } },
  { 'o', { 0x38, 0x44, 0x44, 0x44, 0x38 } },
  { ',', { 0x00, 0x50, 0x30, 0x00, 0x00 } },
  { 'U', { 0x3F, 0x40, 0x40, 0x40, 0x3F } },
  { 'n', { 0x7C, 0x08, 0x04, 0x04, 0x78 } },
  { '!', { 0x00, 0x00, 0x5F, 0x00, 0x00 } },
};

uint8_t picture[WIDTH * HEIGHT / 8];

void dot(uint8_t x, uint8_t y) {
  if (x < WIDTH && y < HEIGHT) picture[WIDTH * (y / 8) + x] |= 1 << y % 8;
}

void frame(uint8_t left, uint8_t top, uint8_t right, uint8_t bottom) {
  for (uint8_t x = left; x <= right; x++) dot(x, top), dot(x, bottom);
  for (uint8_t y = top; y <= bottom; y++) dot(left, y), dot(right, y);
}

void circle(int8_t middle_x, int8_t middle_y, int8_t radius) {
  for (int8_t y = -radius; y <= radius; y++)
    for (int8_t x = -radius; x <= radius; x++) {
      int square = x * x + y * y;
      if (square <= radius * radius && square > (radius - 2) * (radius - 2)) dot(middle_x + x, middle_y + y);
    }
}

// each dot of a letter as a square of two by two
void letter(uint8_t left, uint8_t top, char wanted) {
  for (const Glyph &glyph : glyphs)
    if (char(pgm_read_byte(&glyph.letter)) == wanted)
      for (uint8_t column = 0; column < 5; column++)
        for (uint8_t row = 0; row < 7; row++)
          if (pgm_read_byte(&glyph.columns[column]) >> row & 1)
            for (uint8_t k = 0; k < 4; k++) dot(left + 2 * column + k % 2, top + 2 * row + k / 2);
}

void text(uint8_t left, uint8_t top, const char *words) {
  for (; *words; words++, left += 11) letter(left, top, *words);
}

void command(uint8_t byte) {
  Wire.beginTransmission(ADDRESS);
  Wire.write(COMMANDS);
  Wire.write(byte);
  Wire.endTransmission();
}

void show() {
  command(0x21), command(0), command(WIDTH - 1);      // the columns
  command(0x22), command(0), command(HEIGHT / 8 - 1); // the pages
  for (unsigned at = 0; at < sizeof picture; at += 16) {
    Wire.beginTransmission(ADDRESS);
    Wire.write(DATA);
    Wire.write(picture + at, 16);
    Wire.endTransmission();
  }
}

void setup() {
  Wire.begin();
  Wire.setClock(400000);
  for (uint8_t k = 0; k < sizeof start; k++) command(pgm_read_byte(start + k));
  frame(0, 0, WIDTH - 1, HEIGHT - 1);
  text(5, 8, "Hello, Uno!");
  for (int8_t radius = 14; radius > 0; radius -= 5) circle(64, 44, radius);
  show();
}

void loop() {}
