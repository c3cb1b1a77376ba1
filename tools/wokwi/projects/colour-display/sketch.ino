// A colour display on SPI, in two orientations: a house with a sun, drawn as filled boxes.
#include <SPI.h>
const int CS = 10, DC = 9, RST = 8;

void command(byte value) {
  digitalWrite(DC, LOW);
  SPI.transfer(value);
  digitalWrite(DC, HIGH);
}

void window(byte which, int first, int last) {
  command(which);
  SPI.transfer16(first);
  SPI.transfer16(last);
}

void box(int x, int y, int width, int height, unsigned colour) {
  window(0x2A, x, x + width - 1);
  window(0x2B, y, y + height - 1);
  command(0x2C);
  for (int left = width * height; left > 0; left--) {
    SPI.transfer16(colour);
  }
}

void order(byte value) {
  command(0x36);
  SPI.transfer(value);
}

void setup() {
  Serial.begin(115200);
  pinMode(CS, OUTPUT);
  pinMode(DC, OUTPUT);
  pinMode(RST, OUTPUT);
  digitalWrite(CS, HIGH);
  digitalWrite(RST, LOW);
  delayMicroseconds(10);
  digitalWrite(RST, HIGH);
  SPI.begin();
  SPI.beginTransaction(SPISettings(8000000, MSBFIRST, SPI_MODE0));
  digitalWrite(CS, LOW);
  command(0x11);
  command(0x3A);
  SPI.transfer(0x55);
  order(0x48);
  command(0x29);
  box(70, 200, 100, 80, 0xF800);
  for (int line = 0; line < 50; line++) {
    box(120 - line, 150 + line, 2 * line + 1, 1, 0xC300);
  }
  box(110, 235, 24, 45, 0x8200);
  box(80, 215, 20, 20, 0x07FF);
  box(190, 20, 30, 30, 0xFFE0);
  order(0x28);
  box(280, 0, 40, 240, 0x0400);
  digitalWrite(CS, HIGH);
  Serial.println("drawn");
}

void loop() {}
