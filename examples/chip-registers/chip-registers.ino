// Writes four bytes to the registers 5 to 8 of a chip at SPI, and reads them back.
#include <SPI.h>

void select(byte first) {
  digitalWrite(SS, LOW);
  SPI.transfer(first);
}

void setup() {
  Serial.begin(115200);
  pinMode(SS, OUTPUT);
  digitalWrite(SS, HIGH);
  SPI.begin();
  SPI.beginTransaction(SPISettings(4000000, MSBFIRST, SPI_MODE0));
  select(0x85);
  for (const char *c = "\x12\x34\xAB\xCD"; *c; c++) {
    SPI.transfer(*c);
  }
  digitalWrite(SS, HIGH);
  select(0x05);
  for (int i = 0; i < 4; i++) {
    Serial.println(SPI.transfer(0), HEX);
  }
  digitalWrite(SS, HIGH);
}

void loop() {}
