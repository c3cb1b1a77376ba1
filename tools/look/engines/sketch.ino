// Speaks on UART, on SPI in its four modes, and on I2C, each time with other bytes, counts and pauses.
#include <SPI.h>
#include <Wire.h>

const uint8_t modes[] = {SPI_MODE0, SPI_MODE1, SPI_MODE2, SPI_MODE3};

void setup() {
  Serial.begin(115200);
  SPI.begin();
  Wire.begin();
  pinMode(7, OUTPUT);
  digitalWrite(7, HIGH);
}

void loop() {
  static uint8_t n;
  n++;
  Serial.write(n * 37);
  for (uint8_t mode : modes) {
    SPI.beginTransaction(SPISettings(n & 1 ? 8000000 : 1000000, MSBFIRST, mode));
    digitalWrite(7, LOW);
    for (uint8_t k = 0; k < 1 + n % 7; k++) SPI.transfer(n * 11 + k);
    digitalWrite(7, HIGH);
    SPI.endTransaction();
  }
  Wire.beginTransmission(n % 7 == 6 ? 0x23 : 0x22);
  Wire.write(n);
  Wire.write(n + 1);
  Wire.endTransmission(n & 1);
  Wire.requestFrom(0x22, 1 + n % 3);
  while (Wire.available()) Wire.read();
  delayMicroseconds(n * 3);
}
