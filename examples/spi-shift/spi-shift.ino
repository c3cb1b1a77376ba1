// A light runs over the eight LEDs of a 74HC595, one step each 10 milliseconds: the SPI library, at 4 MHz.
#include <SPI.h>

const int latchPin = 10;  // STCP; MOSI, pin 11, is DS and SCK, pin 13, is SHCP

void setup() {
  pinMode(latchPin, OUTPUT);
  SPI.begin();
}

void loop() {
  for (int led = 0; led < 8; led++) {
    digitalWrite(latchPin, LOW);
    SPI.beginTransaction(SPISettings(4000000, MSBFIRST, SPI_MODE0));
    SPI.transfer(1 << led);
    SPI.endTransaction();
    digitalWrite(latchPin, HIGH);
    delay(10);
  }
}
