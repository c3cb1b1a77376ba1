// Sends bytes by SPI while MOSI is wired to MISO, and says whether they come back.
#include <SPI.h>

const byte bytes[] = { 0x4D, 0x75, 0x64, 0x00, 0xFF, 0xA5 };

void setup() {
  Serial.begin(115200);
  digitalWrite(SS, HIGH);
  SPI.begin();
  SPI.beginTransaction(SPISettings(4000000, MSBFIRST, SPI_MODE0));
  digitalWrite(SS, LOW);
  for (byte sent : bytes) {
    byte received = SPI.transfer(sent);
    Serial.println(received == sent ? "back" : "lost");
  }
  digitalWrite(SS, HIGH);
  SPI.endTransaction();
}

void loop() {
}
