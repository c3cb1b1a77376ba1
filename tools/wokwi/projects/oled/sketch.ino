// Looks for a display on the bus, and sends it some commands. endTransmission tells whether each byte was acknowledged.
#include <Wire.h>

void setup() {
  Serial.begin(115200);
  Wire.begin();
  for (byte address = 0x38; address < 0x40; address++) {
    Wire.beginTransmission(address);
    if (Wire.endTransmission() == 0) {
      Serial.print("a display at 0x");
      Serial.println(address, HEX);
    }
  }
  const byte commands[] = {0xAE, 0xD5, 0x80, 0xA8, 0x3F, 0xD3, 0x00, 0x40, 0x8D, 0x14, 0x20, 0x00, 0xA1, 0xC8, 0xAF};
  Wire.beginTransmission(0x3C);
  Wire.write(0);
  Wire.write(commands, sizeof commands);
  Serial.println(Wire.endTransmission() == 0 ? "it takes commands" : "it takes none");
}

void loop() {
}
