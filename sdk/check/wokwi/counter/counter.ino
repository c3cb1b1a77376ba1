// Sets an I2C counter at address 0x22 and reads three bytes of it, twice, and prints them with the level of its pin INT.
#include <Wire.h>

void count(byte from) {
  Wire.beginTransmission(0x22);
  Wire.write(from);
  Serial.print(Wire.endTransmission());
  Wire.requestFrom(0x22, 3);
  while (Wire.available()) {
    Serial.print(' ');
    Serial.print(Wire.read());
  }
  Serial.println(digitalRead(2) ? " high" : " low");
}

void setup() {
  pinMode(2, INPUT_PULLUP);
  Serial.begin(115200);
  Wire.begin();
  count(40);
  count(200);
}

void loop() {}
