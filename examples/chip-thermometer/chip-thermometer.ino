// Reads an I2C thermometer at address 0x48 ten times a second, and prints what it says in degrees Celsius.
#include <Wire.h>

void setup() {
  Serial.begin(115200);
  Wire.begin();
}

void loop() {
  Wire.requestFrom(0x48, 2);
  int value = Wire.read() << 8;
  value |= Wire.read();
  Serial.println(value / 256.0, 1);
  delay(100);
}
