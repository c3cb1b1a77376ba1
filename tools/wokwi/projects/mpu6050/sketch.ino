#include <Wire.h>
const byte imu = 0x68;

void put(byte reg, byte value) {
  Wire.beginTransmission(imu);
  Wire.write(reg);
  Wire.write(value);
  Wire.endTransmission();
}

void show() {
  Wire.beginTransmission(imu);
  Wire.write(0x3B);
  Wire.endTransmission(false);
  Wire.requestFrom(imu, (byte)14);
  for (byte n = 0; n < 7; n++) {
    int high = Wire.read();
    Serial.print((int)(high << 8 | Wire.read()));
    Serial.print(n < 6 ? ' ' : '\n');
  }
}

void setup() {
  Serial.begin(115200);
  Wire.begin();
  show();         // asleep
  put(0x6B, 0);   // awake
  show();
  put(0x1C, 8);   // 4 g
  put(0x1B, 24);  // 2000 degrees a second
  show();
}

void loop() {
}
