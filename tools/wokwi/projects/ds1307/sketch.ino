// Prints the time each 0.7 seconds, then sets it, and reads the hour once it has passed noon; memory keeps what is written.
#include <Wire.h>
const byte rtc = 0x68;

byte decimal(byte coded) { return coded / 16 * 10 + coded % 16; }

void print2(byte number, char after) {
  if (number < 10) Serial.print('0');
  Serial.print(number);
  Serial.print(after);
}

void printTime() {
  Wire.beginTransmission(rtc);
  Wire.write(0);
  Wire.endTransmission();
  Wire.requestFrom(rtc, (byte)7);
  byte time[7];
  for (byte n = 0; n < 7; n++) time[n] = decimal(Wire.read());
  Serial.print(20);
  print2(time[6], '-');
  print2(time[5], '-');
  print2(time[4], ' ');
  print2(time[2], ':');
  print2(time[1], ':');
  print2(time[0], ' ');
  Serial.println(time[3]);
}

byte readRegister(byte number) {
  Wire.beginTransmission(rtc);
  Wire.write(number);
  Wire.endTransmission();
  Wire.requestFrom(rtc, (byte)1);
  return Wire.read();
}

void setup() {
  Serial.begin(115200);
  Wire.begin();
  for (byte n = 0; n < 4; n++) {
    printTime();
    delay(700);
  }
  Wire.beginTransmission(rtc);
  const byte noon[] = {0, 0x59, 0x59, 0x51, 0x07, 0x31, 0x12, 0x99};  // 11:59:59 in the morning, of twelve hours
  Wire.write(noon, 8);
  Wire.write(0x90);  // 1 Hz on SQW
  Wire.write(0xA5);
  Wire.endTransmission();
  Serial.println(readRegister(8), HEX);
  delay(1100);
  Serial.println(readRegister(2), HEX);  // 12, in the afternoon, of twelve hours
}

void loop() {
}
