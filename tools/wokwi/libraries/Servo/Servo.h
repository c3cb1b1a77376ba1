// Up to 12 servos on any pins, by timer 1, with the calls of Arduino's library of this name. It is taken where that library is
// not installed: the IDE brings it, arduino-cli and Debian's core do not. Each servo has one pulse in 20 milliseconds.
#ifndef SERVO_H
#define SERVO_H

#include <Arduino.h>

class Servo {
public:
  Servo();
  uint8_t attach(int pin);
  uint8_t attach(int pin, int least, int most);
  void detach();
  void write(int value);  // below 200 an angle, else microseconds
  void writeMicroseconds(int value);
  int read();
  int readMicroseconds();
  bool attached();

private:
  uint8_t index;
  int least, most;
};

#endif
