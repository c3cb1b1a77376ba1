// The sensors DHT11, DHT21 and DHT22 on one wire, with the calls of the library of this name that most sketches use. It is taken
// where that library is not installed.
#ifndef DHT_H
#define DHT_H

#include <Arduino.h>

#define DHT11 11
#define DHT12 12
#define DHT21 21
#define DHT22 22
#define AM2301 21
#define AM2302 22

class DHT {
public:
  DHT(uint8_t pin, uint8_t type, uint8_t = 6) : pin(pin), type(type), asked(false), good(false) {}

  void begin(uint8_t = 55) { pinMode(pin, INPUT_PULLUP); }
  // Asks the sensor, at most each two seconds unless it is forced; whether what it said last was whole.
  bool read(bool force = false);
  // NAN where the sensor does not answer.
  float readTemperature(bool fahrenheit = false, bool force = false);
  float readHumidity(bool force = false);
  float convertCtoF(float celsius) { return celsius * 1.8 + 32; }
  float convertFtoC(float fahrenheit) { return (fahrenheit - 32) / 1.8; }
  // By the regression of Rothfusz, as the weather service of the USA has it.
  float computeHeatIndex(float temperature, float percent, bool fahrenheit = true);

private:
  bool receive();

  uint8_t pin, type, data[5];
  unsigned long when;
  bool asked, good;
};

#endif
