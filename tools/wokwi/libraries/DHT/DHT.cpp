#include "DHT.h"

bool DHT::read(bool force) {
  if (asked && !force && millis() - when < 2000) return good;
  asked = true;
  when = millis();
  pinMode(pin, OUTPUT);
  digitalWrite(pin, LOW);
  if (type == DHT11 || type == DHT12) delay(20); else delayMicroseconds(1100);
  pinMode(pin, INPUT_PULLUP);
  noInterrupts();
  good = receive();
  interrupts();
  return good;
}

// The answer's first high time, and then one for each of 40 bits; the longer ones are 1.
bool DHT::receive() {
  if (!pulseIn(pin, HIGH, 1000)) return false;
  for (uint8_t n = 0; n < 40; n++) {
    unsigned long high = pulseIn(pin, HIGH, 1000);
    if (!high) return false;
    data[n / 8] = data[n / 8] << 1 | (high > 45);
  }
  return data[4] == (uint8_t)(data[0] + data[1] + data[2] + data[3]);
}

float DHT::readTemperature(bool fahrenheit, bool force) {
  if (!read(force)) return NAN;
  float celsius;
  if (type == DHT11 || type == DHT12) {
    celsius = data[2] + (data[3] & 0x7F) / 10.0;
    if (data[3] & 0x80) celsius = -celsius;
  } else {
    celsius = ((data[2] & 0x7F) << 8 | data[3]) / 10.0;
    if (data[2] & 0x80) celsius = -celsius;
  }
  return fahrenheit ? convertCtoF(celsius) : celsius;
}

float DHT::readHumidity(bool force) {
  if (!read(force)) return NAN;
  if (type == DHT11 || type == DHT12) return data[0] + data[1] / 10.0;
  return (data[0] << 8 | data[1]) / 10.0;
}

float DHT::computeHeatIndex(float temperature, float percent, bool fahrenheit) {
  float t = fahrenheit ? temperature : convertCtoF(temperature);
  float index = 0.5 * (t + 61.0 + (t - 68.0) * 1.2 + percent * 0.094);
  if ((index + t) / 2 >= 80) {
    index = -42.379 + 2.04901523 * t + 10.14333127 * percent - 0.22475541 * t * percent - 0.00683783 * t * t - 0.05481717 * percent * percent +
            0.00122874 * t * t * percent + 0.00085282 * t * percent * percent - 0.00000199 * t * t * percent * percent;
    if (percent < 13 && t >= 80 && t <= 112) {
      index -= (13 - percent) / 4 * sqrt((17 - fabs(t - 95)) / 17);
    } else if (percent > 85 && t >= 80 && t <= 87) {
      index += (percent - 85) / 10 * ((87 - t) / 5);
    }
  }
  return fahrenheit ? index : convertFtoC(index);
}
