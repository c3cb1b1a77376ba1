const byte red = 12, yellow = 11, green = 10;

void lights(bool r, bool y, bool g, int ms) {
  digitalWrite(red, r);
  digitalWrite(yellow, y);
  digitalWrite(green, g);
  delay(ms);
}

void setup() {
  for (byte pin = green; pin <= red; pin++) pinMode(pin, OUTPUT);
}

void loop() {
  lights(1, 0, 0, 15);
  lights(1, 1, 0, 5);
  lights(0, 0, 1, 15);
  lights(0, 1, 0, 5);
}
