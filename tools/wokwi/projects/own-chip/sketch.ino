// 24 pulses: the LED is lit three times.
void setup() {
  pinMode(5, OUTPUT);
  for (int n = 0; n < 24; n++) {
    digitalWrite(5, HIGH);
    digitalWrite(5, LOW);
  }
}

void loop() {
}
