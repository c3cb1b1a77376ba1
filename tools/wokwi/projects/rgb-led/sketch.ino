// Red blinks three times and stays off, green stays on, blue stays off: the common anode shows red turned round.
void setup() {
  for (int pin = 9; pin <= 11; pin++) pinMode(pin, OUTPUT);
  digitalWrite(10, HIGH);
  for (int n = 0; n < 3; n++) {
    digitalWrite(9, HIGH);
    delay(2);
    digitalWrite(9, LOW);
    delay(2);
  }
}

void loop() {
}
