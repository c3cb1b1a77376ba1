void setup() {
  for (int n = 0; n < 10; n++) pinMode(2 + n, OUTPUT);
}

void loop() {
  int level = map(analogRead(A0), 0, 1023, 0, 10);
  for (int n = 0; n < 10; n++) digitalWrite(2 + n, n < level);
}
