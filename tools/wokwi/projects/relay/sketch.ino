// The relay is off for 10 milliseconds, then on for good; it works 5 milliseconds later.
void setup() {
  pinMode(3, OUTPUT);
  delay(10);
  digitalWrite(3, HIGH);
}

void loop() {
}
