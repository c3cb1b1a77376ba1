// The two LEDs are in holes of the same name on two boards, and take turns.
void setup() {
  pinMode(7, OUTPUT);
  pinMode(8, OUTPUT);
}

void loop() {
  digitalWrite(7, HIGH);
  digitalWrite(8, LOW);
  delay(3);
  digitalWrite(7, LOW);
  digitalWrite(8, HIGH);
  delay(2);
}
