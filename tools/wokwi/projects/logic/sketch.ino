// The flip-flop halves the clock; from 5 milliseconds on the other LED shows the clock itself.
void setup() {
  pinMode(7, OUTPUT);
  delay(5);
  digitalWrite(7, HIGH);
}

void loop() {
}
