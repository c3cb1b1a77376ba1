void setup() {
  pinMode(7, INPUT);
  pinMode(12, OUTPUT);
}
void loop() {
  digitalWrite(12, digitalRead(7));
}
