// The LED on pin 13 is on while the button between pin 2 and ground is pressed.
void setup() {
  pinMode(2, INPUT_PULLUP);
  pinMode(13, OUTPUT);
}

void loop() {
  digitalWrite(13, !digitalRead(2));
}
