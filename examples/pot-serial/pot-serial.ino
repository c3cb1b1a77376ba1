// Prints the potentiometer's position each 50 milliseconds.
void setup() {
  Serial.begin(115200);
}

void loop() {
  Serial.println(analogRead(A0));
  delay(50);
}
