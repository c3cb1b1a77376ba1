int brightness(int part) {
  return 255 - constrain(part, 0, 255);
}
void setup() {
  pinMode(9, OUTPUT); pinMode(10, OUTPUT); pinMode(11, OUTPUT);
}
void loop() {
  int hue = analogRead(A0);
  analogWrite(9, brightness(hue / 4));
  analogWrite(10, brightness(0));
  analogWrite(11, brightness(255));
  delay(10);
}
