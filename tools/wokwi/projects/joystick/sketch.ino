void setup() {
  Serial.begin(115200);
  pinMode(2, INPUT_PULLUP);
}

void loop() {
  Serial.print(analogRead(A1));
  Serial.print(' ');
  Serial.print(analogRead(A0));
  Serial.println(digitalRead(2) ? "" : " pressed");
  delay(20);
}
