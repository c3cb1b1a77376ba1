const byte in[] = {4, 5, 6, 7};
void setup() {
  Serial.begin(115200);
  for (byte i = 0; i < 4; i++) pinMode(in[i], OUTPUT);
  pinMode(8, OUTPUT);
}
void loop() {
  for (byte n = 0; n < 16; n++) {
    for (byte i = 0; i < 4; i++) digitalWrite(in[i], n >> i & 1);
    delayMicroseconds(50);
    digitalWrite(8, HIGH);
    delayMicroseconds(50);
    digitalWrite(8, LOW);
    Serial.print(digitalRead(A0));
  }
  Serial.println();
  delay(1000);
}
