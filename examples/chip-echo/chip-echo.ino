// Sends the alphabet: each letter once the one before has come back.
void setup() {
  Serial.begin(115200);
  Serial.write('a');
}

void loop() {
  if (Serial.available()) {
    char letter = Serial.read();
    if (letter < 'z') {
      Serial.write(letter + 1);
    }
  }
}
