// 440 Hz for 50 milliseconds: 22 half waves are high.
void setup() {
  tone(8, 440, 50);
}

void loop() {
}
