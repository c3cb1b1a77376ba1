volatile int position = 0;

void onClock() {
  position += digitalRead(3) ? 1 : -1;
}

void setup() {
  Serial.begin(115200);
  pinMode(2, INPUT);
  pinMode(3, INPUT);
  pinMode(4, INPUT_PULLUP);
  attachInterrupt(digitalPinToInterrupt(2), onClock, FALLING);
}

void loop() {
  static int shown = 0;
  if (position != shown) Serial.println(shown = position);
  if (digitalRead(4) == LOW) {
    Serial.println("pressed");
    while (digitalRead(4) == LOW) delay(1);
  }
}
