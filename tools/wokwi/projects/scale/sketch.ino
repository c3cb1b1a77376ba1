// A scale: 24 bits of a load cell's converter, and one more clock for the next value.
const int DT = 2, SCK_PIN = 3;

void setup() {
  Serial.begin(115200);
  pinMode(SCK_PIN, OUTPUT);
}

void loop() {
  while (digitalRead(DT)) {
  }
  unsigned long value = 0;
  for (int i = 0; i < 25; i++) {
    digitalWrite(SCK_PIN, HIGH);
    value = i < 24 ? value << 1 | digitalRead(DT) : value;
    digitalWrite(SCK_PIN, LOW);
  }
  Serial.print(value / 420.0, 2);
  Serial.println(" kg");
}
