// Resets a counter chip by pin 3, clocks it 17 times by pin 2, and prints what it shows on pins 4 to 7.
void setup() {
  Serial.begin(115200);
  pinMode(2, OUTPUT);
  pinMode(3, OUTPUT);
  digitalWrite(3, HIGH);
  digitalWrite(3, LOW);
  for (int i = 0; i < 17; i++) {
    digitalWrite(2, HIGH);
    digitalWrite(2, LOW);
    int count = 0;
    for (int bit = 0; bit < 4; bit++) {
      count |= digitalRead(4 + bit) << bit;
    }
    Serial.println(count);
  }
}

void loop() {
}
