// Measures how long a chip with a slider holds pin 2 high.
void setup() {
  Serial.begin(115200);
  pinMode(2, INPUT);
}

void loop() {
  unsigned long us = pulseIn(2, HIGH);
  Serial.println((us + 5) / 10);
  delayMicroseconds(1500);
}
