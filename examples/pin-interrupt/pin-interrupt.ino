// Timer 1 toggles pin 9 every 500 microseconds, with no help of the core. A wire leads to pin 2, where each rising
// edge is an interrupt; every tenth one turns the LED on pin 13.
volatile byte edges = 0;

void onEdge() {
  if (++edges == 10) {
    edges = 0;
    digitalWrite(13, !digitalRead(13));
  }
}

void setup() {
  pinMode(13, OUTPUT);
  pinMode(9, OUTPUT);
  attachInterrupt(digitalPinToInterrupt(2), onEdge, RISING);
  TCCR1A = 1 << COM1A0;
  TCCR1B = 1 << WGM12 | 1 << CS11;
  OCR1A = 999;
}

void loop() {
}
