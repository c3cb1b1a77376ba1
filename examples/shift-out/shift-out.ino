// A light runs over the eight LEDs of a 74HC595, one step each 10 milliseconds: shiftOut.
const int dataPin = 11;   // DS
const int clockPin = 12;  // SHCP
const int latchPin = 8;   // STCP

void setup() {
  pinMode(dataPin, OUTPUT);
  pinMode(clockPin, OUTPUT);
  pinMode(latchPin, OUTPUT);
}

void loop() {
  for (int led = 0; led < 8; led++) {
    digitalWrite(latchPin, LOW);
    shiftOut(dataPin, clockPin, MSBFIRST, 1 << led);
    digitalWrite(latchPin, HIGH);
    delay(10);
  }
}
