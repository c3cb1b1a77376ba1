// Three notes on pin 8, each for 20 ms: tone() toggles the pin in an interrupt of timer 2.
const unsigned int notes[] = { 440, 523, 659 };

void setup() {
  for (byte i = 0; i < 3; i++) {
    tone(8, notes[i], 20);
    delay(25);
  }
}

void loop() {
}
