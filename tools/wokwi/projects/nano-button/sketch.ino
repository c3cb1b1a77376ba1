// Each press switches the LED.
const int button = 4;
bool lit = false;

void setup() {
  pinMode(button, INPUT_PULLUP);
  pinMode(LED_BUILTIN, OUTPUT);
}

void loop() {
  if (digitalRead(button) == LOW) {
    lit = !lit;
    digitalWrite(LED_BUILTIN, lit);
    while (digitalRead(button) == LOW) delay(1);
  }
}
