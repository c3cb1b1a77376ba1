// Calls millis() without a pause, and moves pin 13 each 10 ms, as sketches do that have other work while they wait.
unsigned long last = 0;
bool level = false;

void setup() {
  pinMode(LED_BUILTIN, OUTPUT);
}

void loop() {
  if (millis() - last >= 10) {
    last += 10;
    level = !level;
    digitalWrite(LED_BUILTIN, level);
  }
}
