// A driver A4988 turns a motor by a whole turn, and a quarter of one back in sixteenths of a step.

const int DIR = 2, STEP = 3;

static void steps(int count, unsigned us) {
  for (int k = 0; k < count; k++) {
    digitalWrite(STEP, HIGH);
    delayMicroseconds(us);
    digitalWrite(STEP, LOW);
    delayMicroseconds(us);
  }
}

void setup() {
  for (int pin = DIR; pin < 7; pin++) {
    pinMode(pin, OUTPUT);
  }
  digitalWrite(DIR, HIGH);
  steps(200, 500);
  for (int pin = 4; pin < 7; pin++) {
    digitalWrite(pin, HIGH);
  }
  digitalWrite(DIR, LOW);
  steps(800, 50);
}

void loop() {
}
