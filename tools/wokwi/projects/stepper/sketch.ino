// A stepper motor goes 30 steps on and 10 back, by the phases of a driver with four wires.

const int pins[] = {8, 9, 10, 11};
static const byte phases[] = {0b1010, 0b0110, 0b0101, 0b1001};
static unsigned place;

static void turn(int steps) {
  for (int k = 0; k < abs(steps); k++) {
    place += steps > 0 ? 1 : -1;
    for (int i = 0; i < 4; i++) {
      digitalWrite(pins[i], phases[place % 4] >> (3 - i) & 1);
    }
    delay(10);
  }
}

void setup() {
  for (int pin : pins) {
    pinMode(pin, OUTPUT);
  }
  turn(30);
  delay(50);
  turn(-10);
}

void loop() {
}
