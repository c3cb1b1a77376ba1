// A driver of lights whose outputs are low or open: a 1 lights an LED, a 0 leaves it, and OE turns all off.
const int DATA = 11, CLOCK = 13, LATCH = 10, ENABLE = 9, LAST = 2, OPEN = 3;

void put(byte value) {
  shiftOut(DATA, CLOCK, MSBFIRST, value);
  digitalWrite(LATCH, HIGH);
  digitalWrite(LATCH, LOW);
}

void told(const char *when) {
  Serial.print(when);
  Serial.print(digitalRead(LAST));
  Serial.println(digitalRead(OPEN));
}

void setup() {
  Serial.begin(115200);
  pinMode(DATA, OUTPUT);
  pinMode(CLOCK, OUTPUT);
  pinMode(LATCH, OUTPUT);
  pinMode(ENABLE, OUTPUT);
  pinMode(OPEN, INPUT_PULLUP);
  put(0b00000101);
  told("two: ");
  digitalWrite(ENABLE, HIGH);
  told("off: ");
  digitalWrite(ENABLE, LOW);
  put(0b10000010);
  told("others: ");
}

void loop() {}
