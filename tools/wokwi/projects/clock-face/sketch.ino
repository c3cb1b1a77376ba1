// Four digits with a TM1637 count on from 12:05. Each byte has to be acknowledged; else it says so.

const int CLK = 2, DIO = 3;
static const uint8_t digits[] = {0x3F, 0x06, 0x5B, 0x4F, 0x66, 0x6D, 0x7D, 0x07, 0x7F, 0x6F};
static unsigned missing, noKey;

// Both wires are pulled up: 0 is an output that is low, 1 an input.
static void set(int pin, bool level) {
  pinMode(pin, level ? INPUT : OUTPUT);
  delayMicroseconds(20);
}

static void begin() { set(DIO, 1); set(CLK, 1); set(DIO, 0); set(CLK, 0); }
static void end() { set(DIO, 0); set(CLK, 1); set(DIO, 1); }

static bool clocked() {
  set(CLK, 1);
  bool level = digitalRead(DIO);
  set(CLK, 0);
  return level;
}

static void acknowledged() {
  set(DIO, 1);
  missing += clocked();
}

static void put(uint8_t byte) {
  for (uint8_t bit = 0; bit < 8; bit++) {
    set(DIO, byte >> bit & 1);
    clocked();
  }
  acknowledged();
}

static void command(uint8_t byte) { begin(); put(byte); end(); }

static void show(int minutes, bool colon) {
  const int shown[] = {minutes / 600, minutes / 60 % 10, minutes / 10 % 6, minutes % 10};
  command(0x40);
  begin();
  put(0xC0);
  for (int digit = 0; digit < 4; digit++) {
    put(digits[shown[digit]] | (digit == 1 && colon ? 0x80 : 0));
  }
  end();
  command(0x88 | 3);
}

static uint8_t keys() {
  uint8_t byte = 0;
  begin();
  put(0x42);
  set(DIO, 1);
  for (uint8_t bit = 0; bit < 8; bit++) {
    byte |= clocked() << bit;
  }
  acknowledged();
  end();
  return byte;
}

void setup() {
  Serial.begin(115200);
  digitalWrite(CLK, LOW);
  digitalWrite(DIO, LOW);
}

void loop() {
  static int minutes = 12 * 60 + 5;
  show(minutes, minutes & 1);
  noKey += keys() == 0xFF;
  minutes++;
  Serial.print(missing);
  Serial.print(' ');
  Serial.println(noKey);
  delay(100);
}
