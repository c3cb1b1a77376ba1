// A text runs through two matrices that are wired one after the other.

const int DIN = 11, CS = 10, CLK = 13, COUNT = 2;

// Writes a register of one driver of the chain; the others get 0, which does nothing.
static void put(int driver, byte place, byte value) {
  digitalWrite(CS, LOW);
  for (int k = COUNT - 1; k >= 0; k--) {
    shiftOut(DIN, CLK, MSBFIRST, k == driver ? place : 0);
    shiftOut(DIN, CLK, MSBFIRST, k == driver ? value : 0);
  }
  digitalWrite(CS, HIGH);
}

// Columns of the text, the lowest bit at the top.
static const byte text[] = {0x7F, 0x49, 0x49, 0x36, 0, 0x7E, 0x11, 0x11, 0x7E, 0, 0x7F, 0x02, 0x0C, 0x02, 0x7F, 0, 0, 0, 0x5F, 0, 0};

void setup() {
  pinMode(DIN, OUTPUT);
  pinMode(CS, OUTPUT);
  pinMode(CLK, OUTPUT);
  for (int k = 0; k < COUNT; k++) {
    put(k, 0x0F, 0);
    put(k, 0x0B, 7);
    put(k, 0x09, 0);
    put(k, 0x0A, 8);
    put(k, 0x0C, 1);
  }
}

void loop() {
  static unsigned at;
  for (int k = 0; k < COUNT; k++) {
    for (int y = 0; y < 8; y++) {
      byte row = 0;
      for (int x = 0; x < 8; x++) {
        row = row << 1 | (text[(at + 8 * k + x) % sizeof text] >> y & 1);
      }
      put(k, y + 1, row);
    }
  }
  at++;
  delay(20);
}
