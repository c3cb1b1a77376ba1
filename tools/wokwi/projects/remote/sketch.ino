// A remote control, a knob, a motion sensor and a joystick: each says what it was moved to.
const int IR = 2, CLK = 3, DT = 4, SW = 5, PIR = 6, SEL = 7;
volatile unsigned long edges[68];
volatile byte at = 0;
volatile int steps = 0;

void onLight() {
  unsigned long now = micros();
  if (at && now - edges[at - 1] > 15000) {
    at = 0;
  }
  if (at < 68) {
    edges[at++] = now;
  }
}

void onClk() {
  steps += digitalRead(DT) ? -1 : 1;
}

void setup() {
  Serial.begin(115200);
  pinMode(SW, INPUT_PULLUP);
  pinMode(SEL, INPUT_PULLUP);
  attachInterrupt(digitalPinToInterrupt(IR), onLight, CHANGE);
  attachInterrupt(digitalPinToInterrupt(CLK), onClk, RISING);
}

// A frame of NEC's format: 9 ms of light, 4.5 ms without, and then 32 bits, each of which is told by the length of its dark.
void frame() {
  unsigned long code = 0;
  for (int i = 0; i < 32; i++) {
    unsigned long dark = edges[4 + 2 * i] - edges[3 + 2 * i];
    code |= (unsigned long)(dark > 1000) << i;
  }
  Serial.print("key ");
  Serial.print((code >> 16) & 255);
  Serial.println(((code >> 16 ^ code >> 24) & 255) == 255 && (code & 0xFFFF) == 0xFF00 ? "" : " with a fault");
  at = 0;
}

void told(const char *what, int now, int &before) {
  if (now != before) {
    before = now;
    Serial.print(what);
    Serial.println(now);
  }
}

void loop() {
  static int turn = 0, press = 0, motion = 0, x = 512, y = 512, sel = 0;
  if (at == 68) {
    frame();
  }
  told("turn ", steps, turn);
  told("press ", !digitalRead(SW), press);
  told("motion ", digitalRead(PIR), motion);
  told("x ", analogRead(A0), x);
  told("y ", analogRead(A1), y);
  told("sel ", !digitalRead(SEL), sel);
}
