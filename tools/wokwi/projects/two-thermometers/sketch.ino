// Two thermometers on one wire: the sketch searches for their numbers, and then asks each for its temperature.
const int WIRE = 7;
byte found[4][8];
int count = 0;

void low() { pinMode(WIRE, OUTPUT); digitalWrite(WIRE, LOW); }
void release() { pinMode(WIRE, INPUT); }

bool reset() {
  low();
  delayMicroseconds(480);
  release();
  delayMicroseconds(70);
  bool isThere = digitalRead(WIRE) == LOW;
  delayMicroseconds(410);
  return isThere;
}

void writeBit(bool bit) {
  noInterrupts();
  low();
  delayMicroseconds(bit ? 6 : 60);
  release();
  interrupts();
  delayMicroseconds(bit ? 64 : 10);
}

bool readBit() {
  noInterrupts();
  low();
  delayMicroseconds(3);
  release();
  delayMicroseconds(9);
  bool bit = digitalRead(WIRE);
  interrupts();
  delayMicroseconds(55);
  return bit;
}

void writeByte(byte value) {
  for (int i = 0; i < 8; i++) {
    writeBit(value >> i & 1);
  }
}

// One path through the tree of numbers: at the bit `last` to the 1, before it as in the number before, after it to the 0. Answers the
// last bit at which there was a 0 to take and a 1 was left, or -1.
int search(byte number[8], int last) {
  int left = -1;
  reset();
  writeByte(0xF0);
  for (int i = 0; i < 64; i++) {
    bool one = readBit(), zero = readBit(), bit = one;
    if (one && zero) {
      return -2;
    }
    if (!one && !zero) {
      bit = i == last || (i < last && (number[i / 8] >> i % 8 & 1));
      if (!bit) {
        left = i;
      }
    }
    bitWrite(number[i / 8], i % 8, bit);
    writeBit(bit);
  }
  return left;
}

void setup() {
  Serial.begin(115200);
  byte number[8] = {0};
  int last = -1;
  do {
    last = search(number, last);
    if (last == -2) {
      Serial.println("nobody answers");
      return;
    }
    memcpy(found[count++], number, 8);
  } while (last >= 0 && count < 4);
  Serial.print(count);
  Serial.println(" thermometers");
}

void loop() {
  for (int n = 0; n < count; n++) {
    reset();
    writeByte(0xCC);
    writeByte(0x44);
    reset();
    writeByte(0x55);
    for (int i = 0; i < 8; i++) {
      writeByte(found[n][i]);
    }
    writeByte(0xBE);
    int raw = 0;
    for (int i = 0; i < 16; i++) {
      raw |= (int)readBit() << i;
    }
    Serial.print(found[n][1], HEX);
    Serial.print(": ");
    Serial.print(raw / 16.0);
    Serial.print(n + 1 < count ? ", " : "\n");
  }
  delay(20);
}
