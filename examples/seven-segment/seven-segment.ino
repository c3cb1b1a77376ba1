// A seven-segment digit counts from 0 to 9, a step in 100 ms. Its common cathode is on ground, so a segment is lit where its pin
// is HIGH: A to G and the point are the pins 2 to 9.
const byte digits[] = {0x3F, 0x06, 0x5B, 0x4F, 0x66, 0x6D, 0x7D, 0x07, 0x7F, 0x6F};

void show(byte segments) {
  for (byte i = 0; i < 8; i++) digitalWrite(2 + i, bitRead(segments, i));
}

void setup() {
  for (byte i = 0; i < 8; i++) pinMode(2 + i, OUTPUT);
}

void loop() {
  for (byte n = 0; n < 10; n++) {
    show(digits[n]);
    delay(100);
  }
}
