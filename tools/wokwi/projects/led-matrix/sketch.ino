// A bare matrix of LEDs: the sketch lights one row after another, 1 ms each, so that the eye sees a heart.
const byte ROWS[8] = {2, 3, 4, 5, 6, 7, 8, 9}, COLUMNS[8] = {10, 11, 12, 13, A0, A1, A2, A3};
const byte HEART[8] = {0b00000000, 0b01100110, 0b11111111, 0b11111111, 0b01111110, 0b00111100, 0b00011000, 0b00000000};

void setup() {
  for (int i = 0; i < 8; i++) {
    pinMode(ROWS[i], OUTPUT);
    pinMode(COLUMNS[i], OUTPUT);
    digitalWrite(COLUMNS[i], HIGH);
  }
}

void loop() {
  for (int row = 0; row < 8; row++) {
    for (int column = 0; column < 8; column++) {
      digitalWrite(COLUMNS[column], !(HEART[row] >> (7 - column) & 1));
    }
    digitalWrite(ROWS[row], HIGH);
    delay(1);
    digitalWrite(ROWS[row], LOW);
  }
}
