// A text display on six pins shows "hello, world!" and the seconds since the start. What LiquidCrystal lcd(12, 11, 5, 4, 3, 2)
// does on these pins stands here in full, so that the sketch needs no library.
const byte rs = 12, enable = 11, data[] = {5, 4, 3, 2};  // D4 to D7

void writeHalf(byte half) {
  for (byte i = 0; i < 4; i++) digitalWrite(data[i], bitRead(half, i));
  digitalWrite(enable, HIGH);
  delayMicroseconds(1);
  digitalWrite(enable, LOW);  // the display takes the half here
  delayMicroseconds(100);
}

void send(byte value, byte isText) {
  digitalWrite(rs, isText);
  writeHalf(value >> 4);
  writeHalf(value & 15);
}

void command(byte value) {
  send(value, LOW);
}

void print(const char *text) {
  while (*text) send(*text++, HIGH);
}

void begin() {
  pinMode(rs, OUTPUT);
  pinMode(enable, OUTPUT);
  for (byte i = 0; i < 4; i++) pinMode(data[i], OUTPUT);
  delay(50);
  for (byte i = 0; i < 3; i++) {
    writeHalf(3);
    delay(5);
  }
  writeHalf(2);
  command(0x28);  // four data lines, two lines of text
  command(0x0C);  // on
  command(0x01);  // clear
  delay(2);
  command(0x06);  // from left to right
}

void setup() {
  begin();
  print("hello, world!");
}

void loop() {
  char seconds[11];
  ultoa(millis() / 1000, seconds, 10);
  command(0x80 + 0x40);  // the second line
  print(seconds);
}
