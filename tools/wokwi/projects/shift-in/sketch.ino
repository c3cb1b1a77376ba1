const byte data = 2, clock = 3, load = 4;

void setup() {
  Serial.begin(115200);
  pinMode(clock, OUTPUT);
  pinMode(load, OUTPUT);
  digitalWrite(load, HIGH);
}

void loop() {
  digitalWrite(load, LOW);
  digitalWrite(load, HIGH);
  byte value = 0;
  for (int bit = 7; bit >= 0; bit--) {
    bitWrite(value, bit, digitalRead(data));
    digitalWrite(clock, HIGH);
    digitalWrite(clock, LOW);
  }
  Serial.println(value, BIN);
  delay(5);
}
