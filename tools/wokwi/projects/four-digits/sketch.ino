// Shows 1234, a digit after the other, and stops on the third one, which is lit alone then.
const byte segments[] = {0x3F, 0x06, 0x5B, 0x4F, 0x66};

void setup() {
  for (byte pin = 2; pin <= 13; pin++) pinMode(pin, OUTPUT);
  for (byte round = 0; round < 3; round++)
    for (byte digit = 1; digit <= 4; digit++) {
      if (round == 2 && digit == 4) return;
      for (byte other = 1; other <= 4; other++) digitalWrite(8 + other, HIGH);
      for (byte s = 0; s < 7; s++) digitalWrite(2 + s, bitRead(segments[digit], s));
      digitalWrite(8 + digit, LOW);
      delay(2);
    }
}

void loop() {
}
