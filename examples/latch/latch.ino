// Says what a latch of two gates holds, each time that it changes.
void setup() {
  Serial.begin(115200);
  pinMode(2, INPUT);
}

void loop() {
  static int held = -1;
  int now = digitalRead(2);
  if (now != held) {
    held = now;
    Serial.println(now ? "set" : "reset");
  }
}
