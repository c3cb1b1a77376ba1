// A parking aid: how far the wall is, corrected by how fast sound is in air of this temperature. The button says how often it was
// pressed; its contact bounces, so a press counts once it has been still for 5 ms.
const int ECHO = 2, TRIG = 3, BUTTON = 4, NEAR = 8, FAR = 9;
int presses = 0;
bool isDown = false, before = false;
unsigned long changed = 0;

void setup() {
  Serial.begin(115200);
  pinMode(TRIG, OUTPUT);
  pinMode(NEAR, OUTPUT);
  pinMode(FAR, OUTPUT);
  pinMode(BUTTON, INPUT_PULLUP);
}

void button() {
  bool now = digitalRead(BUTTON) == LOW;
  if (now != before) {
    before = now;
    changed = millis();
  }
  if (now != isDown && millis() - changed >= 5) {
    isDown = now;
    presses += now;
  }
}

void loop() {
  static unsigned long next = 0;
  button();
  if (millis() < next) {
    return;
  }
  next += 50;
  digitalWrite(TRIG, HIGH);
  delayMicroseconds(10);
  digitalWrite(TRIG, LOW);
  unsigned long us = pulseIn(ECHO, HIGH, 30000);
  float kelvin = 1 / (log(1 / (1023.0 / analogRead(A0) - 1)) / 3950 + 1 / 298.15);
  float speed = 331.3 + 0.606 * (kelvin - 273.15); // m/s
  int cm = us * speed / 20000 + 0.5;
  digitalWrite(NEAR, cm < 30);
  digitalWrite(FAR, cm >= 100);
  Serial.print(cm);
  Serial.print(" cm, ");
  Serial.print(kelvin - 273.15, 0);
  Serial.print(" C, ");
  Serial.println(presses);
}
