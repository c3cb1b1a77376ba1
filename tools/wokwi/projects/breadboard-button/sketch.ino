const int button = 2, led = 9;
int presses = 0;
bool was = false;

void setup() {
  Serial.begin(115200);
  pinMode(button, INPUT_PULLUP);
  pinMode(led, OUTPUT);
}

void loop() {
  bool pressed = digitalRead(button) == LOW;
  digitalWrite(led, pressed);
  if (pressed && !was) report(++presses);
  was = pressed;
}

void report(int count) {
  Serial.print("press ");
  Serial.println(count);
}
