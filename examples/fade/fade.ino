// An LED on pin 9 grows brighter and darker: PWM of timer 1.
int brightness = 0;
int amount = 5;

void setup() {
  pinMode(9, OUTPUT);
}

void loop() {
  analogWrite(9, brightness);
  brightness += amount;
  if (brightness <= 0 || brightness >= 255) {
    amount = -amount;
  }
  delay(30);
}
