// Sleeps in power-down until the button between pin 2 and ground is pressed, and then lights the LED for 20 milliseconds.
// In power-down timer 0 stands still, and millis with it.
#include <avr/sleep.h>

const int button = 2, led = 13;

void wake() {
  detachInterrupt(digitalPinToInterrupt(button));  // the low level would go on asking
}

void sleepUntilPressed() {
  set_sleep_mode(SLEEP_MODE_PWR_DOWN);
  noInterrupts();
  attachInterrupt(digitalPinToInterrupt(button), wake, LOW);
  sleep_enable();
  interrupts();  // the next instruction is done before any interrupt
  sleep_cpu();
  sleep_disable();
}

void setup() {
  pinMode(button, INPUT_PULLUP);
  pinMode(led, OUTPUT);
  Serial.begin(9600);
}

void loop() {
  Serial.print("sleeps at ");
  Serial.println(millis());
  Serial.flush();
  sleepUntilPressed();
  digitalWrite(led, HIGH);
  delay(20);
  digitalWrite(led, LOW);
  while (digitalRead(button) == LOW) {
  }
}
