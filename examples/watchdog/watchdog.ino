// The watchdog bites a sketch that hangs: the fourth round never ends, and 0.128 seconds later the sketch starts again.
#include <avr/wdt.h>

int rounds = 0;

void setup() {
  byte cause = MCUSR;
  MCUSR = 0;
  wdt_disable();
  Serial.begin(9600);
  Serial.println(cause & _BV(WDRF) ? "bitten" : "power on");
  pinMode(13, OUTPUT);
  wdt_enable(WDTO_120MS);
}

void loop() {
  digitalWrite(13, HIGH);
  Serial.println(++rounds);
  while (rounds == 4) {
  }
  delay(25);
  digitalWrite(13, LOW);
  delay(25);
  wdt_reset();
}
