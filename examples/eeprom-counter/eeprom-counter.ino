// Counts its starts in EEPROM, and lets the watchdog start it again, up to the fifth one.
#include <EEPROM.h>
#include <avr/wdt.h>

void setup() {
  byte cause = MCUSR;  // who started it; while WDRF is set there the watchdog cannot be turned off
  MCUSR = 0;
  wdt_disable();

  byte starts = EEPROM.read(0);  // 255 in a new Uno
  starts = starts == 255 ? 1 : starts + 1;
  EEPROM.update(0, starts);

  Serial.begin(9600);
  Serial.print("start ");
  Serial.print(starts);
  Serial.println(cause & _BV(WDRF) ? " by the watchdog" : " by power");
  Serial.flush();
  if (starts < 5) wdt_enable(WDTO_15MS);
}

void loop() {
}
