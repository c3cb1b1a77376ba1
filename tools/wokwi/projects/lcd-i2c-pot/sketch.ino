#include <LiquidCrystal_I2C.h>

LiquidCrystal_I2C lcd(0x3F, 20, 4);

void setup() {
  lcd.init();
  lcd.backlight();
  lcd.setCursor(3, 0);
  lcd.print("Volts:");
}

void loop() {
  lcd.setCursor(0, 1);
  lcd.print(analogRead(A0) * 5.0 / 1023);
  lcd.print("  ");
  delay(50);
}
