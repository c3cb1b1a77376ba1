// A text that is longer than the display moves to the left, under it an own character and a degree sign.
#include <LiquidCrystal_I2C.h>

LiquidCrystal_I2C lcd(0x27, 16, 2);

void setup() {
  static uint8_t heart[] = {0, 10, 31, 31, 14, 4, 0, 0};
  lcd.init();
  lcd.backlight();
  lcd.createChar(1, heart);
  lcd.setCursor(0, 0);
  lcd.print("A text that is longer than sixteen");
  lcd.setCursor(0, 1);
  lcd.write(1);
  lcd.print(" 21.5");
  lcd.write(0xDF);
  lcd.print("C, and what follows");
}

void loop() {
  delay(100);
  lcd.scrollDisplayLeft();
}
