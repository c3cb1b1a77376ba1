// Four lines of text: an own character, a degree sign, the third line, and a number at the cursor.
#include <LiquidCrystal_I2C.h>

LiquidCrystal_I2C lcd(0x27, 20, 4);

void setup() {
  static uint8_t heart[] = {0, 10, 31, 31, 14, 4, 0, 0};
  lcd.init();
  lcd.backlight();
  lcd.createChar(1, heart);
  lcd.setCursor(0, 0);
  lcd.print("Own character: ");
  lcd.write(1);
  lcd.setCursor(0, 1);
  lcd.print("21.5");
  lcd.write(0xDF);
  lcd.print("C  second line");
  lcd.setCursor(0, 2);
  lcd.print("the third of 4 lines");
  lcd.cursor();
}

void loop() {
  static int n;
  lcd.setCursor(0, 3);
  lcd.print("count ");
  lcd.print(n++);
  delay(50);
}
