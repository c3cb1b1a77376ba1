#include <Keypad.h>
#include <LiquidCrystal_I2C.h>
#include <Wire.h>

const byte ROWS = 4, COLS = 4;
char keys[ROWS][COLS] = {{'1','2','3','A'},{'4','5','6','B'},{'7','8','9','C'},{'*','0','#','D'}};
byte rowPins[ROWS] = {9, 8, 7, 6}, colPins[COLS] = {5, 4, 3, 2};
Keypad keypad = Keypad(makeKeymap(keys), rowPins, colPins, ROWS, COLS);
LiquidCrystal_I2C lcd(0x27, 16, 2);
String typed;

void setup() {
  lcd.init();
  lcd.backlight();
  lcd.print("Code?");
}

void loop() {
  char key = keypad.getKey();
  if (!key) return;
  if (key == '#') {
    lcd.setCursor(0, 0);
    lcd.print(typed == "27A" ? "Open  " : "Wrong ");
    typed = "";
  } else {
    typed += key;
    lcd.setCursor(typed.length() - 1, 1);
    lcd.print(key);
  }
}
