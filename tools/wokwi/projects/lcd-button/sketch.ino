#include <LiquidCrystal.h>

LiquidCrystal lcd(12, 11, 10, 9, 8, 7);
int presses = 0;

void setup() {
  pinMode(2, INPUT_PULLUP);
  lcd.begin(16, 2);
  lcd.print("Presses:");
}

void loop() {
  if (digitalRead(2) == LOW) {
    presses++;
    while (digitalRead(2) == LOW) delay(10);
  }
  lcd.setCursor(0, 1);
  lcd.print(presses);
  delay(20);
}
