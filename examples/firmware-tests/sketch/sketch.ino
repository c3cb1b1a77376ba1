// Counts the presses of a button on a text display, and says each on the serial port.
#include <LiquidCrystal.h>

LiquidCrystal lcd(12, 11, 10, 9, 8, 7);
int presses = 0;

void setup() {
  Serial.begin(9600);
  pinMode(2, INPUT_PULLUP);
  lcd.begin(16, 2);
  lcd.print("Presses:");
  show();
}

void loop() {
  if (digitalRead(2) == LOW) {
    presses++;
    show();
    while (digitalRead(2) == LOW) delay(10);
  }
}

void show() {
  lcd.setCursor(0, 1);
  lcd.print(presses);
  Serial.println(presses);
}
