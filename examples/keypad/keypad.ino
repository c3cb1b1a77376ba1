// A keypad of four rows and four columns, scanned as the Keypad library does it: one column after the other is pulled low, and
// the rows, with their pull-ups, tell which of its keys are pressed. `#` ends a number.
const byte ROWS = 4, COLUMNS = 4;
const byte rows[ROWS] = { 9, 8, 7, 6 };
const byte columns[COLUMNS] = { 5, 4, 3, 2 };
const char keys[ROWS][COLUMNS + 1] = { "123A", "456B", "789C", "*0#D" };

char pressed() {
  char found = 0;
  for (byte c = 0; c < COLUMNS; c++) {
    pinMode(columns[c], OUTPUT);
    digitalWrite(columns[c], LOW);
    for (byte r = 0; r < ROWS; r++)
      if (digitalRead(rows[r]) == LOW) found = keys[r][c];
    digitalWrite(columns[c], HIGH);
    pinMode(columns[c], INPUT);
  }
  return found;
}

char last = 0;
long number = 0;

void setup() {
  Serial.begin(115200);
  for (byte r = 0; r < ROWS; r++) pinMode(rows[r], INPUT_PULLUP);
}

void loop() {
  char key = pressed();
  if (key && key != last) {
    Serial.println(key);
    if (key >= '0' && key <= '9') number = 10 * number + (key - '0');
    if (key == '#') {
      Serial.print("number: ");
      Serial.println(number);
      number = 0;
    }
  }
  last = key;
  delay(10);
}
