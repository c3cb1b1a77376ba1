#include "Keypad.h"

Keypad::Keypad(char *keys, byte *rowPins, byte *columnPins, byte rows, byte columns)
    : keys(keys), rowPins(rowPins), columnPins(columnPins), rows(rows), columns(columns), seen(NO_KEY), down(NO_KEY), since(0), debounce(10), hold(500), state(IDLE), listener(0) {}

// One column after the other is low; a key that is down takes its row with it.
char Keypad::scan() {
  char found = NO_KEY;
  for (byte r = 0; r < rows; r++) pinMode(rowPins[r], INPUT_PULLUP);
  for (byte c = 0; c < columns; c++) {
    pinMode(columnPins[c], OUTPUT);
    digitalWrite(columnPins[c], LOW);
    for (byte r = 0; r < rows; r++)
      if (found == NO_KEY && digitalRead(rowPins[r]) == LOW) found = keys[r * columns + c];
    digitalWrite(columnPins[c], HIGH);
    pinMode(columnPins[c], INPUT);
  }
  return found;
}

void Keypad::become(KeyState next, char key) {
  state = next;
  if (listener) listener(key);
}

char Keypad::getKey() {
  unsigned long now = millis();
  char key = scan();
  if (key != seen) {
    seen = key;
    since = now;
  }
  if (state == RELEASED) state = IDLE;
  if (state == PRESSED && down == key && now - since >= hold) become(HOLD, key);
  if (key == down || now - since < debounce) return NO_KEY;
  char before = down;
  down = key;
  if (key == NO_KEY) {
    become(RELEASED, before);
    return NO_KEY;
  }
  become(PRESSED, key);
  return key;
}

char Keypad::waitForKey() {
  char key;
  while (!(key = getKey())) {
  }
  return key;
}
