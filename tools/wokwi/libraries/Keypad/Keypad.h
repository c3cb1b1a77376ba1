// A keypad of rows and columns, with the calls of the library of this name that most sketches use. It is taken where that library
// is not installed. A key counts once it has been down for the debounce time.
#ifndef KEYPAD_H
#define KEYPAD_H

#include <Arduino.h>

#define makeKeymap(keys) ((char *)(keys))
#define NO_KEY '\0'

typedef enum { IDLE, PRESSED, HOLD, RELEASED } KeyState;

class Keypad {
public:
  Keypad(char *keys, byte *rowPins, byte *columnPins, byte rows, byte columns);

  char getKey();      // the key that was pressed since the last call, or NO_KEY
  char waitForKey();  // waits for one
  KeyState getState() { return state; }
  bool isPressed(char key) { return down == key; }
  void setDebounceTime(unsigned ms) { debounce = ms; }
  void setHoldTime(unsigned ms) { hold = ms; }
  void addEventListener(void (*listener)(char)) { this->listener = listener; }

private:
  char scan();
  void become(KeyState next, char key);

  char *keys;
  byte *rowPins, *columnPins;
  byte rows, columns;
  char seen, down;
  unsigned long since;
  unsigned debounce, hold;
  KeyState state;
  void (*listener)(char);
};

#endif
