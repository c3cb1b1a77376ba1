// A level that counts once it has been the same for some milliseconds.
#ifndef DEBOUNCE_H
#define DEBOUNCE_H

#include <stdint.h>

class Debounce {
public:
  Debounce(bool level, uint16_t wait) : level(level), seen(level), since(0), wait(wait) {}

  // Takes what is read at a time in milliseconds, and says whether the level changed by it.
  bool update(bool read, uint32_t now) {
    if (read != seen) {
      seen = read;
      since = now;
    }
    if (seen == level || now - since < wait) return false;
    level = seen;
    return true;
  }

  bool read() const { return level; }

private:
  bool level, seen;
  uint32_t since;
  uint16_t wait;
};

#endif
