#include "Servo.h"

#include <avr/interrupt.h>

static const uint8_t MOST = 12;
static const uint8_t NONE = 255;
static const unsigned FRAME = 40000;  // 20 ms in halves of a microsecond

static struct {
  uint8_t pin;
  bool on;
  unsigned ticks;
} volatile servos[MOST];
static uint8_t count = 0;
static volatile uint8_t now = NONE;  // whose pulse it is; NONE while the rest of the frame passes

// The end of a pulse is the beginning of the next one; after the last one the frame is waited for.
ISR(TIMER1_COMPA_vect) {
  if (now == NONE) {
    TCNT1 = 0;
    now = 0;
  } else {
    if (servos[now].on) digitalWrite(servos[now].pin, LOW);
    now++;
  }
  if (now < count) {
    if (servos[now].on) digitalWrite(servos[now].pin, HIGH);
    OCR1A = TCNT1 + servos[now].ticks;
  } else {
    unsigned here = TCNT1 + 8;
    OCR1A = here < FRAME ? FRAME : here;
    now = NONE;
  }
}

Servo::Servo() : index(count < MOST ? count++ : NONE), least(544), most(2400) {
  if (index != NONE) servos[index].ticks = 3000;
}

uint8_t Servo::attach(int pin) {
  return attach(pin, 544, 2400);
}

uint8_t Servo::attach(int pin, int least, int most) {
  if (index == NONE) return NONE;
  this->least = least;
  this->most = most;
  pinMode(pin, OUTPUT);
  servos[index].pin = pin;
  servos[index].on = true;
  if (!(TIMSK1 & _BV(OCIE1A))) {
    TCCR1A = 0;
    TCCR1B = _BV(CS11);  // half a microsecond
    TCNT1 = 0;
    OCR1A = 100;
    now = NONE;
    TIFR1 = _BV(OCF1A);
    TIMSK1 |= _BV(OCIE1A);
  }
  return index;
}

void Servo::detach() {
  if (index == NONE) return;
  servos[index].on = false;
  for (uint8_t n = 0; n < count; n++)
    if (servos[n].on) return;
  TIMSK1 &= ~_BV(OCIE1A);
}

void Servo::write(int value) {
  if (value < 200) value = map(constrain(value, 0, 180), 0, 180, least, most);
  writeMicroseconds(value);
}

void Servo::writeMicroseconds(int value) {
  if (index == NONE) return;
  unsigned ticks = 2 * constrain(value, least, most);
  uint8_t kept = SREG;
  cli();
  servos[index].ticks = ticks;
  SREG = kept;
}

int Servo::readMicroseconds() {
  return index == NONE ? 0 : servos[index].ticks / 2;
}

int Servo::read() {
  return map(readMicroseconds() + 1, least, most, 0, 180);
}

bool Servo::attached() {
  return index != NONE && servos[index].on;
}
