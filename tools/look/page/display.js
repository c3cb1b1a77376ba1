'use strict';
// The text display and the OLED, told from the wave alone: a second reading of docs/PARTS.md, "The text display" and "The OLED".
// `lcdStates(run, part)` is [[cycle, [line 1, line 2]], ..]: what is shown from that cycle on.
// `oledAt(run, part, t)` is what is shown after cycle t: {on, dots}, a byte for each column of each page.

const LCD_PINS = { full: 'VSS VDD V0 RS RW E D0 D1 D2 D3 D4 D5 D6 D7 A K'.split(' '), i2c: 'GND VCC SDA SCL'.split(' ') };
const isI2c = part => part.attrs.pins === 'i2c';
function addressOf(part, usual) {
  const text = part.attrs.i2cAddress || usual;
  return (text.startsWith('0x') ? parseInt(text, 16) : parseInt(text, 10)) % 128;
}

class TextDisplay {
  constructor() {
    this.cells = new Array(128).fill(32);
    this.address = 0; this.up = true; this.on = false; this.wide = true; this.half = null; this.lost = false;
  }
  step(up) {                        // the address counts; one between the lines counts as the last of the line before it
    let a = this.address;
    if (a > 0x27 && a < 0x40) a = 0x27;
    if (a > 0x67) a = 0x67;
    this.address = up ? (a === 0x27 ? 0x40 : a === 0x67 ? 0 : a + 1) : (a === 0x40 ? 0x27 : a === 0 ? 0x67 : a - 1);
  }
  write(byte) {
    if (this.lost) return;
    const a = this.address;
    if (a <= 0x27 || (a >= 0x40 && a <= 0x67)) this.cells[a] = byte;
    this.step(this.up);
  }
  instruct(byte) {
    if (byte & 0x80) { this.address = byte & 0x7F; this.lost = false; }
    else if (byte & 0x40) this.lost = true;
    else if (byte & 0x20) this.wide = (byte & 0x10) !== 0;
    else if (byte & 0x10) { if (!(byte & 8)) this.step((byte & 4) !== 0); }
    else if (byte & 0x08) this.on = (byte & 4) !== 0;
    else if (byte & 0x04) this.up = (byte & 2) !== 0;
    else if (byte & 0x02) { this.address = 0; this.lost = false; }
    else if (byte & 0x01) { this.cells.fill(32); this.address = 0; this.up = true; this.lost = false; }
  }
  take(rs, byte) {                  // a fall of E
    if (this.wide) { this.enter(rs, byte); return; }
    if (this.half === null) { this.half = byte >> 4; return; }
    const whole = this.half * 16 + (byte >> 4);
    this.half = null;
    this.enter(rs, whole);
  }
  enter(rs, byte) { if (rs) this.write(byte); else this.instruct(byte); }
  lines() {
    return [0, 0x40].map(first => this.cells.slice(first, first + 16).map(c => !this.on ? ' ' : isPrintable(c) ? String.fromCharCode(c) : '?').join(''));
  }
}

function lcdStates(run, part) {
  return run.once('lcd ' + part.id, () => {
    const display = new TextDisplay(), states = [[0, display.lines()]];
    const taken = (t, rs, byte) => {
      display.take(rs, byte);
      const lines = display.lines(), last = states[states.length - 1];
      if (lines[0] !== last[1][0] || lines[1] !== last[1][1]) states.push([t, lines]);
    };
    if (isI2c(part)) lcdByI2c(run, part, taken); else lcdByPins(run, part, taken);
    return states;
  });
}

function lcdByPins(run, part, taken) {
  const pin = name => run.wave(`${part.id}.${name}`) || ALWAYS_LOW, e = pin('E'), rs = pin('RS'), rw = pin('RW');
  const data = [0, 1, 2, 3, 4, 5, 6, 7].map(k => pin('D' + k));
  for (let i = 1; i < e.t.length; i++) {
    if (e.v[i - 1] !== 1 || e.v[i] === 1 || reads(rw, e.t[i])) continue;
    taken(e.t[i], reads(rs, e.t[i]), data.reduce((byte, wave, k) => byte + (reads(wave, e.t[i]) << k), 0));
  }
}

// Calls `visit(t, value, isFirst)` for each byte that is written to the address of a part; `usual` is its address where no attribute says one.
function eachWritten(run, part, usual, visit) {
  const scl = run.wave(part.id + '.SCL'), sda = run.wave(part.id + '.SDA');
  if (!scl || !sda) return;
  const mine = addressOf(part, usual);
  let listening = false, isFirst = false;
  walkI2c(scl, sda, {
    start: () => { listening = false; }, stop: () => { listening = false; }, bit: () => {}, answer: () => {},
    byte: (t, value, address) => {
      if (address) { listening = value === mine * 2; isFirst = true; return; }
      if (listening) visit(t, value, isFirst);
      isFirst = false;
    },
  });
}

// The expander's port: bits 0, 1, 2 are RS, RW and E, bits 4 to 7 are D4 to D7. It takes each byte that is written to its address.
function lcdByI2c(run, part, taken) {
  let port = 0;
  eachWritten(run, part, '0x27', (t, value) => {
    if (port & 4 && !(value & 4) && !(value & 2)) taken(t, value & 1, value & 0xF0);
    port = value;
  });
}

// ---- The OLED

const PARAMETERS = new Map([...[0x20, 0x81, 0x8D, 0xA8, 0xD3, 0xD5, 0xD9, 0xDA, 0xDB].map(byte => [byte, 1]), ...[0x21, 0x22, 0xA3].map(byte => [byte, 2]),
  ...[0x29, 0x2A].map(byte => [byte, 5]), ...[0x26, 0x27].map(byte => [byte, 6])]);
const COLUMNS = 128, PAGES = 8;

class DotDisplay {
  constructor() {
    this.cells = new Uint8Array(PAGES * COLUMNS);
    this.on = false; this.allLit = false; this.inverted = false; this.mode = 2;
    this.column = { at: 0, first: 0, last: COLUMNS - 1, count: COLUMNS }; this.page = { at: 0, first: 0, last: PAGES - 1, count: PAGES };
    this.told = [];                 // a command that waits for parameters, and those that came
    this.control = null;            // the control byte that holds; null where the next byte is one
  }
  take(byte, isFirst) {
    if (isFirst || this.control === null) { this.control = byte; return; }
    if (this.control & 0x40) this.write(byte); else this.tell(byte);
    if (this.control & 0x80) this.control = null;
  }
  write(byte) {
    this.cells[this.page.at * COLUMNS + this.column.at] = byte;
    if (this.mode > 1) { this.column.at = (this.column.at + 1) % COLUMNS; return; }
    const [fast, slow] = this.mode === 0 ? [this.column, this.page] : [this.page, this.column];
    if (DotDisplay.count(fast)) DotDisplay.count(slow);
  }
  static count(place) {             // whether it came to the end of its window and began anew
    const ends = place.at === place.last;
    place.at = ends ? place.first : (place.at + 1) % place.count;
    return ends;
  }
  tell(byte) {
    this.told.push(byte);
    if (this.told.length <= (PARAMETERS.get(this.told[0]) || 0)) return;
    const [command, first, last] = this.told;
    this.told = [];
    if (command < 0x10) this.column.at = (this.column.at & 0x70) | command;
    else if (command < 0x20) this.column.at = (this.column.at & 0x0F) | (command & 7) << 4;
    else if (command === 0x20) this.mode = first & 3;
    else if (command === 0x21) DotDisplay.frame(this.column, first % COLUMNS, last % COLUMNS);
    else if (command === 0x22) DotDisplay.frame(this.page, first % PAGES, last % PAGES);
    else if (command >= 0xB0 && command <= 0xB7) this.page.at = command & 7;
    else if (command === 0xA4 || command === 0xA5) this.allLit = command === 0xA5;
    else if (command === 0xA6 || command === 0xA7) this.inverted = command === 0xA7;
    else if (command === 0xAE || command === 0xAF) this.on = command === 0xAF;
  }
  static frame(place, first, last) { if (first <= last) Object.assign(place, { first, last, at: first }); }
  dots() {
    return this.cells.map(cell => !this.on ? 0 : this.allLit ? 0xFF : this.inverted ? cell ^ 0xFF : cell);
  }
}

// The bytes are kept with their cycles, and played on from the moment that was asked for last, or from the beginning.
function oledAt(run, part, t) {
  const told = run.once('oled ' + part.id, () => {
    const bytes = [];
    eachWritten(run, part, '0x3C', (cycle, value, isFirst) => bytes.push([cycle, value, isFirst]));
    return { bytes, next: 0, display: new DotDisplay() };
  });
  const until = lastBefore(told.bytes, t) + 1;
  if (until < told.next) { told.next = 0; told.display = new DotDisplay(); }
  for (; told.next < until; told.next++) told.display.take(told.bytes[told.next][1], told.bytes[told.next][2]);
  return { key: until, on: told.display.on, dots: told.display.dots() };
}
