'use strict';
// The worker in which a page plays chips again: a chip's own module, called as docs/CHIPS.md says, on the levels of its own pins. What a
// chip prints and draws follows from its module, its attributes, the size of its display and these levels, and a wave has the levels. So a
// page knows what a chip showed in each cycle of a run.
//
// It is sent    { id, begin: { bytes, pins, attrs, display, last }, changes: [{ t, v }, ..], to }
// and answers   { id, begins } at once, and
//               { id, to, t, at, size, data, lines, ended, done }, several times for one that takes long, `done` in the last of them.
//
// `changes` has the changes of each pin, `to` is the cycle up to which they are known. A further message without `begin` has the changes that
// came since. `t`, `at` and `size` are the changes of the display with the places of their bytes, `data` has these bytes, one after another.
// With `last` a message has one change of the display at most, which makes of the picture of the message before the last one. `ended` says
// why a chip ended that had not ended on a board.
//
// A module cannot reach more than its own memory and these functions. One that does not come back is the page's to end, with the worker.

const MOST_MODULE = 1 << 20, MOST_PAGES = 64, MOST_TABLE = 8192, MOST_CONSOLE = 65536, MOST_CHANGES = 64 << 20, POST_MS = 200;

// ---- The module, with its memory, its table and its start function under names of ours, and no more memory than a chip has on a board

class Bytes {
  constructor(bytes) { this.bytes = bytes; this.place = 0; }
  get over() { return this.place >= this.bytes.length; }
  byte() { if (this.over) throw new Error('the module is cut'); return this.bytes[this.place++]; }
  number() {
    let n = 0;
    for (let scale = 1; ; scale *= 128) { const byte = this.byte(); n += (byte & 127) * scale; if (byte < 128 || scale > 2 ** 28) return n; }
  }
  take(count) { if (this.place + count > this.bytes.length) throw new Error('the module is cut'); return this.bytes.subarray(this.place, this.place += count); }
  limits() { const flag = this.byte(), least = this.number(); return { least, most: flag & 1 ? this.number() : Infinity }; }
}

function numberBytes(n) {
  const bytes = [];
  for (; n > 127; n = Math.floor(n / 128)) bytes.push(n % 128 + 128);
  return [...bytes, n];
}
const nameBytes = text => [text.length, ...[...text].map(c => c.charCodeAt(0))];
const OWN = { memory: ' memory', table: ' table', start: ' start' };

// {bytes, memory}: `memory` are the limits of a memory that it imports.
function prepared(bytes) {
  if (bytes.length > MOST_MODULE) throw new Error('the module is too large');
  const read = new Bytes(bytes), out = [read.take(8)], made = { memory: null };
  let hasMemory = false, hasTable = false, start = null;
  while (!read.over) {
    const kind = read.byte(), content = read.take(read.number()), inner = new Bytes(content);
    if (kind === 2) made.memory = importedMemory(inner);
    if (kind === 4) { hasTable = inner.number() > 0; if (hasTable) { inner.byte(); atMost(inner.limits().least, MOST_TABLE, 'table'); } }
    if (kind === 5) hasMemory = inner.number() > 0;
    if (kind === 8) start = inner.number();
    if (kind === 8) continue;
    if (kind === 5 && hasMemory) {
      const { least, most } = inner.limits();
      atMost(least, MOST_PAGES, 'memory');
      put(out, kind, [[1, 1, ...numberBytes(least), ...numberBytes(Math.max(least, Math.min(most, MOST_PAGES)))]]);
    } else put(out, kind, [content]);
  }
  const more = [...(hasMemory || made.memory ? [[OWN.memory, 2, 0]] : []), ...(hasTable ? [[OWN.table, 1, 0]] : []), ...(start === null ? [] : [[OWN.start, 0, start]])];
  const at = out.findIndex(section => section.kind === 7);
  if (at < 0) throw new Error('the module exports nothing');
  const exported = new Bytes(out[at].content), count = exported.number();
  out[at] = sectionOf(7, [numberBytes(count + more.length), exported.take(out[at].content.length - exported.place), ...more.map(([name, kind, index]) => [...nameBytes(name), kind, ...numberBytes(index)])]);
  made.bytes = joined(out);
  return made;
}

function importedMemory(inner) {
  let memory = null;
  for (let count = inner.number(); count > 0; count--) {
    inner.take(inner.number());
    inner.take(inner.number());
    const kind = inner.byte();
    if (kind === 0) inner.number();
    else if (kind === 2) { memory = inner.limits(); atMost(memory.least, MOST_PAGES, 'memory'); }
    else throw new Error('the module imports what is not there');
  }
  return memory;
}

function atMost(n, most, what) { if (n > most) throw new Error(`the module has a ${what} that is too large`); }
function joined(pieces) {
  const all = new Uint8Array(pieces.reduce((sum, piece) => sum + piece.length, 0));
  let at = 0;
  for (const piece of pieces) { all.set(piece, at); at += piece.length; }
  return all;
}
function sectionOf(kind, pieces) {
  const content = joined(pieces);
  return Object.assign(joined([[kind], numberBytes(content.length), content]), { kind, content });
}
function put(out, kind, pieces) { out.push(sectionOf(kind, pieces)); }

// ---- A chip

class Ended extends Error {}

class Played {
  constructor({ bytes, pins, attrs, display, last }) {
    Object.assign(this, { pins, attrs, display, last });
    this.now = 0; this.init = true; this.watches = []; this.timers = []; this.values = []; this.uarts = []; this.spis = []; this.buses = []; this.given = new Set();
    this.waves = pins.map(() => ({ t: [], v: [] }));
    this.next = pins.map(() => 0); this.reads = pins.map(() => 0); this.movedAt = pins.map(() => -1); this.active = pins.map(() => false);
    this.text = ''; this.printed = 0; this.lines = [];
    this.size = display ? 4 * display[0] * display[1] : 0;
    this.pixels = new Uint8Array(this.size); this.before = new Uint8Array(this.size); this.low = Infinity; this.high = 0;
    this.changes = { t: [], at: [], size: [], data: new Uint8Array(1 << 12), used: 0 }; this.kept = 0; this.ended = null;
    const made = prepared(bytes), env = this.env();
    if (made.memory) env.memory = new WebAssembly.Memory({ initial: made.memory.least, maximum: Math.max(made.memory.least, Math.min(made.memory.most, MOST_PAGES)) });
    this.exports = new WebAssembly.Instance(new WebAssembly.Module(made.bytes), { env, wasi_snapshot_preview1: this.wasi() }).exports;
    this.memory = this.exports[OWN.memory]; this.table = this.exports[OWN.table];
  }

  // Calls the chip from cycle 0 on; later only goes on. Answers when it is at cycle `to`, whose changes are not known yet.
  play(to, tell) {
    let since = performance.now(), turns = 0;
    try {
      if (this.init) this.begin();
      while (this.ended === null) {
        const t = this.nextTurn();
        if (t >= to) break;
        this.turn(t);
        if (++turns % 128 === 0 && performance.now() - since > POST_MS) { tell(t); since = performance.now(); }
      }
    } catch (error) {
      this.keep();
      this.ended = error instanceof Error ? error.message : String(error);
    }
  }

  begin() {
    if (this.exports[OWN.start]) this.exports[OWN.start]();
    this.exports.chipInit();
    this.init = false;
    this.keep();
  }

  nextTurn() {
    let t = Infinity;
    for (let pin = 0; pin < this.waves.length; pin++) if (this.active[pin] && this.next[pin] < this.waves[pin].t.length) t = Math.min(t, this.waves[pin].t[this.next[pin]]);
    for (const timer of this.timers) if (timer.due !== null && timer.due < t) t = timer.due;
    for (const engine of this.uarts) t = Math.min(t, engine.due);
    for (const engine of this.spis) t = Math.min(t, engine.due);
    return t;
  }

  // In a cycle the timers that are due call back first, then the watches whose edge came, then the engines.
  turn(t) {
    this.now = t;
    for (const timer of this.timers) {
      if (timer.due !== t) continue;
      timer.due = timer.again ? t + timer.again : null;
      this.call(timer.callback, timer.user);
    }
    for (let pin = 0; pin < this.waves.length; pin++) {
      if (this.active[pin]) this.seePin(pin);
      const watch = this.watches[pin];
      if (watch && this.movedAt[pin] === t && watch.edge & (this.reads[pin] ? 1 : 2)) this.call(watch.callback, watch.user, pin, this.reads[pin]);
    }
    for (const engine of this.uarts) engine.turn(t);
    for (const engine of this.spis) { engine.turned = t; engine.turn(t); }
    for (const engine of this.buses) engine.turn();
    this.keep();
  }

  // What a pin reads in this cycle. A pin that nobody watches is looked at only here.
  seePin(pin) {
    const { t, v } = this.waves[pin];
    while (this.next[pin] < t.length && t[this.next[pin]] <= this.now) {
      const level = +(v[this.next[pin]] === 1);
      if (level !== this.reads[pin]) { this.reads[pin] = level; this.movedAt[pin] = t[this.next[pin]]; }
      this.next[pin]++;
    }
    return this.reads[pin];
  }
  isPin(pin) { return pin >= 0 && pin < this.pins.length; }
  read(pin) { return this.given.has(pin) ? this.seePin(pin) : 1; }
  readBefore(pin) { return this.given.has(pin) ? this.seePin(pin) ^ +(this.movedAt[pin] === this.now) : 1; }
  listen(pin) { if (this.isPin(pin)) this.active[pin] = true; }

  view() { return new DataView(this.memory.buffer); }
  words(at, count) { const view = this.view(), words = []; for (let i = 0; i < count; i++) words.push(view.getUint32((at >>> 0) + 4 * i, true)); return words; }
  slice(at, count) { return new Uint8Array(this.memory.buffer, at >>> 0, count >>> 0); }
  store(at, byte) { this.view().setUint8(at >>> 0, byte); }
  name(at) {
    const view = this.view();
    let text = '';
    for (let end = at >>> 0; view.getUint8(end); end++) { if (text.length === 63) throw new Ended('a name is too long'); text += String.fromCharCode(view.getUint8(end)); }
    return text;
  }
  call(callback, ...words) {
    if (!callback) return undefined;
    const callee = this.table.get(callback);
    if (!callee) throw new Ended('a callback is not there');
    return callee(...words);
  }

  // A function that is "in chipInit alone" gives one more of a list that has a limit.
  init1(list, most, value) {
    if (!this.init) throw new Ended('asked for too late');
    if (list.length >= most) throw new Ended('asked for too many');
    return list.push(value) - 1;
  }

  env() {
    const start = (id, cycles, repeat) => { const timer = this.timers[id]; if (timer) { timer.due = this.now + Math.max(cycles, 1); timer.again = repeat ? Math.max(cycles, 1) : 0; } };
    const fits = (id, offset, count) => id === 0 && this.hasDisplay && (offset >>> 0) + (count >>> 0) <= this.size;
    return {
      pinInit: at => { const pin = this.pins.indexOf(this.name(at)); if (!this.init) throw new Ended('asked for too late'); if (pin >= 0) this.given.add(pin); return pin; },
      pinRead: pin => (this.isPin(pin) && !this.init ? this.seePin(pin) : 0), pinWrite() {}, pinMode() {},
      pinWatch: (pin, at) => {
        if (!this.isPin(pin)) return 0;
        const [user, edge, callback] = this.words(at, 3);
        if (!this.init) this.seePin(pin);
        this.watches[pin] = { user, edge: edge & 3, callback };
        this.listen(pin);
        return 1;
      },
      pinWatchStop: pin => { this.watches[pin] = undefined; },
      attrInit: (at, value) => {
        const text = this.attrs[this.name(at)], given = /^-?[0-9]{1,10}$/.test(text ?? '') ? Number(text) : NaN;
        return this.init1(this.values, 64, given >= -2147483648 && given <= 4294967295 ? given | 0 : value);
      },
      attrRead: id => this.values[id] | 0,
      timerInit: at => { const [user, callback] = this.words(at, 2); return this.init1(this.timers, 32, { user, callback, due: null, again: 0 }); },
      timerStart: (id, us, repeat) => start(id, 16 * (us >>> 0), repeat), timerStartNanos: (id, nanos, repeat) => start(id, Number((BigInt.asUintN(64, nanos) * 2n + 124n) / 125n), repeat),
      timerStop: id => { if (this.timers[id]) this.timers[id].due = null; }, getSimNanos: () => BigInt(Math.floor(this.now * 62.5)),
      framebufferInit: (width, height) => {
        if (!this.init) throw new Ended('asked for too late');
        if (!this.display) return -1;
        this.view().setUint32(width >>> 0, this.display[0], true); this.view().setUint32(height >>> 0, this.display[1], true);
        this.hasDisplay = true;
        return 0;
      },
      bufferWrite: (id, offset, at, count) => {
        if (!fits(id, offset, count) || !count) return;
        this.pixels.set(this.slice(at, count), offset >>> 0);
        this.low = Math.min(this.low, offset >>> 0); this.high = Math.max(this.high, (offset >>> 0) + (count >>> 0));
      },
      bufferRead: (id, offset, at, count) => { if (fits(id, offset, count)) this.slice(at, count).set(this.pixels.subarray(offset >>> 0, (offset >>> 0) + (count >>> 0))); },
      i2cInit: at => this.init1(this.buses, 8, new PlayedI2c(this, this.words(at, 8))),
      uartInit: at => this.init1(this.uarts, 8, new PlayedUart(this, this.words(at, 6))), uartWrite: (id, at, count) => (this.uarts[id] ? this.uarts[id].write(count >>> 0) : 0),
      spiInit: at => this.init1(this.spis, 8, new PlayedSpi(this, this.words(at, 6))), spiStop: id => { if (this.spis[id]) this.spis[id].stop(); },
      spiStart: (id, at, count) => { if (this.spis[id]) this.spis[id].start(at >>> 0, count >>> 0, this.spis[id].turned === this.now && !this.init); },
    };
  }

  wasi() {
    const isConsole = file => file === 1 || file === 2;
    return {
      fd_write: (file, list, count, total) => {
        if (!isConsole(file)) return 8;
        if (count >>> 0 > 16) return 28;
        const pieces = [];
        for (let i = 0; i < count; i++) { const [at, length] = this.words(list + 8 * i, 2); pieces.push(this.slice(at, length)); }
        const sum = pieces.reduce((all, piece) => all + piece.length, 0);
        this.view().setUint32(total >>> 0, sum, true);
        for (const piece of pieces) for (const byte of piece) this.print(byte);
        return 0;
      },
      fd_fdstat_get: (file, at) => { if (!isConsole(file)) return 8; this.slice(at, 24).fill(0).set([2]); return 0; },
      fd_seek: file => (isConsole(file) ? 70 : 8), fd_close: file => (isConsole(file) ? 0 : 8),
    };
  }
  print(byte) {
    if (this.printed >= MOST_CONSOLE) return;
    this.printed++;
    if (byte !== 10) this.text += byte >= 0x20 && byte < 0x7F ? String.fromCharCode(byte) : '?';
    else { this.lines.push([this.now, this.text]); this.text = ''; }
  }

  // What of the display has changed, from this cycle on.
  keep() {
    let low = this.low, high = Math.min(this.high, this.size);
    while (low < high && this.pixels[low] === this.before[low]) low++;
    while (low < high && this.pixels[high - 1] === this.before[high - 1]) high--;
    const { changes } = this;
    if (this.last) { this.low = low < high ? low : Infinity; this.high = low < high ? high : 0; this.lastAt = this.now; return; }
    this.low = Infinity; this.high = 0;
    if (low >= high) return;
    this.before.set(this.pixels.subarray(low, high), low);
    this.note(changes, this.now, low, high);
    if ((this.kept += high - low + 32) > MOST_CHANGES) throw new Ended('its pictures are more than a page keeps');
  }
  note(changes, t, low, high) {
    if (changes.used + high - low > changes.data.length) { const more = new Uint8Array(2 * (changes.used + high - low)); more.set(changes.data.subarray(0, changes.used)); changes.data = more; }
    changes.data.set(this.pixels.subarray(low, high), changes.used);
    changes.used += high - low;
    changes.t.push(t); changes.at.push(low); changes.size.push(high - low);
  }

  // What came since it was asked last.
  news(to, done) {
    const { changes, lines } = this;
    if (this.last && this.high) { this.before.set(this.pixels.subarray(this.low, this.high), this.low); this.note(changes, this.lastAt, this.low, this.high); this.low = Infinity; this.high = 0; }
    this.changes = { t: [], at: [], size: [], data: new Uint8Array(1 << 12), used: 0 };
    this.lines = [];
    return { to, t: changes.t, at: changes.at, size: changes.size, data: changes.data.slice(0, changes.used), lines, ended: this.ended === null ? null : [this.now, this.ended], done };
  }
}

// ---- The engines: a second reading of docs/CHIPS.md, "Serial engines", as far as they call back. An engine has a turn in each cycle in
// which something happens: `turn(t)`; `due` is the cycle of one that no pin brings, or Infinity.

class PlayedUart {
  constructor(chip, [user, rx, , baud, received, sent]) {
    Object.assign(this, { chip, user, rx: rx | 0, bit: Math.max(Math.floor(16e6 / Math.max(baud, 1)), 2), received, sent, frame: null, sending: null });
    chip.listen(this.rx);
  }
  get due() { return Math.min(this.frame ? this.frame.sample : Infinity, this.sending ? this.sending.end : Infinity); }
  write(count) {                    // the cycle in which all is sent: the last one of the last stop bit
    if (this.sending) return 0;
    this.sending = { end: count ? this.chip.now + 10 * this.bit * count : this.chip.now + 1 };
    return 1;
  }
  turn(t) {
    const { chip, frame, bit } = this, now = chip.read(this.rx);
    let byte = null;
    if (!frame) { if (chip.readBefore(this.rx) && !now) this.frame = { place: 0, sample: t + (bit >> 1), byte: 0 }; }
    else if (frame.sample === t) {
      if (frame.place === 9 && now) byte = frame.byte;
      if (frame.place === 9 || (frame.place === 0 && now)) this.frame = null;
      else { if (frame.place) frame.byte |= now << frame.place - 1; frame.place++; frame.sample = t + bit; }
    }
    const isSent = this.sending && this.sending.end === t;
    if (isSent) this.sending = null;
    if (byte !== null) chip.call(this.received, this.user, byte);
    if (isSent) chip.call(this.sent, this.user);
  }
}

class PlayedSpi {
  constructor(chip, [user, sck, mosi, , mode, done]) {
    Object.assign(this, { chip, user, sck: sck | 0, mosi: mosi | 0, cpol: mode >> 1 & 1, cpha: mode & 1, done, state: 'idle', due: Infinity });
    chip.listen(this.sck);
  }
  start(buffer, count, wasTurn) {
    if (this.state !== 'idle' || !count) return;
    Object.assign(this, { buffer, count, index: 0, state: this.cpha ? 'between' : 'opening', due: this.cpha ? Infinity : this.chip.now + (wasTurn ? 1 : 0) });
  }
  stop() { if (this.state !== 'idle' && this.state !== 'stopped') Object.assign(this, { state: 'stopped', due: this.chip.now + 1 }); }
  end(count) { this.state = 'idle'; this.due = Infinity; this.chip.call(this.done, this.user, this.buffer, count); }
  turn(t) {
    const { chip, cpol } = this, before = chip.readBefore(this.sck) ^ cpol, now = chip.read(this.sck) ^ cpol, mosi = chip.read(this.mosi);
    const leads = now && !before, trails = before && !now, reads = this.cpha ? trails : leads, presents = this.cpha ? leads : trails;
    const load = bit => { this.state = 'shifting'; this.due = Infinity; this.place = 0; this.byte = 0; if (bit) this.take(mosi); };
    if (this.state === 'stopped') { if (this.due === t) this.end(this.index); }
    else if (this.state === 'opening') { if (this.due === t) load(reads); }
    else if (this.state === 'between') { if (presents) load(false); }
    else if (this.state === 'shifting' && reads) this.take(mosi);
  }
  take(mosi) {
    this.byte = this.byte << 1 | mosi;
    if (++this.place < 8) return;
    this.chip.store(this.buffer + this.index, this.byte);
    if (++this.index === this.count) this.end(this.count); else this.state = 'between';
  }
}

class PlayedI2c {
  constructor(chip, [user, address, scl, sda, connect, read, write, disconnect]) {
    Object.assign(this, { chip, user, address: address & 127, scl: scl | 0, sda: sda | 0, connect, read, write, disconnect, phase: 'idle', bits: 0, byte: 0, connected: false, isReading: false });
    chip.listen(this.scl);
    chip.listen(this.sda);
  }
  ask(callback, absent, ...words) { return callback ? this.chip.call(callback, ...words) : absent; }
  off(phase) {
    const was = this.connected;
    Object.assign(this, { phase, bits: 0, byte: 0, connected: false });
    if (was) this.ask(this.disconnect, 0, this.user);
  }
  turn() {
    const { chip } = this, scl = chip.read(this.scl), sclWas = chip.readBefore(this.scl), sda = chip.read(this.sda), sdaWas = chip.readBefore(this.sda);
    if (scl && sclWas && sda !== sdaWas) this.off(sda ? 'idle' : 'address');
    else if (scl && !sclWas) this.rise(sda);
    else if (!scl && sclWas) this.fall();
  }
  rise(sda) {
    if (this.phase === 'ending') { this.phase = sda ? 'idle' : 'wanted'; return; }
    if (this.phase !== 'address' && this.phase !== 'data') return;
    this.byte = (this.byte * 2 + sda) & 255;
    if (++this.bits < 8) return;
    if (this.phase === 'address') {
      this.phase = 'idle';
      if (this.byte >> 1 !== this.address) return;
      this.isReading = (this.byte & 1) === 1;
      this.connected = Boolean(this.ask(this.connect, 1, this.user, this.address, this.byte & 1));
      this.phase = this.connected ? 'accepting' : 'idle';
    } else { this.isReading = false; this.phase = 'judging'; this.phase = this.ask(this.write, 1, this.user, this.byte) ? 'accepting' : 'idle'; }
  }
  fall() {
    if (this.phase === 'accepting') this.phase = 'accepted';
    else if (this.phase === 'wanted' || (this.phase === 'accepted' && this.isReading)) { this.phase = 'sending'; this.bits = 0; this.ask(this.read, 255, this.user); }
    else if (this.phase === 'accepted') { this.phase = 'data'; this.bits = 0; this.byte = 0; }
    else if (this.phase === 'sending' && ++this.bits === 8) this.phase = 'ending';
  }
}

// ---- The worker

const chips = new Map();

const followed = (one, other) => { const both = new other.constructor(one.length + other.length); both.set(one); both.set(other, one.length); return both; };
function extend(chip, changes) {
  changes.forEach(({ t, v }, pin) => {
    const wave = chip.waves[pin];
    if (chip.next[pin] < wave.t.length) { chip.waves[pin] = { t: followed(wave.t, t), v: followed(wave.v, v) }; return; }
    chip.waves[pin] = { t, v };
    chip.next[pin] = 0;
  });
}

onmessage = ({ data: { id, begin, changes, to } }) => {
  postMessage({ id, begins: true });
  try {
    if (begin) chips.set(id, new Played(begin));
    const chip = chips.get(id);
    extend(chip, changes);
    chip.play(to, at => postMessage({ id, ...chip.news(at, false) }));
    postMessage({ id, ...chip.news(to, true) });
  } catch (error) {
    postMessage({ id, to, t: [], at: [], size: [], data: new Uint8Array(0), lines: [], ended: [0, error.message || String(error)], done: true });
  }
};
