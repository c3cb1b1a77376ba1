'use strict';
// Frames of UART, SPI and I2C, read from waves. Each reader answers a list of {from, to, value, kind, text} in the order of time,
// with `from` and `to` in cycles. A pin reads 1 where its net is high, else 0.

const hex = n => n.toString(16).toUpperCase().padStart(2, '0');
const isPrintable = n => n >= 0x20 && n < 0x7F;
const charText = n => isPrintable(n) ? String.fromCharCode(n) : n === 10 ? 'LF' : n === 13 ? 'CR' : hex(n);
const reads = (wave, c) => +(levelAt(wave, c) === 1);

// A frame's format as it is usually written: 5 to 9 data bits, no, even or odd parity, 1 or 2 stop bits.
const UART_FORMAT = /^([5-9])([NEO])([12])$/, USUAL_FORMAT = '8N1';
function formatOf(text) {
  const [, bits, parity, stops] = UART_FORMAT.exec(text);
  return { bits: Number(bits), parity, stops: Number(stops), length: 1 + Number(bits) + (parity === 'N' ? 0 : 1) + Number(stops) };
}

// One frame whose start bit begins at cycle `start`: its byte and whether its parity is right, or null if the first stop bit is low or
// not there yet.
function uartByte(wave, start, bit, end, { bits, parity, stops, length }) {
  const middle = k => start + k * bit + (bit >> 1), stop = length - stops;
  if (middle(stop) >= end || reads(wave, middle(stop)) === 0) return null;
  let value = 0, ones = 0;
  for (let k = 1; k < stop; k++) {
    const one = reads(wave, middle(k));
    if (k <= bits) value += one << (k - 1);
    ones += one;
  }
  return { value, isRight: parity === 'N' || ones % 2 === (parity === 'O' ? 1 : 0) };
}

// Calls `visit(start)` for each fall at which a frame may begin; it answers the cycle before which no other frame begins.
function eachStart(wave, visit) {
  let free = 1;
  for (let i = 1; i < wave.t.length; i++) {
    if (wave.v[i] !== 0 || wave.v[i - 1] !== 1 || wave.t[i] < free) continue;
    free = visit(wave.t[i]) ?? free;
    if (free === Infinity) return;
  }
}

function uartFrames(wave, bit, end, format = USUAL_FORMAT) {
  const frames = [], parts = formatOf(format), stop = parts.length - parts.stops;
  eachStart(wave, start => {
    const byte = uartByte(wave, start, bit, end, parts);
    if (!byte) return start + 1;
    const text = charText(byte.value) + (byte.isRight ? '' : ' parity');
    frames.push({ from: start, to: start + parts.length * bit, value: byte.value, kind: 'byte', text });
    return start + stop * bit + (bit >> 1);
  });
  return frames;
}

// How long a bit may be, in cycles: the commonest gaps between edges, divided by 1 to 9; an Uno's are multiples of 8.
function bitTimes({ t }) {
  const count = new Map(), times = new Set(), many = 4000;
  const add = (from, to) => { for (let i = Math.max(from, 1); i < Math.min(to, t.length); i++) { const gap = t[i] - t[i - 1]; count.set(gap, (count.get(gap) || 0) + 1); } };
  add(1, many); add(t.length - many + 1, t.length);
  for (const [gap] of [...count].sort((a, b) => b[1] - a[1]).slice(0, 8)) {
    for (let k = 1; k < 10; k++) if (gap % (8 * k) === 0) times.add(gap / k);
  }
  return [...times].sort((a, b) => b - a);
}

// ---- When the bytes that were sent were sent. Neither baud rate nor format is told anywhere, but the bytes are: each frame must have exactly the
// changes of the next byte. tools/look/serial_times.py has the same, and asks shorter runs besides where frames of different lengths fit.

const SENT_FORMATS = [8, 7, 6, 5].flatMap(bits => [...'NEO'].flatMap(parity => [1, 2].map(stops => `${bits}${parity}${stops}`)));
const OTHER_FALLS = 64;             // that may come before the first frame, where pin 1 was used otherwise

function frameLevels(byte, { bits, parity, stops }) {
  const data = upTo(bits).map(k => byte >> k & 1), ones = data.reduce((sum, one) => sum + one, 0);
  return byte >> bits ? null : [0, ...data, ...(parity === 'N' ? [] : [(ones + (parity === 'O' ? 1 : 0)) % 2]), ...Array(stops).fill(1)];
}

// Whether the change of index i and those after it are exactly those of a frame, up to its end.
function isFrame({ t, v }, i, bit, levels) {
  const start = t[i];
  let last = 1;
  for (let k = 0; k < levels.length; k++) {
    if (levels[k] === last) continue;
    if (i === t.length || t[i] !== start + k * bit || v[i] !== levels[k]) return false;
    i++; last = levels[k];
  }
  return i === t.length || t[i] >= start + levels.length * bit;
}

// The frames of `sent` from byte `done` on in one format, as far as one comes after another, from where `place` stands.
function framesFrom(wave, place, sent, done, name, bits, until) {
  const { t, v } = wave, format = formatOf(name), known = new Map(), times = [];
  let { index, free, bit } = place, after = index, others = 0;
  while (done + times.length < sent.length && index < t.length && others <= OTHER_FALLS) {
    if (v[index] !== 0 || v[index - 1] !== 1 || t[index] < free) { index++; continue; }
    const byte = sent[done + times.length], start = t[index];
    if (!known.has(byte)) known.set(byte, frameLevels(byte, format));
    const levels = known.get(byte), fits = one => start + format.length * one <= until && isFrame(wave, index, one, levels);
    if (!levels) break;
    if (!(bit && fits(bit))) {
      const found = bits.find(fits);
      if (!found && (times.length || free)) break;
      if (!found) { others++; index++; continue; }
      bit = found;
    }
    after = ++index; free = start + format.length * bit;
    times.push(free - 1);
  }
  return { times, index: after, free, bit, others };
}

// [{formats, times}, ..]: how the wave gives the bytes, the likeliest way first, with each byte's last cycle; none if it does not give exactly these.
function sentReadings(wave, sent) {
  const bits = bitTimes(wave), whole = found => found.times.length === sent.length;
  let place = { index: 1, free: 0, bit: 0 }, times = [], formats = [];
  while (times.length < sent.length) {
    const tries = new Map();
    for (const name of SENT_FORMATS) {
      const { length } = formatOf(name), isKnown = [...tries].some(([other, found]) => whole(found) && formatOf(other).length === length);
      if (!isKnown) tries.set(name, framesFrom(wave, place, sent, times.length, name, bits, Infinity));
    }
    const better = (a, b) => a.times.length - b.times.length || b.others - a.others, best = [...tries.values()].reduce((a, b) => better(b, a) > 0 ? b : a);
    if (!best.times.length) return [];
    const ways = waysOf(wave, [...tries].filter(([, found]) => better(found, best) === 0));
    if (whole(best)) return ways;
    place = tries.get(ways[0].formats[0]); formats = times.length ? [] : ways[0].formats; times = [...times, ...place.times];
  }
  return [{ formats, times }];
}

// Those with equal times as one; first those in which frames follow one another without a pause.
function waysOf(wave, fitting) {
  const ways = new Map(), falls = new Set();
  for (const [name, { times }] of fitting) ways.set(times.join(), { times, formats: [...(ways.get(times.join())?.formats || []), name] });
  if (ways.size > 1) wave.t.forEach((t, i) => { if (wave.v[i] === 0) falls.add(t); });
  const atOnce = ({ times }) => times.reduce((sum, t) => sum + (falls.has(t + 1) ? 1 : 0), 0);
  return [...ways.values()].map(way => [atOnce(way), way]).sort((a, b) => b[0] - a[0]).map(([, way]) => way);
}

// The times of bytes in one format, of a wave that is kept up to cycle `until`; null for those after it.
function timesIn(wave, sent, name, until) {
  const { times } = framesFrom(wave, { index: 1, free: 0, bit: 0 }, sent, 0, name, bitTimes(wave), until);
  return [...times, ...Array(sent.length - times.length).fill(null)];
}

// The bit time of a pin on which bytes end at `times`, in frames of `length` bits that begin with a fall.
function bitTimeOf(wave, times, length = 10) {
  return bitTimes(wave).find(bit => times.slice(0, 50).every(t => {
    const start = t + 1 - length * bit, i = findEdge(wave, start);
    return i > 0 && wave.t[i] === start && wave.v[i] === 0;
  })) || null;
}

// SPI: a bit at each rise (or fall, where `sampleFall`) of the clock, the highest first; eight are a byte.
// A change of `select`, if there is one, drops the bits that were begun; a byte while it is high is not read.
function spiFrames(clock, data, { sampleFall = false, select = null } = {}) {
  const frames = [];
  let bits = 0, value = 0, from = 0, selectedUntil = -1;
  for (let i = 1; i < clock.t.length; i++) {
    const now = clock.v[i] === 1, t = clock.t[i];
    if (now === (clock.v[i - 1] === 1) || now === sampleFall) continue;
    if (select) {
      const edge = findEdge(select, t);
      if (select.v[Math.max(edge, 0)] === 1) { bits = value = 0; continue; }
      if (edge !== selectedUntil) { bits = value = 0; selectedUntil = edge; }
    }
    if (bits === 0) from = t;
    value = value * 2 + reads(data, t);
    if (++bits === 8) {
      frames.push({ from, to: t, value, kind: 'byte', text: hex(value) });
      bits = value = 0;
    }
  }
  return frames;
}

// I2C: what happens on the bus, told as it comes: on.start(t), on.stop(t), on.byte(t, value, isAddress) in the cycle in which SCL
// rises for the eighth bit, on.answer(t, acknowledged) for the ninth, on.bit(t) for the first.
function walkI2c(scl, sda, on) {
  let clock = 0, data = 0, bits = -1, value = 0, address = false;
  walkTwo(scl, sda, (t, sclLevel, sdaLevel) => {
    const c = +(sclLevel === 1), d = +(sdaLevel === 1);
    if (clock && c && data !== d) {
      if (d) on.stop(t, bits >= 0); else on.start(t);
      bits = d ? -1 : 0; value = 0; address = !d;
    } else if (!clock && c && bits >= 0) {
      if (bits === 0) on.bit(t);
      if (bits < 8) value = value * 2 + d;
      if (bits === 7) on.byte(t, value, address);
      if (bits === 8) { on.answer(t, !d); value = 0; address = false; }
      bits = (bits + 1) % 9;
    }
    clock = c; data = d;
  });
}

// START (S), address with R or W, bytes, STOP (P); N where nobody answered.
function i2cFrames(scl, sda) {
  const frames = [];
  let from = 0, last = null;
  walkI2c(scl, sda, {
    start: t => frames.push({ from: t, to: t, kind: 'start', text: 'S' }),
    stop: (t, begun) => { if (begun) frames.push({ from: t, to: t, kind: 'stop', text: 'P' }); },
    bit: t => { from = t; },
    byte: (t, value, address) => { last = { from, to: t, value, kind: address ? 'address' : 'byte', text: address ? `${hex(value >> 1)} ${value & 1 ? 'R' : 'W'}` : hex(value) }; },
    answer: (t, acknowledged) => { frames.push({ ...last, to: t, acknowledged, text: last.text + (acknowledged ? '' : ' N') }); },
  });
  return frames;
}
