'use strict';
// A wave: the levels of one net over time.
//   t     cycles at which it changes, rising; t[0] is the first cycle that is stored
//   v     its level from there on: 0 low, 1 high, 2 nothing drives it (z), 3 two levels at once (x)
//   high  for each change, how many cycles before it the net was high
// Everything that is drawn or said rests on `findEdge`, one binary search.

const LEVELS = '01zx';

function makeWave(t, v) {
  const high = new Uint32Array(t.length);
  for (let i = 1; i < t.length; i++) high[i] = high[i - 1] + (v[i - 1] === 1 ? t[i] - t[i - 1] : 0);
  return { t, v, high };
}

// The last change at or before cycle c; -1 if there is none.
function findEdge(wave, c) {
  let low = 0, high = wave.t.length;
  while (low < high) {
    const middle = (low + high) >> 1;
    if (wave.t[middle] <= c) low = middle + 1; else high = middle;
  }
  return low - 1;
}

const levelAt = (wave, c) => wave.v[Math.max(findEdge(wave, c), 0)];

function highUpTo(wave, c) {
  const i = Math.max(findEdge(wave, c), 0);
  return wave.high[i] + (wave.v[i] === 1 ? Math.max(c - wave.t[i], 0) : 0);
}

// The share of cycles from a up to b in which the net is high.
function highShare(wave, a, b) {
  return b > a ? (highUpTo(wave, b) - highUpTo(wave, a)) / (b - a) : +(levelAt(wave, a) === 1);
}

// The next change after cycle c (way 1), or the one before it (way -1); null if there is none.
function nextEdge(wave, c, way) {
  const i = way > 0 ? findEdge(wave, c) + 1 : findEdge(wave, c - 1);
  return i > 0 && i < wave.t.length ? wave.t[i] : null;
}

// The next cycle after c at which a stretch of `level` begins that lasts longer than `least` cycles; null if there is none.
function nextLonger(wave, c, level, least, end) {
  for (let i = findEdge(wave, c) + 1; i < wave.t.length; i++) {
    const until = i + 1 < wave.t.length ? wave.t[i + 1] : end;
    if (wave.v[i] === level && until - wave.t[i] > least) return wave.t[i];
  }
  return null;
}

// Waves as a page carries them: of each change the cycles since the one before, times 4, plus its level, seven bits a byte
// with the lowest first; the waves one after another. The first change of each wave counts from cycle 0.
function unpackWaves(bytes, counts) {
  let at = 0;
  return counts.map(count => {
    const t = new Uint32Array(count), v = new Uint8Array(count), high = new Uint32Array(count);
    let time = 0, up = 0, level = 0;
    for (let i = 0; i < count; i++) {
      let byte = bytes[at++], n = byte & 127;
      for (let scale = 128; byte > 127; scale *= 128) { byte = bytes[at++]; n += (byte & 127) * scale; }
      const step = n < 0x40000000 ? n >> 2 : Math.floor(n / 4);
      if (i && level === 1) up += step;
      level = v[i] = n & 3;
      high[i] = up;
      t[i] = time += step;
    }
    return { t, v, high };
  });
}

// Both lines read as one list of changes: calls `visit(cycle, a, b)` for each cycle in which one of two waves changes.
function walkTwo(one, two, visit) {
  let i = 0, k = 0;
  while (i < one.t.length || k < two.t.length) {
    const t = Math.min(i < one.t.length ? one.t[i] : Infinity, k < two.t.length ? two.t[k] : Infinity);
    if (one.t[i] === t) i++;
    if (two.t[k] === t) k++;
    visit(t, one.v[Math.max(i - 1, 0)], two.v[Math.max(k - 1, 0)]);
  }
}
