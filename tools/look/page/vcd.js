'use strict';
// Reads a value change dump as the simulator writes it (docs/WAVE.md): {names, of, waves, cycles}.
// `names` are the variables in the order of their declarations, `of` the wave of each; equal waves are kept once.

const UNITS_A_CYCLE = 625;

class Growing {                     // two arrays that grow together: cycles and levels
  constructor() { this.t = new Uint32Array(16); this.v = new Uint8Array(16); this.length = 0; }
  push(t, v) {
    if (this.length === this.t.length) {
      const t2 = new Uint32Array(2 * this.length), v2 = new Uint8Array(2 * this.length);
      t2.set(this.t); v2.set(this.v);
      this.t = t2; this.v = v2;
    }
    this.t[this.length] = t; this.v[this.length++] = v;
  }
  wave() { return makeWave(this.t.slice(0, this.length), this.v.slice(0, this.length)); }
}

function readVcd(bytes) {
  const names = [], rows = [], byCode = new Map();
  const lineEnd = at => { const end = bytes.indexOf(10, at); return end < 0 ? bytes.length : end; };
  const textOf = (from, to) => { let s = ''; for (let i = from; i < to; i++) s += String.fromCharCode(bytes[i]); return s; };
  const codeOf = (from, to) => { let n = 0; for (let i = from; i < to; i++) n = n * 128 + bytes[i]; return n; };
  let at = 0, cycle = 0;
  while (at < bytes.length) {       // the declarations
    const end = lineEnd(at), line = textOf(at, end);
    at = end + 1;
    if (line.startsWith('$enddefinitions')) break;
    if (!line.startsWith('$var')) continue;
    const words = line.split(' ');
    byCode.set([...words[3]].reduce((n, c) => n * 128 + c.charCodeAt(0), 0), rows.length);
    names.push(words[4]); rows.push(new Growing());
  }
  while (at < bytes.length) {       // the changes
    const end = lineEnd(at), first = bytes[at];
    if (first === 35) cycle = Number(textOf(at + 1, end)) / UNITS_A_CYCLE;
    const level = first === 48 ? 0 : first === 49 ? 1 : first === 122 ? 2 : first === 120 ? 3 : -1;
    if (level >= 0) rows[byCode.get(codeOf(at + 1, end))]?.push(cycle, level);
    at = end + 1;
  }
  return { names, ...sharedWaves(rows), cycles: cycle };
}

// Keeps each different wave once.
function sharedWaves(rows) {
  const known = new Map(), waves = [];
  const same = (a, b) => a.length === b.length && a.every((x, i) => x === b[i]);
  const of = rows.map(row => {
    let hash = row.length;
    for (let i = 0; i < row.length; i++) hash = Math.imul(hash, 31) + 4 * row.t[i] + row.v[i] | 0;
    const like = known.get(hash) || [], t = row.t.subarray(0, row.length), v = row.v.subarray(0, row.length);
    let index = like.find(k => same(waves[k].t, t) && same(waves[k].v, v));
    if (index === undefined) {
      index = waves.push(row.wave()) - 1;
      known.set(hash, [...like, index]);
    }
    return index;
  });
  return { of, waves };
}
