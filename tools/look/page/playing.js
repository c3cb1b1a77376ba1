'use strict';
// The page's side of playing chips (played.js): which parts of a run are played, one after another in a worker of their own, and what they
// showed. PLAYER is the worker's text. A worker that says nothing for a while is ended, and what its chip showed up to there stays.
//
//   playChips(run, changed)   begins, once; `changed()` is called where something came. Answers a promise that is kept when all is played
//   stopChips(run)            ends it, for a run that is shown no longer
//   frameAt(run, part, t)     what a part's display shows in cycle t: {width, height, pixels, key}, with another key where it changed;
//                             null where nothing is known
//   linesAt(run, part, t)     what it has printed by then: [text, ..]
//   run.unplayed              what could not be played, in words
//
// Of a run that grows (`run.grows`; its `to` and its waves have more at each call) a later call goes on where it was. With `run.onlyLast` the
// last picture alone is kept.

const START_MS = 60000, QUIET_MS = 20000, WHOLE_MS = 120000, LONG = 1 << 16;

// The chip that shows a part: its own, or the one that a part which the simulator has is shown by.
const playedOf = part => part.shown || part;
const isPlayed = (run, part) => Boolean(run.modules && run.modules[playedOf(part).type] && playedOf(part).pins && (!part.slice || part.slice.of === part.id));

function playChips(run, changed) {
  const playing = run.playing ||= new Playing(run);
  if (changed) playing.changed = changed;
  playing.add();
  return playing.done;
}
function stopChips(run) { if (run.playing) run.playing.stop(); }

class Playing {
  constructor(run) {
    this.run = run; this.shown = new Map(); this.waiting = []; this.worker = null; this.current = null; this.timer = null; this.done = Promise.resolve(); this.finish = null; this.changed = () => {};
    run.unplayed = [];
    for (const part of [...run.parts, ...run.scenery]) if (isPlayed(run, part)) this.begin(part);
  }

  begin(part) {
    const { run } = this, chip = playedOf(part), { module, display } = run.modules[chip.type];
    const end = endOf(run, part.id), shown = { part, chip, display, end, record: new Record(display || [0, 0], run.onlyLast), lines: [], sent: chip.pins.map(() => 0), to: 0, isOver: false };
    this.shown.set(part.id, shown);
    shown.first = { bytes: module, pins: chip.pins, attrs: { ...chip.attrs }, display, last: Boolean(run.onlyLast) };
    if (this.wavesOf(shown).some(wave => wave.t[0] > 0)) { shown.record = null; this.give(shown, 'the waves of its pins begin later than the run'); }
  }
  wavesOf({ chip }) { return chip.pins.map(name => (name && this.run.wave(pinOf(chip, name))) || ALWAYS_LOW); }

  // All that is known by now waits for the worker. A chip that a trap ended on the board is played up to that cycle, so what did not come back
  // there is not called again; what it showed at last is in the report.
  add() {
    for (const shown of this.shown.values()) {
      const to = Math.min(this.run.to, shown.end ? shown.end.t ?? 0 : Infinity);
      if (shown.isOver || this.waiting.includes(shown) || this.current === shown || (to <= shown.to && !shown.first)) continue;
      if (to > shown.to) this.waiting.push(shown); else this.close(shown);
    }
    if (!this.waiting.length || this.finish) return;
    this.done = new Promise(finish => { this.finish = finish; });
    this.next();
  }

  next() {
    const shown = this.current = this.waiting.shift() || null;
    clearTimeout(this.timer);
    if (!shown) { this.rest(); return; }
    if (!this.worker) this.open();
    const waves = this.wavesOf(shown), changes = waves.map(({ t, v }, pin) => ({ t: t.slice(shown.sent[pin]), v: v.slice(shown.sent[pin]) }));
    shown.sent = waves.map(wave => wave.t.length);
    shown.begun = performance.now();
    shown.upTo = Math.min(this.run.to, shown.end ? shown.end.t ?? 0 : Infinity);
    this.worker.postMessage({ id: shown.part.id, begin: shown.first, changes: changes.map(({ t, v }) => ({ t: Float64Array.from(t), v: Uint8Array.from(v) })), to: shown.upTo });
    shown.first = null;
    this.wait(shown, START_MS, `its worker did not start within ${START_MS / 1000} s`);
  }

  open() {
    const url = URL.createObjectURL(new Blob([PLAYER], { type: 'text/javascript' }));
    this.worker = new Worker(url);
    this.worker.onmessage = ({ data }) => this.take(data);
    this.worker.onerror = event => { if (event.preventDefault) event.preventDefault(); if (this.current) this.leave(this.current, `the browser does not play it (${event.message || 'its worker ended'})`); };
  }
  wait(shown, ms, why) {
    clearTimeout(this.timer);
    this.timer = setTimeout(() => this.leave(shown, why), ms);
  }
  watch(shown) {
    const left = shown.begun + WHOLE_MS - performance.now();
    if (left < QUIET_MS) this.wait(shown, Math.max(left, 0), `it takes more than ${WHOLE_MS / 1000} s`);
    else this.wait(shown, QUIET_MS, `it did not come back within ${QUIET_MS / 1000} s`);
  }

  take({ id, begins, to, ended, done, ...news }) {
    const shown = this.shown.get(id);
    if (!shown || this.current !== shown) return;
    if (begins) { this.watch(shown); return; }
    shown.record.append(news);
    shown.lines.push(...news.lines);
    shown.to = to;
    if (ended) this.give(shown, ended[1], ended[0]);
    else if (done && shown.end) this.close(shown);
    this.changed();
    if (done) this.next(); else this.watch(shown);
  }

  // The worker is ended with a chip that does not come back, and others that would go on are lost with it.
  leave(shown, why) {
    this.worker.terminate();
    this.worker = null;
    this.give(shown, why, shown.to);
    for (const other of this.shown.values()) if (this.run.grows && !other.isOver && !other.first) this.give(other, `${shown.part.id} ended its worker`, other.to);
    this.waiting = this.waiting.filter(other => !other.isOver);
    this.changed();
    this.next();
  }
  give(shown, why, t = null) {
    shown.isOver = true;
    this.run.unplayed.push({ t, text: `${shown.part.id} is not shown as it goes on${t === null ? '' : ` from ${inMicroseconds(t)} on`}: ${why}.` });
  }

  // What a chip that a trap ended had shown: from the report.
  close(shown) {
    shown.isOver = true;
    const { part, display, record, lines } = shown, t = shown.end.t ?? 0, reported = reportedOf(this.run, part.id, display);
    if (display) record.append({ t: [t], at: [0], size: [reported.pixels.length], data: reported.pixels });
    lines.push(...reported.lines.slice(lines.length).map(text => [t, text]));
  }

  rest() {
    if (this.worker && !this.run.grows) { this.worker.terminate(); this.worker = null; }
    const finish = this.finish;
    this.finish = null;
    if (finish) finish();
  }
  stop() {
    clearTimeout(this.timer);
    if (this.worker) this.worker.terminate();
    this.worker = null; this.waiting = []; this.current = null;
    for (const shown of this.shown.values()) shown.isOver = true;
    this.rest();
  }
}

// What the report has of a chip at the end of the run: its pixels and its lines.
function reportedOf(run, id, display) {
  const [width, height] = display || [0, 0], pixels = new Uint8Array(4 * width * height), lines = [];
  for (const line of run.report.split('\n')) {
    const [kind, part, what, y, text] = line.split(' ');
    if (kind !== 'chip' || part !== id) continue;
    if (what === '|') lines.push(line.slice(`chip ${id} | `.length));
    if (what === 'row') for (let i = 0; i < text.length / 2; i++) pixels[4 * width * Number(y) + i] = parseInt(text.slice(2 * i, 2 * i + 2), 16);
  }
  return { pixels, lines };
}

// The pixels of a display after each of its changes: the changes, and whole copies from time to time, so that no picture is far from one.
class Record {
  constructor([width, height], onlyLast) {
    Object.assign(this, { width, height, onlyLast, size: 4 * width * height, t: [], at: [], from: [0], data: new Uint8Array(1 << 12), used: 0, spent: 0 });
    this.newest = new Uint8Array(this.size);
    this.copies = [[-1, new Uint8Array(this.size)]];
    this.here = { index: -1, pixels: new Uint8Array(this.size) };
  }
  append({ t, at, size, data }) {
    let place = 0;
    for (let i = 0; i < t.length; i++) {
      const bytes = data.subarray(place, place += size[i]);
      this.newest.set(bytes, at[i]);
      if (this.onlyLast) { this.key = t[i]; continue; }
      if (this.used + bytes.length > this.data.length) { const more = new Uint8Array(2 * (this.used + bytes.length)); more.set(this.data.subarray(0, this.used)); this.data = more; }
      this.data.set(bytes, this.used);
      this.used += bytes.length;
      this.t.push(t[i]); this.at.push(at[i]); this.from.push(this.used);
      this.spent += bytes.length + 16;
      if (this.spent > Math.max(16 * this.size, LONG)) { this.copies.push([this.t.length - 1, this.newest.slice()]); this.spent = 0; }
    }
  }
  pictureAt(t) {
    if (this.onlyLast) return { width: this.width, height: this.height, pixels: this.newest, key: this.key };
    const index = this.indexAt(t), { here } = this;
    if (index < here.index || this.nearest(index)[0] > here.index) { const [from, copy] = this.nearest(index); here.pixels.set(copy); here.index = from; }
    while (here.index < index) { const i = ++here.index; here.pixels.set(this.data.subarray(this.from[i], this.from[i + 1]), this.at[i]); }
    return { width: this.width, height: this.height, pixels: here.pixels, key: index };
  }
  indexAt(t) {
    let low = 0, high = this.t.length;
    while (low < high) { const middle = (low + high) >> 1; if (this.t[middle] <= t) low = middle + 1; else high = middle; }
    return low - 1;
  }
  nearest(index) {
    let low = 0, high = this.copies.length;
    while (low < high) { const middle = (low + high) >> 1; if (this.copies[middle][0] <= index) low = middle + 1; else high = middle; }
    return this.copies[low - 1];
  }
}

const shownOf = (run, part) => (run.playing && run.playing.shown.get(part.id)) || null;

function frameAt(run, part, t) {
  if (part.slice) {                 // a part of a chain shows its share of the pixels of the chain's chip
    const { of, from, count } = part.slice, head = run.parts.find(it => it.id === of), whole = head && frameAt(run, { ...head, slice: null }, t);
    return whole && { width: count, height: 1, pixels: whole.pixels.subarray(4 * from, 4 * (from + count)), key: whole.key };
  }
  const shown = shownOf(run, part);
  return shown && shown.display && shown.record ? shown.record.pictureAt(t) : null;
}

function linesAt(run, part, t) {
  const shown = shownOf(run, part);
  return shown ? shown.lines.slice(0, lastBefore(shown.lines, t) + 1).map(([, text]) => text) : [];
}
