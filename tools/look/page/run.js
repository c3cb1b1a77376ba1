'use strict';
// A run: all that a page shows, as plain data, wherever it comes from. README.md lists its fields.

const CYCLES_A_MICROSECOND = 16;
const ALWAYS_LOW = makeWave([0], [0]), ALWAYS_HIGH = makeWave([0], [1]);
const UNO_SUPPLY = /^(5V|3\.3V|VIN|IOREF|AREF)$/, UNO_GROUND = /^GND\.[123]$/, TWICE_ON_BOARD = /^(A4|A5|11|12|13|5V)\.2$/;      // on an Uno, and on a Nano
const SET_BY_HAND = new Set(['wokwi-pushbutton', 'wokwi-slide-switch', 'wokwi-dip-switch-8', 'wokwi-potentiometer', 'wokwi-membrane-keypad', 'board-source']);
const STARTS = { 'wokwi-slide-switch': 0, 'wokwi-potentiometer': 0, 'board-source': 2 };      // by the attribute `value`, else by this

// From what the program takes and writes: texts, and bytes as Uint8Array.
// chips: {'chip-NAME': [pin, ..]}, the pins of each custom chip. modules: {'chip-NAME': {module: bytes, display: [width, height] or null}}, of
// those that print or draw.
function runFrom({ title, us, diagram, chips, modules, script, controls, vcd, serial, report, program }) {
  const wave = readVcd(vcd);
  const run = makeRun({ title, cycles: us * CYCLES_A_MICROSECOND, diagram, chips, modules, script, controls, names: wave.names, of: wave.of, waves: wave.waves, serial, report, program });
  const uno = run.parts.find(part => part.type === 'wokwi-arduino-uno');
  run.serial = serialOf(run.serial.bytes, uno && run.wave(uno.id + '.1') ? sentReadings(run.wave(uno.id + '.1'), run.serial.bytes) : []);
  return run;
}

// From waves that are read already.
function makeRun({ title, cycles, from = 0, to = cycles, diagram, chips = {}, modules = {}, script = '', names, of, waves, serial, times = null, formats = [], others = [],
  report = '', firsts = {}, left = '', made = [], told = [], controls = {}, program = '' }) {
  const drawing = typeof diagram === 'string' ? JSON.parse(diagram) : diagram;
  const parts = (drawing.parts || []).map(part => withViewer(partOf(part, chips), modules)), wires = wiresOf(drawing), { scenery, drawn } = drawnOf(drawing, wires, chips);
  const run = {
    title, cycles, from, to, names, waves, report, modules, program, left, made,
    parts, scenery, wires: drawn || wires,
    levelOf: levelsOf(drawn || []),  // of a pin that no part of the board has: one that has its level
    waveOf: new Map(names.map((name, i) => [name, of[i]])),
    inputs: inputsOf(parts, script),
    controls,                       // of the editor's parts: {part: [[control, unit, [[cycle, value], ..]], ..]}
    serial: { bytes: serial || new Uint8Array(0), times, formats, others },
    notes: notesOf(report, firsts, told),
    cache: new Map(),               // what displays and decoders found, by a name that they choose
  };
  run.sharing = sharingOf(run, of);
  run.wave = name => waveNamed(run, name);
  run.once = (key, make) => { if (!run.cache.has(key)) run.cache.set(key, make()); return run.cache.get(key); };
  return run;
}

// The bytes with their times by the first of some readings (bus.js); `others` has a format of each of the other readings.
function serialOf(bytes, [first, ...rest]) {
  if (!bytes.length) return { bytes, times: [], formats: [], others: [] };
  return first ? { bytes, ...first, others: rest.map(({ formats }) => formats[0]) } : { bytes, times: null, formats: [], others: [] };
}

// The bytes by another format that fits.
function readSentAs(run, name) {
  const { serial } = run, uno = run.parts.find(part => part.type === 'wokwi-arduino-uno');
  const names = [serial.formats[0], ...serial.others];
  run.serial = { ...serial, times: timesIn(run.wave(pinOf(uno, '1')), serial.bytes, name, run.to < run.cycles ? run.to : Infinity), formats: [name], others: names.filter(other => other !== name) };
}

function levelsOf(drawn) {
  const levels = new Map();
  for (const [one, other, , , level] of drawn) if (typeof level === 'string' && level) for (const end of [one, other]) levels.set(end.replace(':', '.'), level);
  return levels;
}

// A part that the simulator has and a chip shows has that chip as `shown`.
function withViewer(part, modules) {
  const { pins } = modules[part.type] || {};
  if (!pins || part.pins) return part;
  const address = isI2c(part) ? { i2cAddress: String(addressOf(part, '0x27')) } : {};
  return { ...part, shown: { type: part.type, id: part.id, pins, attrs: address } };
}

// `as` is the type that a part had in the editor's diagram, which a chip stands for now; `slice` its place in a chain of pixels, which the
// chip of the first of them shows; `within` the part that is drawn in its place.
function partOf(part, chips) {
  const number = x => typeof x === 'number' && isFinite(x) ? x : 0, attrs = Object.create(null);
  for (const [name, value] of Object.entries(part.attrs || {})) attrs[name] = String(value);
  const text = x => typeof x === 'string' ? x : '', { of, from, count } = part.slice || {};
  return { type: String(part.type), id: String(part.id), as: text(part.as), within: text(part.within), slice: text(of) ? { of, from: number(from), count: number(count) } : null, shown: null, left: number(part.left), top: number(part.top), rotate: number(part.rotate),
    hidden: part.hide === true, attrs, pins: chips[part.type] || null };
}

const wiresOf = drawing => (drawing.connections || []).filter(wire => Array.isArray(wire) && typeof wire[0] === 'string' && typeof wire[1] === 'string');

// How the editor drew a diagram that a tool made a project of (tools/wokwi/lower.py): breadboards and parts that were left out, and the
// wires, each with the pin whose level it has. It holds as long as the project's wires are those that it was made with.
function drawnOf(drawing, wires, chips) {
  const drawn = drawing.drawn, number = x => Number.isInteger(x) && x > 0 && x < 100 ? x : 0;
  if (!drawn || drawn.of !== markOf(wires)) return { scenery: [], drawn: null };
  return { scenery: (drawn.parts || []).map(part => ({ ...partOf(part, chips), isScenery: true, columns: number(part.columns), rail: number(part.rail) })), drawn: wiresOf(drawn) };
}
function markOf(wires) {            // FNV-1a, 32 bits
  let mark = 0x811C9DC5;
  for (const byte of new TextEncoder().encode(wires.map(([one, other]) => `${one} ${other}`).join('\n'))) mark = Math.imul(mark ^ byte, 0x01000193) >>> 0;
  return mark;
}

// The names that share a wave, without what a chip's pin drives by itself.
const isOwnDrive = name => /\.(out|pull)$/.test(name);
function sharingOf(run, of) {
  const sharing = run.waves.map(() => []);
  run.names.forEach((name, i) => { if (!isOwnDrive(name)) sharing[of[i]].push(name); });
  return sharing;
}

// The wave of a pin. The Uno's supplies and grounds are in no wave, since they never change.
function waveNamed(run, name) {
  if (run.waveOf.has(name)) return run.waves[run.waveOf.get(name)];
  const level = run.levelOf.get(name);
  if (level && level !== name && (run.waveOf.has(level) || !run.levelOf.has(level))) return waveNamed(run, level);
  const at = name.indexOf('.'), pin = name.slice(at + 1);
  const part = run.parts.find(p => p.id === name.slice(0, at));
  if (!part || part.type !== 'wokwi-arduino-uno') return null;
  if (TWICE_ON_BOARD.test(pin)) return waveNamed(run, name.slice(0, -2));
  return UNO_GROUND.test(pin) ? ALWAYS_LOW : UNO_SUPPLY.test(pin) ? ALWAYS_HIGH : null;
}

// Of each part that a hand sets: [[cycle, value], ..], from the diagram and the script (docs/SCRIPTS.md).
function inputsOf(parts, script) {
  const inputs = Object.create(null);
  for (const part of parts) {
    if (!SET_BY_HAND.has(part.type)) continue;
    const usual = STARTS[part.type];
    inputs[part.id] = [[0, usual === undefined ? 0 : Number(part.attrs.value ?? usual) || 0]];
  }
  for (const line of script.split('\n')) {
    const [time, action, id, value] = line.trim().split(/ +/);
    if (!time || time.startsWith('#') || !inputs[id]) continue;
    const cycle = parseInt(time, 10) * (time.endsWith('us') ? CYCLES_A_MICROSECOND : 1);
    inputs[id].push([cycle, action === 'press' ? 1 : action === 'release' ? 0 : Number(value)]);
  }
  return inputs;
}

function lastBefore(list, t) {      // the last entry of [[cycle, ..], ..] at or before cycle t; -1 if there is none
  let low = 0, high = list.length;
  while (low < high) { const middle = (low + high) >> 1; if (list[middle][0] <= t) low = middle + 1; else high = middle; }
  return low - 1;
}
// The value of a control of a part of the editor as a text, with its unit where `withUnit`; '' of one that is not there.
function controlAt(run, id, name, t, withUnit = false) {
  const found = (Object.hasOwn(run.controls, id) ? run.controls[id] : []).find(([control]) => control === name);
  if (!found) return '';
  const [, unit, values] = found, value = values[Math.max(lastBefore(values, t), 0)][1];
  return withUnit && unit && value !== '' ? `${value} ${unit}` : value;
}
const inputAt = (run, id, t) => { const list = run.inputs[id] || []; return list.length ? list[Math.max(lastBefore(list, t), 0)][1] : 0; };

// How much of the time from `start` to t a light was on that needs `anode` high and `cathode` low: 0 to 1.
function lightShare(run, anode, cathode, start, t) {
  const a = run.wave(anode), c = run.wave(cathode);
  if (!a || !c) return 0;
  const on = cycle => levelAt(a, cycle) === 1 && levelAt(c, cycle) === 0 ? 1 : 0;
  const from = Math.max(start, run.from);
  if (t <= from) return on(t);
  if (findEdge(c, from) === findEdge(c, t)) return levelAt(c, t) === 0 ? highShare(a, from, t) : 0;
  let sum = 0, cycle = from, i = findEdge(a, from) + 1, k = findEdge(c, from) + 1;
  for (let steps = 0; cycle < t && steps < 20000; steps++) {          // both move: sum over the stretches between their changes
    const next = Math.min(i < a.t.length ? a.t[i] : t, k < c.t.length ? c.t[k] : t, t);
    sum += on(cycle) * (next - cycle);
    cycle = next;
    if (a.t[i] === next) i++;
    if (c.t[k] === next) k++;
  }
  return cycle > from ? sum / (cycle - from) : on(t);
}
