'use strict';
// What a hand does with the parts of a board, in words of the editor, as lines of a script that the simulator takes: as
// tools/wokwi/moves.py does, text for text and sentence for sentence, which a test compares. docs/SCRIPTS.md says what the words do.

class MoveFault extends Error {}

const MILLISECOND = 1000 * MICROSECOND, LAST_CYCLE = 160000000, MOST_LINES = 4096, MOVE_LINE = /^([0-9]{1,9})(us|cy) +(press|release|set) +(\S+)((?: +\S+)*)$/;
const RANGES = { 'wokwi-pushbutton': 1, 'wokwi-slide-switch': 1, 'wokwi-dip-switch-8': 255, 'wokwi-potentiometer': 1023, 'wokwi-membrane-keypad': 65535, 'board-source': 2 };
// When a contact that bounces opens and closes again, in microseconds after it first closed, or opened.
const BOUNCES = { press: [0, 140, 200, 470, 560, 1150, 1210], release: [0, 90, 170, 520, 580] };
const TURN = 2 * MILLISECOND;       // between two edges of a rotary encoder, four of which are a step
const NEC_UNIT = 9000, NEC_FRAME = 108 * MILLISECOND;        // cycles of the 562.5 us of which an infrared frame is made; from one frame to the next

const nearestPlace = (value, { min, step }) => Number(rounded((value - min) / step));
function numberText(value) {
  const text = value.toFixed(6).replace(/0+$/, '').replace(/\.$/, '');
  return text === '-0' ? '0' : text;
}
const placeText = (place, { min, step }) => numberText(min + place * step);

// The bit of a part's value that a control is, or null: a switch of eight by its number, a key by row and column.
function bitOf(kind, control) {
  if (kind === 'wokwi-dip-switch-8' && /^[1-8]$/.test(control)) return Number(control) - 1;
  const key = kind === 'wokwi-membrane-keypad' && /^r([1-4])c([1-4])$/.exec(control);
  return key ? 4 * (key[1] - 1) + Number(key[2]) - 1 : null;
}

// The lines of one script, made of what is done at each cycle; no cycle is below an earlier one. The diagram is one that JSON.parse read.
class Moves {
  constructor(diagram, types) {
    const textual = value => typeof value === 'string' || typeof value === 'number';
    this.types = types;
    this.kinds = new Map(diagram.parts.map(part => [part.id, part.type]));
    this.attrs = new Map(diagram.parts.map(part => [part.id, new Map(Object.entries(part.attrs || {}).filter(([, value]) => textual(value)).map(([key, value]) => [key, String(value)]))]));
    this.controls = diagram.controls && typeof diagram.controls === 'object' ? diagram.controls : {};
    this.made = [];
    this.seen = [];                 // {cycle, part, control, value, unit} of each control that was moved
    this.values = new Map();        // of parts whose bits are moved one by one
    this.free = new Map();          // the cycle from which on a part can be moved again
    this.motions = new Map();       // of a motion sensor: from when to when it sees one
  }

  put(cycle, text) { this.made.push([cycle, text]); }
  idOf(part, ending) { return this.controls[part].ids[ending]; }
  // The controls of a part of the editor.
  ruleOf(part) {
    if (Object.hasOwn(this.controls, part) && this.controls[part].rules) return this.controls[part].rules;        // a chip of the project
    const kind = Object.hasOwn(this.controls, part) ? this.controls[part].type : '', rule = ruleOf(this.types.lowered, kind) || ruleOf(this.types['left out'], kind) || {};
    return rule.controls || {};
  }

  // Moves a control of a part to a value in its unit.
  move(cycle, part, control, value) {
    const rules = this.ruleOf(part);
    if (!Object.hasOwn(rules, control)) { this.moveSimulated(cycle, part, control, value, rules); return; }
    const rule = rules[control];
    if (rule.words) {
      if (!Object.hasOwn(rule.words, value)) throw new MoveFault(`${part} has no ${control} ${value}; it has ${wordsOf(rule.words).join(', ')}`);
      this.act(cycle, part, rule, rule.words[value]);
      this.seen.push({ cycle, part, control, value, unit: '' });
      return;
    }
    const given = this.number(part, control, value);
    if (!(given >= rule.min && given <= rule.max)) throw new MoveFault(`${part} takes a ${control} from ${numberText(rule.min)} to ${numberText(rule.max)}${rule.unit && ` ${rule.unit}`}, and not ${value}`);
    const place = nearestPlace(given, rule);
    this.seen.push({ cycle, part, control, value: placeText(place, rule), unit: rule.unit });
    if ('places before' in rule) this.pulse(cycle, this.idOf(part, '-control'), rule['places before'] + place + 1);
    else if (rule.acts) this.act(cycle, part, rule, place + Math.round(rule.min / rule.step));
    else if (rule.sets) this.put(cycle, `${place ? 'press' : 'release'} ${this.idOf(part, rule.sets)}`);
    else this.setPieces(cycle, part, control, placeText(place, rule));
  }

  number(part, control, value) {
    try { return numberOf(value); } catch (fault) { if (fault instanceof ValueFault) throw new MoveFault(`${part}: ${control} ${value} ${fault.message}`); throw fault; }
  }

  // Sets each piece of a part whose value follows from the control.
  setPieces(cycle, part, control, value) {
    const { type, attrs } = this.controls[part], all = new Map([...Object.entries(attrs), [control, value]]);
    for (const piece of this.types.lowered[type].as) {
      const how = piece.attrs && piece.attrs.value;
      if (!how || how.from !== control) continue;
      try { this.put(cycle, `set ${this.idOf(part, piece.id)} ${valueOf(how, all)}`); } catch (fault) { if (fault instanceof ValueFault) throw new MoveFault(`${part}: ${control} ${value} ${fault.message}`); throw fault; }
    }
  }

  // Moves a part that the simulator has, by the name of its control in the editor.
  moveSimulated(cycle, part, control, value, rules) {
    const kind = this.kinds.get(part), names = Object.keys(rules), its = names.length ? `; it has ${names.join(', ')}` : '';
    if (!Object.hasOwn(RANGES, kind ?? '')) throw new MoveFault(this.kinds.has(part) || names.length ? `${part} has no control ${control}${its}` : `there is no part ${part}`);
    let given = this.number(part, control, value);
    const bit = bitOf(kind, control);
    if (kind === 'wokwi-potentiometer' && control === 'position') given *= 1023;
    else if (bit !== null) given = (this.values.get(part) || 0) & ~(1 << bit) | (given ? 1 << bit : 0);
    else if (!['value', 'pressed', 'position'].includes(control)) throw new MoveFault(`${part} has no control ${control}${its}`);
    const whole = Number(rounded(given));
    if (!(whole >= 0 && whole <= RANGES[kind])) throw new MoveFault(`${part} takes 0 to ${RANGES[kind]}${kind === 'wokwi-potentiometer' ? ' (position 0 to 1)' : ''}, and not ${value}`);
    this.values.set(part, whole);
    this.put(cycle, `set ${part} ${whole}`);
  }

  // A pulse of so many cycles, after the one before it.
  pulse(cycle, source, length) {
    const start = Math.max(cycle, this.free.get(source) || 0);
    this.put(start, `set ${source} 1`);
    this.put(start + length, `set ${source} 0`);
    this.free.set(source, start + length + 1);
  }

  // What a control does that makes more than one line.
  act(cycle, part, rule, value) {
    if (rule.acts === 'motion') { if (value) this.seeMotion(cycle, part); return; }
    if (rule.acts === 'turn') { this.turn(cycle, part, value); return; }
    const targets = !rule.of ? [part] : Object.keys(this.controls).filter(name => this.controls[name].type === rule.of);
    if (!targets.length) throw new MoveFault(`${part}: the board has no part that receives it`);
    for (const target of targets) this.sendFrame(cycle, this.idOf(target, ''), value);
  }

  // The contacts of a rotary encoder: to the right CLK closes first, to the left DT.
  turn(cycle, part, steps) {
    const clk = this.idOf(part, '-clk'), dt = this.idOf(part, '-dt'), start = Math.max(cycle, this.free.get(part) || 0), [first, second] = steps > 0 ? [clk, dt] : [dt, clk];
    for (let step = 0; step < Math.abs(steps); step++) [[first, 0], [second, 0], [first, 1], [second, 1]].forEach(([contact, level], place) => this.put(start + (4 * step + place) * TURN, `set ${contact} ${level}`));
    this.free.set(part, start + 4 * Math.abs(steps) * TURN);
  }

  // A frame in NEC's format for address 0 at a receiver's output, which is low while there is light.
  sendFrame(cycle, receiver, command) {
    const start = Math.max(cycle, this.free.get(receiver) || 0), code = (0xFF00 | command << 16 | (command ^ 255) << 24) >>> 0, spaces = [8];
    for (let bit = 0; bit < 32; bit++) spaces.push(code >>> bit & 1 ? 3 : 1);
    let at = start;
    spaces.forEach((space, place) => {
      const mark = place ? 1 : 16;
      this.put(at, `set ${receiver} 0`);
      this.put(at + mark * NEC_UNIT, `set ${receiver} 1`);
      at += (mark + space) * NEC_UNIT;
    });
    this.put(at, `set ${receiver} 0`);
    this.put(at + NEC_UNIT, `set ${receiver} 1`);
    this.free.set(receiver, start + NEC_FRAME);
  }

  // A motion: the output is high for `delayTime` seconds, then blind for `inhibitTime`; with `retrigger` a motion lengthens it.
  seeMotion(cycle, part) {
    const { attrs } = this.controls[part], [delay, inhibit] = [['delayTime', '5'], ['inhibitTime', '1.2']].map(([name, usual]) => Number(rounded(16000000 * this.number(part, name, attrs[name] || usual))));
    if (!this.motions.has(part)) this.motions.set(part, []);
    const motions = this.motions.get(part), last = motions.at(-1);
    if (last && cycle < last[1]) { if ((attrs.retrigger || '1') !== '0') last[1] = cycle + delay; } else if (!last || cycle >= last[1] + inhibit) motions.push([cycle, cycle + delay]);
  }

  // Presses or releases a button whose contact bounces.
  bounce(cycle, action, part) {
    if (this.kinds.get(part) !== 'wokwi-pushbutton') throw new MoveFault(this.kinds.has(part) ? `${part} is no push button, which alone bounces` : `there is no part ${part}`);
    const other = action === 'press' ? 'release' : 'press';
    BOUNCES[action].forEach((us, place) => this.put(cycle + us * MICROSECOND, `${place % 2 ? other : action} ${part}`));
  }

  // All lines in the order of their cycles; those beyond the largest time are none.
  lines() {
    const made = [...this.made];
    for (const [part, motions] of this.motions) for (const [start, end] of motions) made.push([start, `set ${this.idOf(part, '')} 1`], [end, `set ${this.idOf(part, '')} 0`]);
    const kept = made.filter(([cycle]) => cycle <= LAST_CYCLE).sort((one, other) => one[0] - other[0]);
    if (kept.length > MOST_LINES) throw new MoveFault(`the script has ${kept.length} lines with what its controls become, and ${MOST_LINES} is the most`);
    return kept;
  }
}

// The words of a control in the order of types.json: JavaScript puts those that are numbers first.
const wordsOf = words => Object.keys(words).sort((one, other) => WORD_ORDER.indexOf(one) - WORD_ORDER.indexOf(other));
const WORD_ORDER = 'power menu test plus back previous play next 0 minus c 1 2 3 4 5 6 7 8 9'.split(' ');

// Whether a line of a script is one that the simulator does not have.
function isOurs(line) {
  const found = MOVE_LINE.exec(line), words = found ? found[5].split(' ').filter(Boolean) : [];
  return Boolean(found) && (found[3] === 'set' ? words.length === 2 : words.length === 1 && words[0] === 'bounce');
}

// {text, seen}: the script that the simulator takes, and the controls that it moves; a text without lines of ours is as it was.
function expanded(text, diagram, types) {
  const lines = text.split('\n').map(line => line.replace(/\r$/, ''));
  if (!lines.some(isOurs)) return { text, seen: [] };
  const moves = new Moves(diagram, types);
  let last = 0;
  lines.forEach((line, i) => {
    if (line === '' || line.startsWith('#')) return;
    try { last = takeLine(moves, line, last); } catch (fault) { if (fault instanceof MoveFault) throw new MoveFault(`script line ${i + 1}: ${fault.message}`); throw fault; }
  });
  return { text: moves.lines().map(([cycle, line]) => `${timeText(cycle)} ${line}\n`).join(''), seen: moves.seen };
}

// Takes a line, which may not be before the cycle `last`, and returns its cycle.
function takeLine(moves, line, last) {
  const found = MOVE_LINE.exec(line);
  if (!found) throw new MoveFault('it is no line of a script: TIME press ID, TIME release ID, TIME set ID V or TIME set ID CONTROL VALUE');
  const [, time, unit, action, part, rest] = found, cycle = Number(time) * (unit === 'us' ? MICROSECOND : 1), words = rest.split(' ').filter(Boolean), { kinds } = moves;
  if (cycle < last) throw new MoveFault('its time is below that of an earlier line');
  if (cycle > LAST_CYCLE) throw new MoveFault('its time is above 10,000,000us');
  if (isOurs(line)) {
    if (action === 'set') moves.move(cycle, part, ...words); else moves.bounce(cycle, action, part);
    return cycle;
  }
  const value = words[0] ?? { press: '1', release: '0', set: '' }[action];
  if (words.length !== +(action === 'set') || !/^[0-9]{1,5}$/.test(value)) throw new MoveFault('it has other words than TIME press ID, TIME release ID, TIME set ID V or TIME set ID CONTROL VALUE');
  const kind = kinds.get(part) ?? '';
  if (!Object.hasOwn(RANGES, kind) || (action !== 'set' && kind !== 'wokwi-pushbutton')) throw new MoveFault(kinds.has(part) ? `${part} is no part that it can ${action}` : `there is no part ${part}`);
  if (Number(value) > RANGES[kind]) throw new MoveFault(`${part} takes 0 to ${RANGES[kind]}, and not ${value}`);
  moves.put(cycle, line.slice(line.indexOf(' ')).replace(/^ +/, ''));
  return cycle;
}

// {rules, faults}: the controls of a chip by its JSON file, and why others cannot be moved: whole numbers, as attributes are.
function chipRules({ controls }) {
  const rules = {}, faults = [], isNumber = it => typeof it === 'number' && Number.isInteger(it) && Math.abs(it) < 2 ** 31;
  let before = 0;
  for (const it of Array.isArray(controls) ? controls : []) {
    const name = it && typeof it === 'object' && !Array.isArray(it) ? it.id : undefined, [min, max, step] = name ? [it.min, it.max, it.step === undefined ? 1 : it.step] : [];
    if (typeof name !== 'string' || !/^[A-Za-z_][A-Za-z0-9_]{0,31}$/.test(name) || Object.hasOwn(rules, name)) faults.push(`control ${name ?? 'None'}: a control has an \`id\` of letters, digits and _ of its own`);
    else if (![min, max, step].every(isNumber) || step < 1 || min > max) faults.push(`control ${name}: \`min\`, \`max\` and \`step\` are whole numbers here`);
    else if (Object.keys(rules).length === 8 || Math.floor((max - min) / step) >= 20000) faults.push(`control ${name}: a chip has 8 controls of 20,000 places at most`);
    else { rules[name] = { min, max, step, default: '', unit: '', 'places before': before }; before += Math.floor((max - min) / step) + 1; }
  }
  return { rules, faults };
}

// {part: [[control, unit, [[cycle, value], ..]], ..]}: each control first with the value that the diagram gives it.
function controlsOf(diagram, types, seen) {
  const moves = new Moves(diagram, types), found = {};
  for (const [part, { attrs }] of Object.entries(moves.controls)) found[part] = Object.entries(moves.ruleOf(part)).map(([name, rule]) => [name, rule.unit ?? '', [[0, startedAt(attrs[name], rule)]]]);
  for (const { cycle, part, control, value } of seen) for (const [name, , values] of found[part] || []) if (name === control) values.push([cycle, value]);
  return found;
}

// The text of a control's value before it is moved.
function startedAt(given, rule) {
  if (!given) return rule.default ?? '';
  try { return numberText(numberOf(String(given))); } catch (fault) { if (fault instanceof ValueFault) return String(given); throw fault; }
}
