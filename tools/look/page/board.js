'use strict';
// The board of a run as an SVG element, which shows the board at a moment.
//
//   const board = drawBoard(run, { pin(name) {}, part(id) {} });
//   board.element   the <svg>, class `board`; board.css has its colours
//   board.box       [x, y, width, height] of all that is drawn
//   board.update({ t, since, moving })   shows cycle t, with lights as their mean from `since` on; leads that changed more than
//                   once since `moving` are shown as moving, so nothing flickers; both are t for the moment alone
//   board.texts({ t, since })    [[id, text], ..]: what the parts are at the moment, in words

const STATE_WORDS = { 0: '0', 1: '1', z: 'z, nothing drives it', x: 'x, two levels at once', m: 'moving' };

// The state of a pin: its level, or m where it changed more than once since `moving`.
function pinState(run, name, { t, moving = t }) {
  const wave = run.wave(name);
  if (!wave) return 'z';
  const i = findEdge(wave, t);
  if (moving < t && i - findEdge(wave, moving) > 1) return 'm';
  return LEVELS[wave.v[Math.max(i, 0)]];
}

function drawBoard(run, on = {}) {
  const layers = { boards: svg('g'), uno: svg('g'), wires: svg('g', { class: 'wires' }), parts: svg('g'), shine: svg('g', { class: 'shine', 'aria-hidden': 'true' }), pins: svg('g'), names: svg('g') };
  const element = svg('svg', { class: 'board', role: 'img', 'aria-label': `the board: ${run.parts.filter(part => !isUnseen(part)).map(part => part.id).join(', ')}` });
  const drawing = { run, on, layers, updates: [], tells: [], leads: [], spots: new Map(), boxes: new Map(), named: [], legs: [], free: 0, levels: new Map(), box: [Infinity, Infinity, -Infinity, -Infinity] };
  for (const [one, other, , , pin] of run.wires) if (typeof pin === 'string') for (const end of [one, other]) drawing.levels.set(end, pin);
  for (const part of apart(run.parts.filter(part => !isWithin(run, part) && !isUnseen(part)), run.wires)) drawPart(drawing, part, entryOf(part, run.wires));
  for (const part of run.parts.filter(part => isWithin(run, part) && part.id !== part.within)) tellPart(drawing, part, entryOf(part, run.wires));
  for (const part of run.scenery) drawScenery(drawing, part);
  for (const wire of run.wires) drawWire(drawing, wire);
  for (const [part, box] of drawing.named) drawName(drawing, part, box);
  element.append(...Object.values(layers));
  const [x0, y0, x1, y1] = drawing.box[0] < Infinity ? drawing.box : [0, 0, 100, 100], edge = 14;
  const box = [x0 - edge, y0 - edge - 4, x1 - x0 + 2 * edge, y1 - y0 + 2 * edge + 4].map(n => Math.round(n * 10) / 10);
  element.setAttribute('viewBox', box.join(' '));
  return {
    element, box,
    update(moment) {
      for (const update of drawing.updates) update(moment);
      for (const lead of drawing.leads) showLead(run, lead, moment);
    },
    texts: moment => drawing.tells.map(([id, tell]) => [id, tell(moment)]).filter(([, text]) => text !== null),
  };
}

// A part that another one, which the editor drew, is made of: it is seen there, and has words of its own.
// A part by which a script moves a control of another one: it is drawn nowhere, and has no words.
const isUnseen = part => part.hidden && Boolean(part.within);
const isWithin = (run, part) => Boolean(part.within) && run.scenery.some(it => it.id === part.within && it.as);
function tellPart(drawing, part, entry) { if (entry.tell) drawing.tells.push([part.id, moment => entry.tell(part, drawing.run, moment)]); }

// Parts that lie on one place, as those do that a tool made of one part, are drawn side by side, and above where another part lies,
// with room for their pins and names.
function apart(parts, wires) {
  const groups = new Map(), key = part => `${part.left} ${part.top}`;
  for (const part of parts) groups.set(key(part), [...(groups.get(key(part)) || []), part]);
  const taken = [...groups.values()].map(([first]) => boxOfPart(first, wires)), isFree = box => !taken.some(other => meet(box, other));
  return parts.map(part => {
    const group = groups.get(key(part));
    if (group[0] === part) return part;
    const named = group.map(one => boxWithName(one, wires)), most = (low, high) => Math.max(...named.map(box => box[high] - box[low]));
    const wide = most(0, 2) + 4, tall = most(1, 3) + 6;
    const spots = upTo(4).flatMap(row => upTo(group.length).map(column => ({ ...part, left: part.left + column * wide, top: part.top - row * tall })));
    const found = spots.slice(1).find(spot => isFree(boxOfPart(spot, wires))) || spots[group.indexOf(part)];
    taken.push(boxOfPart(found, wires));
    return found;
  });
}

const cornersOf = ([width, height]) => [[0, 0], [width, 0], [0, height], [width, height]];
const meet = (box, other) => box[0] < other[2] && other[0] < box[2] && box[1] < other[3] && other[1] < box[3];

// The box of a part and its pins.
function boxOfPart(part, wires) {
  const entry = entryOf(part, wires), place = placeOf(part, entry.size);
  return boxOfPoints([...cornersOf(entry.size), ...Object.values(pinsOf(entry, part))].map(place));
}

function boxWithName(part, wires) {
  const [left, top, right, bottom] = boxOfPart(part, wires);
  if (entryOf(part, wires).named === false) return [left, top, right, bottom];
  const name = nameBox((left + right) / 2 - widthOfName(part) / 2, top - 4, part);
  return boxOfPoints([[left, top], [right, bottom], name.slice(0, 2), name.slice(2)]);
}

// The place of a part's id whose letters begin at `from` and stand on `foot`.
const widthOfName = part => 5.4 * part.id.length;
const nameBox = (from, foot, part) => [from, foot - 7, from + widthOfName(part), foot + 1];

function widen(drawing, [x, y]) {
  const box = drawing.box;
  box[0] = Math.min(box[0], x); box[1] = Math.min(box[1], y); box[2] = Math.max(box[2], x); box[3] = Math.max(box[3], y);
}

// A breadboard, a part that the board has as others or that a page alone plays, or a part that the run is without, which shows nothing.
function drawScenery(drawing, part) {
  const { run } = drawing, entry = part.columns ? breadboardOf(part, run.wires) : entryOf(part, run.wires);
  if (part.as) { drawPart(drawing, part, entry, 'shown'); return; }
  drawPart(drawing, part.columns ? meeting(part, entry, run.wires, drawing.spots) : part, { ...entry, tell: undefined }, part.columns ? 'board' : 'left');
}

// `scenery` is 'board' for a breadboard, 'left' for a part that was left out.
function drawPart(drawing, part, entry, scenery = '') {
  const { run, on, layers } = drawing, [width, height] = entry.size, place = placeOf(part, entry.size);
  const g = svg('g', { class: scenery === 'left' ? 'part left-out' : 'part', transform: `translate(${part.left} ${part.top}) rotate(${part.rotate} ${width / 2} ${height / 2})` });
  const update = entry.draw(g, part, run), corners = cornersOf(entry.size).map(place);
  if (update) drawing.updates.push(update);
  tellPart(drawing, part, entry);
  g.append(svg('title', {}, `${part.id}: ${part.as || part.type}${entry.note ? ', ' + entry.note(part) : ''}${scenery === 'left' ? ', which was left out' : ''}`));
  if (!scenery) g.addEventListener('click', () => on.part && on.part(part.id));
  const isUno = part.type === 'wokwi-arduino-uno';
  if (!part.hidden) (scenery === 'board' ? layers.boards : isUno ? layers.uno : layers.parts).append(g);
  corners.forEach(corner => widen(drawing, corner));
  if (entry.beyond) entry.beyond(part, run).forEach(point => widen(drawing, place(point)));
  if (part.type === 'wokwi-text') widen(drawing, place([Math.max(...String(part.attrs.text || '').split('\n').map(line => line.length)) * 7.4, 16.5 * String(part.attrs.text || '').split('\n').length]));
  if (entry.named !== false) drawing.named.push([part, boxOfPoints(corners)]);
  if (!part.hidden && scenery !== 'board') drawing.boxes.set(part.id, boxOfPoints(corners));
  for (const [name, spot] of Object.entries(pinsOf(entry, part))) drawPin(drawing, part, name, place(spot));
}

// A part's id is above it, or below or at a side where fewer wires and parts are in its way. Its label is below.
function drawName(drawing, part, [left, top, right, bottom]) {
  const x = (left + right) / 2, y = (top + bottom) / 2 + 3, wide = widthOfName(part), given = part.attrs.label;
  const spots = [[x, top - 4, x - wide / 2, 'name'], [right + 5, y, right + 5, 'name start'], [left - 5, y, left - 5 - wide, 'name end']];
  if (!given) spots.splice(1, 0, [x, bottom + 11, x - wide / 2, 'name']);
  const boxes = [...drawing.boxes.values()], places = spots.map(([, foot, from]) => nameBox(from, foot, part));
  const inWay = box => boxes.filter(other => meet(box, other)).length + drawing.legs.filter(([a, b]) => goesThrough(a, b, box)).length;
  const costs = places.map(inWay), best = costs.indexOf(Math.min(...costs)), spot = spots[best], box = places[best];
  drawing.layers.names.append(label(spot[0], spot[1], part.id, { class: spot[3] }));
  if (best) { widen(drawing, box.slice(0, 2)); widen(drawing, box.slice(2)); }
  drawing.boxes.set(`name of ${part.id}`, box);
  if (given) drawing.layers.names.append(label(x, bottom + 11, given, { class: 'name given' }));
}

function drawPin(drawing, part, name, [cx, cy]) {
  const end = `${part.id}:${name}`, pin = part.isScenery ? drawing.levels.get(end) || '' : pinOf(part, name), dot = circle(cx, cy, 2.5), tip = svg('title');
  drawing.spots.set(end, [cx, cy]);
  dot.append(tip);
  dot.addEventListener('click', () => pin && drawing.on.pin && drawing.on.pin(pin));
  drawing.layers.pins.append(dot);
  drawing.leads.push({ element: dot, pin, tip, kind: 'pin', ends: part.isScenery ? end : '' });
}

// Pins that are nearer than this are joined by one corner where a wire has no hints.
const NEAR = 30;

// Wires lie over the Uno and under all other parts, so that these can be read, and shine through them.
function drawWire(drawing, wire) {
  const [first, second, color, hints, level] = wire;
  const from = drawing.spots.get(first), to = drawing.spots.get(second);
  if (!from || !to) return;         // a wire to the serial monitor
  if (isPlug(wire)) { drawing.layers.boards.append(path(`M${from}L${to}`, { class: 'lead' })); return; }
  const steps = Array.isArray(hints) ? hints.filter(hint => typeof hint === 'string') : [], ends = [first, second].map(end => ({ at: drawing.spots.get(end), box: drawing.boxes.get(end.split(':')[0]) }));
  const isFree = !steps.length && ends.every(end => end.box) && Math.hypot(from[0] - to[0], from[1] - to[1]) > NEAR;
  const points = isFree ? freeRoute(...ends, [...drawing.boxes.values()], 7 + 2.5 * (drawing.free++ % 9)) : routeOf(from, to, steps), d = roundedPath(points);
  const [pin] = typeof level === 'string' ? [level] : [first, second].map(end => end.replace(':', '.')).filter(name => drawing.run.waveOf.has(name)).concat(first.replace(':', '.'));
  const paint = colorOf(color, COLORS.gray), deep = rgb(paint).every(n => n < 90) ? ' deep' : '', g = svg('g'), tip = svg('title');
  g.append(path(d, { class: 'halo' }), path(d, { class: 'casing' }), path(d, { class: 'core', stroke: paint }), tip);
  g.addEventListener('click', () => pin && drawing.on.pin && drawing.on.pin(pin));
  drawing.layers.wires.append(g);
  drawing.layers.shine.append(path(d, { class: 'core', stroke: paint }));
  points.forEach((point, i) => { widen(drawing, point); if (i) drawing.legs.push([points[i - 1], point]); });
  drawing.leads.push({ element: g, pin, tip, kind: 'wire' + deep, ends: `${first} – ${second}` });
}

function showLead(run, lead, moment) {
  const state = pinState(run, lead.pin, moment);
  if (state === lead.shown) return;
  lead.shown = state;
  lead.element.setAttribute('class', `${lead.kind} v${state}`);
  lead.tip.textContent = `${lead.ends || lead.pin}: ${STATE_WORDS[state]}`;
}
