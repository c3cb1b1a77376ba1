'use strict';
// The wave pane: an axis, rows with their names, and two cursors. It draws what is in view alone, however many rows there are.
//
//   const pane = makeWavePane(on);     on.cursor(t), on.second(t), on.range(from, to), on.pick(key), on.fold(part)
//   pane.element                       a <div> to be put into a page
//   pane.show(run, view)               view: {t, b, from, to, picked, rows}; rows as `rowsOf` makes them
//   pane.draw(), pane.drawCursors()    after the view changed; the second is cheap

const ROW_HEIGHT = { group: 20, frames: 20, wave: 23 };
const AXIS_HEIGHT = 22, RIGHT_EDGE = 10;

function makeWavePane(on) {
  const axis = make('canvas', { className: 'axis' }), rows = make('canvas', { className: 'rows', tabIndex: 0, role: 'img', 'aria-label': 'waves' }), over = make('canvas', { className: 'over' });
  const stage = make('div', { className: 'stage' }, rows, over), spacer = make('div', { className: 'spacer' }), scroll = make('div', { className: 'scroll' }, stage, spacer);
  const pane = { element: make('div', { className: 'waves' }, axis, scroll), axis, rows, over, stage, spacer, scroll, on, run: null, view: null, ink: null };
  pane.show = (run, view) => { pane.run = run; pane.view = view; pane.draw(); };
  pane.draw = () => { if (pane.run) drawPane(pane); };
  pane.drawCursors = () => { if (pane.run) drawCursors(pane); };
  pane.xOf = t => leftOf(pane) + (t - pane.view.from) / (pane.view.to - pane.view.from) * plotWidth(pane);
  pane.tOf = x => pane.view.from + (x - leftOf(pane)) / plotWidth(pane) * (pane.view.to - pane.view.from);
  pane.reveal = key => revealRow(pane, key);
  scroll.addEventListener('scroll', () => pane.draw());
  handlePointers(pane);
  if (typeof ResizeObserver === 'function') new ResizeObserver(() => pane.draw()).observe(scroll);
  return pane;
}

const leftOf = pane => pane.scroll.clientWidth < 560 ? 104 : 186;
const plotWidth = pane => Math.max(pane.scroll.clientWidth - leftOf(pane) - RIGHT_EDGE, 20);
const totalHeight = rows => rows.reduce((sum, row) => sum + ROW_HEIGHT[row.kind], 0) + 18;

function inkOf(element) {
  const style = getComputedStyle(element), ink = {};
  for (const name of words('text dim line panel wave fill open fight cursor second pick mark frame address warn')) ink[name] = style.getPropertyValue('--' + name).trim();
  const family = 'system-ui, "Segoe UI", "DejaVu Sans", sans-serif';
  return { ...ink, plain: `12.5px ${family}`, bold: `600 12px ${family}`, small: `11px ${family}` };
}

function fitted(canvas, width, height) {
  const k = window.devicePixelRatio || 1, w = Math.round(width * k), h = Math.round(height * k);
  if (canvas.width !== w || canvas.height !== h) {
    canvas.width = w; canvas.height = h;
    canvas.style.width = width + 'px'; canvas.style.height = height + 'px';
  }
  const c = canvas.getContext('2d');
  c.setTransform(k, 0, 0, k, 0, 0); c.clearRect(0, 0, width, height);
  return c;
}

// Calls visit(row, top) for the rows in view, `top` on the canvas.
function eachRowInView(pane, visit) {
  let top = -pane.scroll.scrollTop;
  for (const row of pane.view.rows) {
    const height = ROW_HEIGHT[row.kind];
    if (top + height > 0 && top < pane.scroll.clientHeight) visit(row, top, height);
    top += height;
  }
}

function drawPane(pane) {
  const { run, view } = pane, width = pane.scroll.clientWidth, height = pane.scroll.clientHeight, left = leftOf(pane);
  if (!width || !height) return;
  pane.ink = inkOf(pane.element);
  pane.spacer.style.height = `${Math.max(totalHeight(view.rows) - height, 0)}px`;
  pane.stage.style.height = `${height}px`;
  drawAxis(pane, width);
  const c = fitted(pane.rows, width, height), ink = pane.ink, step = tickStep(view.to - view.from, plotWidth(pane), 95);
  c.fillStyle = ink.line;
  for (let us = Math.ceil(view.from / 16 / step) * step; us * 16 <= view.to; us += step) c.fillRect(Math.round(pane.xOf(us * 16)), 0, 1, height);
  eachRowInView(pane, (row, top, tall) => {
    const box = { x: left, width: plotWidth(pane), top, height: tall };
    if (row.key === view.picked) { c.fillStyle = ink.pick; c.fillRect(0, top, left - 8, tall); }
    if (row.kind === 'group') { c.fillStyle = ink.pick; c.globalAlpha = .55; c.fillRect(0, top + 1, width, tall - 2); c.globalAlpha = 1; }
    if (row.kind === 'frames' && hasFrames(run, row.decoder)) plotFrames(c, framesOf(run, row.decoder), box, view.from, view.to, ink);
    else if (row.kind === 'frames') setTimeout(() => { framesOf(run, row.decoder); if (pane.run === run) pane.draw(); }, 50);    // many: the page is shown first
    if (row.kind === 'wave') plotWave(c, run.wave(row.name), box, view.from, view.to, ink);
  });
  if (!view.rows.length) { c.fillStyle = ink.dim; c.font = ink.plain; c.fillText('No pin is shown: none moved, or none is chosen. “Rows” lists all; a click on a pin of the board adds its row.', left + 12, 26); }
  pane.rows.setAttribute('aria-label', `waves of ${view.rows.filter(row => row.kind === 'wave').map(row => row.name).join(', ') || 'no pin'}`);
  drawCursors(pane);
}

function drawAxis(pane, width) {
  const { run, view, ink } = pane, c = fitted(pane.axis, width, AXIS_HEIGHT), step = tickStep(view.to - view.from, plotWidth(pane), 95);
  c.font = ink.small; c.fillStyle = ink.dim; c.textAlign = 'center';
  for (let us = Math.ceil(view.from / 16 / step) * step; us * 16 <= view.to; us += step) {
    const x = pane.xOf(us * 16), half = c.measureText(grouped(us)).width / 2;
    c.fillText(grouped(us), clamp(x, leftOf(pane) + half - 6, width - half - 4), 14);
    c.fillRect(Math.round(x), 18, 1, 4);
  }
  c.textAlign = 'right'; c.fillText('µs', leftOf(pane) - 14, 14);
  c.fillStyle = ink.warn;           // where the run left something out
  for (const note of run.notes) {
    if (note.t === null || note.t < view.from || note.t > view.to) continue;
    const x = pane.xOf(note.t);
    c.beginPath(); c.moveTo(x - 5, 0); c.lineTo(x + 5, 0); c.lineTo(x, 8); c.fill();
  }
}

function drawCursors(pane) {        // names, levels and cursors, on a canvas of their own
  const { view, ink } = pane, width = pane.scroll.clientWidth, height = pane.scroll.clientHeight, left = leftOf(pane);
  if (!width || !height || !ink) return;
  const c = fitted(pane.over, width, height);
  c.textBaseline = 'middle';
  eachRowInView(pane, (row, top, tall) => drawRowName(pane, c, row, top + tall / 2, left));
  for (const note of pane.run.notes) if (note.t !== null) drawLine(pane, c, note.t, ink.warn, '', height);
  drawLine(pane, c, view.b, ink.second, 'B', height);
  drawLine(pane, c, view.t, ink.cursor, 'A', height);
}

function drawLine(pane, c, t, color, name, height) {
  const { view, ink } = pane;
  if (t === null || t < view.from || t > view.to) return;
  const x = Math.round(pane.xOf(t)) + .5, onLeft = name === 'B' || x > pane.scroll.clientWidth - 30;
  c.strokeStyle = color; c.lineWidth = name ? 1.4 : 1; c.setLineDash(name ? [] : [2, 3]);
  c.beginPath(); c.moveTo(x, 0); c.lineTo(x, height); c.stroke(); c.setLineDash([]);
  c.fillStyle = color; c.font = ink.bold; c.textAlign = onLeft ? 'right' : 'left';
  c.fillText(name, x + (onLeft ? -4 : 4), height - 8);
}

function drawRowName(pane, c, row, y, left) {
  const { run, view, ink } = pane;
  c.textAlign = 'left';
  if (row.kind === 'group') {
    c.font = ink.bold; c.fillStyle = ink.text;
    c.fillText(`${row.folded ? '▸' : '▾'} ${row.title}`, 6, y);
    if (row.folded) { const at = 10 + c.measureText(`▸ ${row.title}`).width; c.font = ink.small; c.fillStyle = ink.dim; c.fillText(`${row.count} ${row.count === 1 ? 'row' : 'rows'}`, at, y); }
    return;
  }
  if (row.kind === 'frames') {
    c.font = ink.small; c.fillStyle = ink.dim;
    c.fillText(shortened(c, decoderTitle(run, row.decoder), left - 34), 18, y);
    return;
  }
  const state = pinState(run, row.name, { t: view.t, moving: view.moving ?? view.t });
  c.font = ink.plain; c.textAlign = 'right'; c.fillStyle = state === 'x' ? ink.fight : ink.text;
  c.fillText(state === 'm' ? '~' : state, left - 14, y);
  c.textAlign = 'left'; c.fillStyle = ink.text;
  const own = row.name.slice(row.name.indexOf('.') + 1), at = 18, room = left - 34 - at;
  c.fillText(shortened(c, own, room), at, y);
  const used = c.measureText(own).width;
  if (row.also.length && room - used > 28) { c.fillStyle = ink.dim; c.font = ink.small; c.fillText(shortened(c, ` = ${row.also.join(' ')}`, room - used), at + used, y); }
}

function shortened(c, text, room) {
  if (c.measureText(text).width <= room) return text;
  let low = 0, high = text.length;
  while (low < high) { const half = (low + high + 1) >> 1; if (c.measureText(text.slice(0, half) + '…').width <= room) low = half; else high = half - 1; }
  return text.slice(0, low) + '…';
}

function rowAt(pane, y) {
  let found = null;
  eachRowInView(pane, (row, top, height) => { if (y >= top && y < top + height) found = row; });
  return found;
}

function revealRow(pane, key) {
  let top = 0;
  for (const row of pane.view.rows) {
    const height = ROW_HEIGHT[row.kind];
    if (row.key === key) {
      const { scrollTop, clientHeight } = pane.scroll;
      if (top < scrollTop || top + height > scrollTop + clientHeight) pane.scroll.scrollTop = Math.max(0, top - clientHeight / 2);
      return;
    }
    top += height;
  }
}

// ---- Mouse, pen and fingers: a click sets a cursor, a drag moves the view, two fingers zoom, the wheel zooms.

function handlePointers(pane) {
  const fingers = new Map();
  let held = null;
  const place = event => { const box = pane.rows.getBoundingClientRect(); return [event.clientX - box.left, event.clientY - box.top]; };
  pane.rows.addEventListener('pointerdown', event => {
    fingers.set(event.pointerId, place(event));
    pane.rows.setPointerCapture(event.pointerId);
    const { from, to } = pane.view;
    held = fingers.size === 2 ? pinchOf(pane, fingers) : { x: place(event)[0], y: place(event)[1], from, to, scrollTop: pane.scroll.scrollTop, moved: false };
  });
  pane.rows.addEventListener('pointermove', event => {
    hint(pane, place(event));
    if (!fingers.has(event.pointerId) || !held) return;
    fingers.set(event.pointerId, place(event));
    if (held.pinch) movePinch(pane, fingers, held); else if (fingers.size === 1) moveDrag(pane, place(event), held);
  });
  const release = event => {
    const known = fingers.delete(event.pointerId), was = held;
    if (fingers.size === 0) held = null;
    if (known && was && !was.moved && !was.pinch && event.type === 'pointerup') clicked(pane, place(event), event.shiftKey);
  };
  pane.rows.addEventListener('pointerup', release);
  pane.rows.addEventListener('pointercancel', release);
  pane.scroll.addEventListener('wheel', event => wheeled(pane, event, place(event)[0]), { passive: false });
}

function hint(pane, [x, y]) {
  if (!pane.view) return;
  const row = x < leftOf(pane) ? rowAt(pane, y) : null;
  pane.rows.title = !row ? '' : row.kind === 'wave' ? [row.name, ...row.also].join(' = ') : row.kind === 'frames' ? `${decoderTitle(pane.run, row.decoder)}: ${row.decoder.pins.join(', ')}` : `${row.title}: a click folds it`;
}

function moveDrag(pane, [x, y], held) {
  if (!held.moved && Math.abs(x - held.x) + Math.abs(y - held.y) < 5) return;
  held.moved = true;
  if (held.x < leftOf(pane)) { pane.scroll.scrollTop = held.scrollTop + held.y - y; return; }
  const span = held.to - held.from, by = (held.x - x) / plotWidth(pane) * span;
  pane.scroll.scrollTop = held.scrollTop + held.y - y;
  pane.on.range(held.from + by, held.to + by);
}

function pinchOf(pane, fingers) {
  const [a, b] = [...fingers.values()].map(([x]) => x);
  return { pinch: true, a: pane.tOf(Math.min(a, b)), b: pane.tOf(Math.max(a, b)) };
}
function movePinch(pane, fingers, held) {
  const [a, b] = [...fingers.values()].map(([x]) => x).sort((x, y) => x - y), left = leftOf(pane);
  if (b - a < 12) return;
  const scale = (held.b - held.a) / (b - a), from = held.a - (a - left) * scale;
  pane.on.range(from, from + plotWidth(pane) * scale);
}

function clicked(pane, [x, y], second) {
  const row = rowAt(pane, y);
  if (row && row.kind === 'group' && (x < leftOf(pane))) { pane.on.fold(row.key); return; }
  if (x < leftOf(pane)) { pane.on.pick(row ? row.key : null); return; }
  const t = snapped(pane, row, x);
  if (second) pane.on.second(t); else pane.on.cursor(t);
}

function snapped(pane, row, x) {    // near an edge of its row, a click means the edge
  const t = Math.round(pane.tOf(x));
  if (!row || row.kind !== 'wave') return t;
  const wave = pane.run.wave(row.name), i = findEdge(wave, t), distance = k => Math.abs(pane.xOf(wave.t[k]) - x);
  const near = [i, i + 1].filter(k => k > 0 && k < wave.t.length && distance(k) < 7).sort((a, b) => distance(a) - distance(b));
  return near.length ? wave.t[near[0]] : t;
}

function wheeled(pane, event, x) {
  if (!pane.view || x < leftOf(pane)) return;          // over the names the wheel scrolls
  event.preventDefault();
  const { from, to } = pane.view, span = to - from;
  const sideways = event.shiftKey ? event.deltaX || event.deltaY : Math.abs(event.deltaX) > Math.abs(event.deltaY) ? event.deltaX : 0;
  if (sideways) { const by = sideways / plotWidth(pane) * span; pane.on.range(from + by, to + by); return; }
  const factor = 2 ** (clamp(event.deltaY, -150, 150) / 200), at = pane.tOf(x);
  pane.on.range(at - (at - from) * factor, at + (to - at) * factor);
}
