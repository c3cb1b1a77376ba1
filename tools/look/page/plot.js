'use strict';
// Drawing on a canvas: one wave, or one row of frames, into a box {x, width, top, height} for the cycles from..to.
// `ink` has the colours. Where changes are closer than pixels, a column shows the share of high, so a PWM shows as a bar of its duty.

function plotWave(c, wave, box, from, to, ink) {
  const low = box.top + box.height - 4.5, high = box.top + 4.5, y = [low, high, (low + high) / 2, (low + high) / 2], span = to - from;
  const xOf = t => box.x + (t - from) / span * box.width, first = Math.max(findEdge(wave, from), 0), last = findEdge(wave, to);
  const pens = { edges: new Path2D(), open: new Path2D() };
  const flat = (v, a, b) => plotFlat(c, pens, v, a, b, y, ink);
  if (last - first < box.width / 2) {
    let x = box.x;
    for (let i = first; i <= last; i++) {
      const next = i < last ? xOf(wave.t[i + 1]) : box.x + box.width;
      flat(wave.v[i], x, next);
      if (i < last) { pens.edges.moveTo(next, y[wave.v[i]]); pens.edges.lineTo(next, y[wave.v[i + 1]]); }
      x = next;
    }
  } else plotColumns(c, wave, box, from, span, first, last, y, pens, flat, ink);
  c.strokeStyle = ink.wave; c.lineWidth = 1.35; c.stroke(pens.edges);
  c.strokeStyle = ink.open; c.setLineDash([3, 3]); c.stroke(pens.open); c.setLineDash([]);
}

function plotFlat(c, pens, v, a, b, y, ink) {
  if (v === 3) {
    c.fillStyle = ink.fight; c.globalAlpha = .5; c.fillRect(a, y[1], Math.max(b - a, 1), y[0] - y[1]); c.globalAlpha = 1;
    return;
  }
  if (v === 1) { c.fillStyle = ink.fill; c.fillRect(a, y[1], b - a, y[0] - y[1]); }
  const pen = v === 2 ? pens.open : pens.edges;
  pen.moveTo(a, y[v]); pen.lineTo(b, y[v]);
}

function plotColumns(c, wave, box, from, span, first, last, y, pens, flat, ink) {
  const columns = Math.floor(box.width);
  let i = first, x0 = box.x;
  for (let k = 0; k < columns && i < last; k++) {
    const x = box.x + k, until = from + (k + 1) / columns * span, j = Math.min(findEdge(wave, until), last);
    if (j === i) continue;
    if (x > x0) flat(wave.v[i], x0, x);
    if (j - i < 4) {
      pens.edges.moveTo(x + .5, j - i === 1 ? y[wave.v[i]] : y[0]);
      pens.edges.lineTo(x + .5, j - i === 1 ? y[wave.v[j]] : y[1]);
      x0 = x + .5;
    } else {
      const share = highShare(wave, from + k / columns * span, until), tall = y[0] - y[1];
      c.fillStyle = ink.wave; c.globalAlpha = .5; c.fillRect(x, y[1], 1, tall);
      c.globalAlpha = .8; c.fillRect(x, y[0] - share * tall, 1, share * tall); c.globalAlpha = 1;
      x0 = x + 1;
    }
    i = j;
  }
  if (x0 < box.x + box.width) flat(wave.v[i], x0, box.x + box.width);
}

// Frames as boxes with their text where there is room for it; it may go over the box into half the space to the next one, 3 pixels at most.
function plotFrames(c, frames, box, from, to, ink) {
  const span = to - from, xOf = t => box.x + (t - from) / span * box.width, top = box.top + 2.5, tall = box.height - 5;
  c.textAlign = 'center'; c.textBaseline = 'middle'; c.font = ink.small;
  for (let i = firstFrame(frames, from); i < frames.length && frames[i].from <= to; i++) {
    const frame = frames[i], x = Math.max(xOf(frame.from), box.x - 4), end = Math.min(xOf(frame.to), box.x + box.width + 4), wide = Math.max(end - x, 1.5);
    c.fillStyle = frame.kind === 'start' || frame.kind === 'stop' ? ink.mark : wide <= 4 ? ink.dim : frame.kind === 'address' ? ink.address : ink.frame;
    c.fillRect(x, top, wide, tall);
    if (wide > 4) { c.strokeStyle = ink.line; c.lineWidth = 1; c.strokeRect(x + .5, top + .5, wide - 1, tall - 1); }
    const before = i ? x - xOf(frames[i - 1].to) : 6, after = i + 1 < frames.length ? xOf(frames[i + 1].from) - end : 6;
    if (wide > 4 && wide + 2 * clamp(Math.min(before, after) / 2, 0, 3) > c.measureText(frame.text).width + 1) { c.fillStyle = ink.text; c.fillText(frame.text, x + wide / 2, top + tall / 2 + .5); }
    if (wide < 2) {                 // many in one pixel: go on at the next one
      const next = firstFrame(frames, from + (x + 1.5 - box.x) / box.width * span);
      if (next > i + 1) i = next - 1;
    }
  }
}

function firstFrame(frames, t) {    // the first frame that ends at or after t
  let low = 0, high = frames.length;
  while (low < high) { const half = (low + high) >> 1; if (frames[half].to < t) low = half + 1; else high = half; }
  return low;
}

// The distance between marks of the axis in microseconds, at least `pixels` apart.
function tickStep(span, width, pixels) {
  const least = span / 16 * pixels / width;
  for (const step of [.0625, .125, .25, .5]) if (step >= least) return step;
  for (let k = 1; ; k *= 10) for (const m of [1, 2, 5]) if (m * k >= least) return m * k;
}
