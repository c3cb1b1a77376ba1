'use strict';
// The geometry of a diagram: where pins are, and which way a wire goes.

// From a part's own coordinates to the board's: it is turned about its middle by `rotate` degrees, clockwise.
function placeOf(part, [width, height]) {
  const angle = part.rotate * Math.PI / 180, round = x => Math.round(x * 1e6) / 1e6;
  const cos = round(Math.cos(angle)), sin = round(Math.sin(angle)), cx = width / 2, cy = height / 2;
  return ([x, y]) => [part.left + cx + (x - cx) * cos - (y - cy) * sin, part.top + cy + (x - cx) * sin + (y - cy) * cos];
}

// A wire's points. `hints` are the diagram's: `v10` and `h-5` lead on from the first pin; those after `*` belong to the second
// pin, the last of them nearest to it. What is left is bridged with one corner. A hint of length 0 says in which direction the
// next leg goes; after any other hint the wire turns.
function routeOf(from, to, hints) {
  const star = hints.indexOf('*'), heads = star < 0 ? hints : hints.slice(0, star), tails = star < 0 ? [] : hints.slice(star + 1).reverse();
  const back = walked(to, tails), there = walked(from, heads);
  const [x, y] = there.points[there.points.length - 1], [u, v] = back.points[back.points.length - 1];
  const corner = there.next === 'v' ? [x, v] : [u, y];
  return merged([...there.points, corner, ...back.points.reverse()]);
}

function walked(start, hints) {
  const points = [start];
  let next = 'h';
  for (const hint of hints) {
    const way = hint[0], length = parseFloat(hint.slice(1)) || 0, [x, y] = points[points.length - 1];
    if (way !== 'h' && way !== 'v') continue;
    next = length ? (way === 'v' ? 'h' : 'v') : way;
    points.push(way === 'h' ? [x + length, y] : [x, y + length]);
  }
  return { points, next };
}

// ---- A wire without hints, as tools make them: out of both parts, and around those in its way.

// The box [left, top, right, bottom] around points.
const boxOfPoints = points => [0, 1].map(k => Math.min(...points.map(point => point[k]))).concat([0, 1].map(k => Math.max(...points.map(point => point[k]))));

// From a pin over the nearest edge of its part's box, and `gap` farther.
function wayOut([x, y], [left, top, right, bottom], gap) {
  const ways = [[y - top, [x, Math.min(y, top) - gap]], [bottom - y, [x, Math.max(y, bottom) + gap]], [x - left, [Math.min(x, left) - gap, y]], [right - x, [Math.max(x, right) + gap, y]]];
  return ways.reduce((best, way) => way[0] < best[0] ? way : best)[1];
}

// Whether the stretch between two points, across or down, goes through a box.
function goesThrough([x, y], [u, v], [left, top, right, bottom]) {
  return Math.max(x, u) > left + 1 && Math.min(x, u) < right - 1 && Math.max(y, v) > top + 1 && Math.min(y, v) < bottom - 1;
}

// `from` and `to` are {at, box}. Of the ways with up to three corners between the ends of both ways out, the one that goes through the
// fewest of `boxes`, and then the shortest. A way out is shorter where it would end in a box.
function freeRoute(from, to, boxes, gap) {
  const out = ({ at, box }) => [gap, gap / 2, 2].map(n => wayOut(at, box, n)).find(end => !boxes.some(other => goesThrough(end, end, other))) || wayOut(at, box, gap);
  const p = out(from), q = out(to), edges = [from.box, to.box];
  const across = [p[0], q[0], ...edges.flatMap(box => [box[0] - gap, box[2] + gap])], down = [p[1], q[1], ...edges.flatMap(box => [box[1] - gap, box[3] + gap])];
  const ways = [...across.map(x => [p, [x, p[1]], [x, q[1]], q]), ...down.map(y => [p, [p[0], y], [q[0], y], q]),
    ...across.flatMap(x => down.flatMap(y => [[p, [p[0], y], [x, y], [x, q[1]], q], [p, [x, p[1]], [x, y], [q[0], y], q]]))];
  const cost = way => {
    const legs = way.slice(1).map((point, i) => [way[i], point]);
    const through = legs.reduce((sum, [a, b]) => sum + boxes.filter(box => goesThrough(a, b, box)).length, 0);
    return 10000 * through + legs.reduce((sum, [a, b]) => sum + Math.abs(a[0] - b[0]) + Math.abs(a[1] - b[1]), 0);
  };
  const best = ways.map(way => [cost(way), way]).reduce((one, other) => other[0] < one[0] ? other : one)[1];
  return merged([from.at, ...best, to.at]);
}

// Without points that lie on one another, or on the straight between their neighbours.
function merged(points) {
  const near = (a, b) => Math.abs(a[0] - b[0]) + Math.abs(a[1] - b[1]) < .01, out = [];
  for (const point of points) {
    if (out.length && near(out[out.length - 1], point)) continue;
    const [a, b] = out.slice(-2);
    if (b && ((a[0] === b[0] && b[0] === point[0] && (b[1] - a[1]) * (point[1] - b[1]) > 0) || (a[1] === b[1] && b[1] === point[1] && (b[0] - a[0]) * (point[0] - b[0]) > 0))) out.pop();
    out.push(point);
  }
  return out;
}

// An SVG path through points, its corners rounded.
function roundedPath(points, radius = 4) {
  const text = ([x, y]) => `${Math.round(x * 100) / 100} ${Math.round(y * 100) / 100}`;
  const toward = (from, to) => {
    const length = Math.hypot(to[0] - from[0], to[1] - from[1]), share = Math.min(radius, length / 2) / (length || 1);
    return [from[0] + (to[0] - from[0]) * share, from[1] + (to[1] - from[1]) * share];
  };
  let d = 'M' + text(points[0]);
  for (let i = 1; i < points.length; i++) {
    const [before, here, after] = [points[i - 1], points[i], points[i + 1]];
    d += after ? `L${text(toward(here, before))}Q${text(here)} ${text(toward(here, after))}` : 'L' + text(here);
  }
  return d;
}
