'use strict';
// Breadboards as the editor's diagram has them: in a run they are wires, and a page draws them below all else.
// The holes are 9.6 apart, three steps lie between the two halves, and both ends of a column are marked. Rails are laid out here.

const HOLE_STEP = 9.6, BOARD_EDGE = 14.4, RAILS = words('tp tn bp bn');

// `columns` of five and five holes, and rails of `rail` holes in fives, none if it is 0.
function breadboardOf({ id, columns, rail }, wires) {
  const first = rail ? 45.6 : 16.8, down = Object.fromEntries([...'abcdefghij'].map((letter, i) => [letter, first + HOLE_STEP * (i < 5 ? i : i + 2)]));
  const railDown = { tp: 12, tn: 21.6, bp: down.j + 24, bn: down.j + 33.6 }, width = 2 * BOARD_EDGE + HOLE_STEP * (columns - 1), height = down.j + (rail ? 45.6 : 16.8);
  const fives = n => n - 1 + Math.floor((n - 1) / 5), across = column => BOARD_EDGE + HOLE_STEP * (column - 1);
  const along = n => BOARD_EDGE + HOLE_STEP * ((columns - 1 - fives(rail)) / 2 + fives(n));
  const spot = hole => {
    const [, column, letter] = /^(\d+)[tb]\.([a-j])$/.exec(hole) || [], [, side, n] = /^([tb][pn])\.(\d+)$/.exec(hole) || [];
    return letter ? [across(Number(column)), down[letter]] : side ? [along(Number(n)), railDown[side]] : null;
  };
  const used = [...new Set(wires.flatMap(wire => wire.slice(0, 2)).filter(end => end.startsWith(id + ':')).map(end => end.slice(id.length + 1)))];
  return {
    size: [width, height],
    pins: Object.fromEntries(used.map(hole => [hole, spot(hole)]).filter(([, at]) => at)),
    draw(g) {
      const holes = upTo(columns).flatMap(k => Object.values(down).map(y => [across(k + 1), y])).concat(rail ? upTo(rail).flatMap(k => RAILS.map(side => [along(k + 1), railDown[side]])) : []);
      g.append(rect(0, 0, width, height, { rx: 4, class: 'breadboard' }), rect(2, down.e + HOLE_STEP, width - 4, HOLE_STEP, { class: 'gap' }));
      for (const side of rail ? RAILS : []) g.append(path(`M${along(1) - 4} ${railDown[side] + (side[1] === 'p' ? -5.5 : 5.5)}H${along(rail) + 4}`, { class: side[1] === 'p' ? 'rail plus' : 'rail minus' }));
      g.append(path(holes.map(([x, y]) => `M${(x - 1.6).toFixed(1)} ${(y - 1.6).toFixed(1)}h3.2v3.2h-3.2z`).join(''), { class: 'holes' }));
      for (const column of upTo(columns).map(k => k + 1).filter(n => n === 1 || n % 5 === 0)) g.append(label(across(column), down.a - 5, column, { class: 'silk', ...middle }), label(across(column), down.j + 9, column, { class: 'silk', ...middle }));
      for (const [letter, y] of Object.entries(down)) g.append(label(across(1) - 7, y + 2, letter, { class: 'silk', ...middle }), label(across(columns) + 7, y + 2, letter, { class: 'silk', ...middle }));
    },
  };
}

// A part that is plugged into a hole lies with its pin on it. Where the pins that a diagram plugs in are all equally far from their holes,
// the board is drawn that far from its place, so that they meet.
const PLUG = '$bb', NEARLY = 3, FARTHEST = 40;
const isPlug = wire => Array.isArray(wire[3]) && wire[3].includes(PLUG);
function meeting(board, entry, wires, spots) {
  const place = placeOf(board, entry.size), away = [];
  for (const wire of wires.filter(isPlug)) {
    for (const [hole, pin] of [[wire[0], wire[1]], [wire[1], wire[0]]]) {
      const at = hole.startsWith(board.id + ':') && entry.pins[hole.slice(board.id.length + 1)], to = spots.get(pin);
      if (at && to) { const [x, y] = place(at); away.push([to[0] - x, to[1] - y]); }
    }
  }
  const [dx, dy] = [0, 1].map(k => away.map(by => by[k]).sort((a, b) => a - b)[away.length >> 1] || 0);
  const isOne = Math.hypot(dx, dy) <= FARTHEST && away.every(by => Math.hypot(by[0] - dx, by[1] - dy) <= NEARLY);
  return isOne ? { ...board, left: board.left + dx, top: board.top + dy } : board;
}
