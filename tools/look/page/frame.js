'use strict';
// A frame around the board: the wheel and two fingers zoom, a drag moves, a double click or 0 shows all again; by the keyboard
// + - 0 and the arrows while it has the focus.

function makeBoardFrame() {
  const element = make('div', { className: 'board-frame', tabIndex: 0, role: 'group', 'aria-label': 'the board; plus and minus zoom, arrows move, 0 shows all' });
  const frame = { element, svg: null, whole: [0, 0, 100, 100], view: [0, 0, 100, 100], fingers: new Map(), last: null };
  frame.show = board => {
    element.replaceChildren(board.element);
    frame.svg = board.element; frame.whole = board.box;
    setView(frame, board.box);
  };
  frame.zoom = (factor, x, y) => zoomBoard(frame, factor, x, y);
  element.addEventListener('wheel', event => { event.preventDefault(); const [x, y] = boardPlace(frame, event); frame.zoom(2 ** (clamp(event.deltaY, -150, 150) / 300), x, y); }, { passive: false });
  element.addEventListener('dblclick', () => setView(frame, frame.whole));
  element.addEventListener('pointerdown', event => { frame.fingers.set(event.pointerId, [event.clientX, event.clientY]); frame.last = null; });
  element.addEventListener('pointermove', event => { if (frame.fingers.has(event.pointerId)) { frame.fingers.set(event.pointerId, [event.clientX, event.clientY]); moveBoard(frame); } });
  for (const end of ['pointerup', 'pointercancel', 'pointerleave']) element.addEventListener(end, event => { frame.fingers.delete(event.pointerId); frame.last = null; });
  element.addEventListener('keydown', event => { if (element.matches(':focus-visible') && boardKey(frame, event.key)) { event.preventDefault(); event.stopPropagation(); } });
  return frame;
}

function setView(frame, view) { frame.view = view; frame.svg.setAttribute('viewBox', view.join(' ')); }
function boardPlace(frame, { clientX, clientY }) {
  const m = frame.svg.getScreenCTM();
  return [(clientX - m.e) / m.a, (clientY - m.f) / m.d];
}
function zoomBoard(frame, factor, x, y) {
  const [left, top, width, height] = frame.view, k = clamp(width * factor, 50, 1.6 * frame.whole[2]) / width;
  setView(frame, [x + (left - x) * k, y + (top - y) * k, width * k, height * k]);
}
function moveBoard(frame) {
  const spots = [...frame.fingers.values()], cx = spots.reduce((sum, p) => sum + p[0], 0) / spots.length, cy = spots.reduce((sum, p) => sum + p[1], 0) / spots.length;
  const spread = spots.length > 1 ? Math.hypot(spots[0][0] - spots[1][0], spots[0][1] - spots[1][1]) : 0, last = frame.last;
  frame.last = { cx, cy, spread, count: spots.length };
  if (!last || last.count !== spots.length) return;
  const scale = 1 / frame.svg.getScreenCTM().a, [left, top, width, height] = frame.view;
  setView(frame, [left - (cx - last.cx) * scale, top - (cy - last.cy) * scale, width, height]);
  if (spread > 10 && last.spread > 10) zoomBoard(frame, last.spread / spread, ...boardPlace(frame, { clientX: cx, clientY: cy }));
}
function boardKey(frame, key) {
  const [left, top, width, height] = frame.view, step = width / 10, center = [left + width / 2, top + height / 2];
  const moves = { ArrowLeft: [-step, 0], ArrowRight: [step, 0], ArrowUp: [0, -step], ArrowDown: [0, step] };
  if (key === '+' || key === '=') zoomBoard(frame, .7, ...center);
  else if (key === '-') zoomBoard(frame, 1 / .7, ...center);
  else if (key === '0') setView(frame, frame.whole);
  else if (moves[key]) setView(frame, [left + moves[key][0], top + moves[key][1], width, height]);
  else return false;
  return true;
}
