'use strict';
// A look at a run: board, waves, bytes, parts and report in one element, moved by mouse, fingers, keys and calls.
//
//   const look = makeLook(host, { keys: true, hash: true, on: { cursor(t) {}, play(on) {}, part(id) {}, pin(name) {} } });
//   look.show(run)        any number of times; rows, cursors and zoom stay where the new run has them too
//   look.go(t)            cursor A to cycle t;  look.second(t) cursor B, null takes it away
//   look.range(from, to)  what the waves show;  look.play(true), look.play(false)
//   look.view             {t, b, from, to, playing, speed, eye, chosen, decoders, folded, picked}

const EYE = 320000;                 // 20 ms: about what an eye takes together
const WALL_WINDOW = .3;             // seconds; while it plays, lights show their mean over as much, so nothing flashes faster

function makeLook(host, { keys = true, hash = false, on = {} } = {}) {
  const look = { host, on, run: null, board: null, useHash: hash, view: { t: 0, b: null, from: 0, to: 0, since: 0, moving: 0, playing: false, speed: 1, eye: false, chosen: [], decoders: [], folded: new Set(), picked: null, rows: [] } };
  addActions(look);
  buildLook(look);
  if (keys) addEventListener('keydown', event => { if (look.run && !host.hidden) onKey(look, event); });
  if (hash) addEventListener('hashchange', () => readHash(look));
  const again = () => { if (look.run) look.pane.draw(); };
  matchMedia('(prefers-color-scheme: dark)').addEventListener('change', again);
  addEventListener('beforeprint', () => document.documentElement.classList.toggle('dusk', matchMedia('screen and (prefers-color-scheme: dark)').matches));
  return look;
}

// ---- Elements

function buildLook(look) {
  const parts = look.elements = {
    title: make('h1'), facts: make('span', { className: 'facts' }), key: makeKey(), left: make('div', { className: 'left-out', role: 'status' }), made: make('details', { className: 'made' }),
    now: make('div', { className: 'now', tabIndex: 0, role: 'group', 'aria-label': 'parts at the cursor' }), before: make('span'), after: make('span', { className: 'later' }), sentNote: make('span', { className: 'dim' }), sentAs: make('select', { 'aria-label': 'format of the frames', title: 'the wave fits frames of these formats, which end at different times' }), report: make('pre', { tabIndex: 0 }),
    a: make('output', { className: 'at-a' }), b: make('output', { className: 'at-b' }), gap: make('output'), heard: make('output', { className: 'heard', 'aria-live': 'polite' }),
  };
  parts.sent = make('pre', { className: 'sent', tabIndex: 0, title: 'a click on a character goes to the time when it was sent' }, parts.before, parts.after);
  parts.sent.addEventListener('click', event => clickedByte(look, event));
  parts.sentAs.addEventListener('change', () => look.readAs(parts.sentAs.value));
  look.frame = makeBoardFrame(); look.sound = makeSound(); look.bar = makeBar(look); look.list = makeRowList(look); look.finder = makeFinder(look);
  look.pane = makeWavePane({ cursor: t => look.go(t, false), second: t => look.second(t), range: (from, to) => look.range(from, to), pick: key => look.pick(key), fold: id => look.fold(id) });
  parts.sentBox = section('Sent by the Uno ', make('span', {}, parts.sentNote, ' ', parts.sentAs), parts.sent, 'grows'); parts.nowBox = section('Parts at cursor A', '', parts.now, 'grows'); parts.reportBox = section('Report, at the end of the run', '', parts.report, '');
  parts.save = button('board as SVG', 'saves a picture of the board at cursor A', () => saveBoard(look), { className: 'save' });
  look.frameBox = make('div', { className: 'board-box' }, look.frame.element, parts.save);
  const cursors = make('div', { className: 'cursors' }, parts.a, parts.b, parts.gap, parts.heard, look.finder);
  look.element = make('div', { className: 'look' }, make('header', {}, parts.title, parts.facts, parts.key), parts.left, parts.made,
    make('div', { className: 'scene' }, look.frameBox, make('aside', {}, parts.nowBox, parts.sentBox, parts.reportBox)),
    look.bar.element, cursors, make('div', { className: 'wave-box' }, look.list.element, look.pane.element), makeHelp());
  look.host.replaceChildren(look.element);
}

const section = (title, note, content, className) => make('section', { className }, make('h2', {}, title, note), content);

function makeKey() {
  const item = (state, text) => make('span', {}, svg('svg', { viewBox: '-4 -4 8 8', class: 'board', 'aria-hidden': 'true' }, circle(0, 0, 3, { class: `pin v${state}` })), ' ' + text);
  return make('span', { className: 'key' }, item('0', '0'), item('1', '1'), item('z', 'open'), item('x', 'two levels at once'));
}

// ---- Actions

function addActions(look) {
  const { view } = look;
  look.show = run => showRun(look, run);
  look.go = (t, follow = true) => goTo(look, t, follow);
  look.second = t => { view.b = t === null ? null : clamp(Math.round(t), look.run.from, look.run.to); look.go(view.t, false); };
  look.range = (from, to) => setRange(look, from, to);
  look.zoom = factor => { const at = clamp(view.t, view.from, view.to); look.range(at - (at - view.from) * factor, at + (view.to - at) * factor); };
  look.edge = way => goToEdge(look, way);
  look.play = start => setPlaying(look, start);
  look.pick = key => { view.picked = view.picked === key ? null : key; look.pane.draw(); describe(look); };
  look.pickBy = step => pickBy(look, step);
  look.pickedName = () => { const row = view.rows.find(r => r.key === view.picked); return row && row.kind !== 'group' ? row.name : null; };
  look.fold = id => { if (view.folded.has(id)) view.folded.delete(id); else view.folded.add(id); arrange(look); };
  look.foldPicked = () => { const row = view.rows.find(r => r.key === view.picked); if (row) { const id = row.kind === 'group' ? row.key : row.name.slice(0, row.name.indexOf('.')); view.picked = id; look.fold(id); } };
  look.choose = (name, yes) => { view.chosen = yes ? [...view.chosen.filter(n => n !== name), name] : view.chosen.filter(n => n !== name); arrange(look); };
  look.chooseAll = (names, alone = false) => { view.chosen = alone ? names : [...new Set([...view.chosen, ...names])]; arrange(look); };
  look.reveal = name => revealPin(look, name);
  look.addDecoder = decoder => { view.decoders = [...view.decoders, decoder]; look.choose(decoder.pins[0], true); };
  look.readAs = name => { const mine = suggestedDecoders(look.run).map(d => JSON.stringify(d)); readSentAs(look.run, name); view.decoders = [...suggestedDecoders(look.run), ...view.decoders.filter(d => !mine.includes(JSON.stringify(d)))]; showSent(look); arrange(look); look.go(view.t, false); };
  look.noDecoders = () => { view.decoders = []; arrange(look); };
  look.focusFinder = () => look.finder.querySelector('input').focus();
  look.toggleRowList = () => { look.list.element.open = !look.list.element.open; if (look.list.element.open) look.list.element.querySelector('input').focus(); };
  look.escape = () => { look.list.element.open = false; view.picked = null; look.pane.draw(); };
}

function showRun(look, run) {
  const { view, elements } = look, before = look.run;
  if (view.playing) setPlaying(look, false);
  if (before && before !== run) stopChips(before);
  look.run = run;
  const isOwnChoice = before && view.chosen.join() !== movedNames(before).join();       // else a longer run shows what moves in it
  const kept = isOwnChoice ? view.chosen.filter(name => run.waveOf.has(name)) : [];
  view.chosen = kept.length ? kept : movedNames(run);
  view.decoders = suggestedDecoders(run);
  view.from = run.from; view.to = run.to; view.b = null; view.picked = null;
  if (!before) view.folded = foldedAtFirst(run, view.chosen);
  setText(elements.title, run.title); setText(elements.report, run.report.trimEnd());
  setText(elements.facts, factsOf(run));
  showLeft(look);
  look.board = drawBoard(run, { pin: name => { look.reveal(name); if (look.on.pin) look.on.pin(name); }, part: id => { if (look.on.part) look.on.part(id); } });
  look.frame.show(look.board);
  look.list.fill(run);
  look.sound.show(run);
  showSent(look);
  look.bar.slide.min = run.from; look.bar.slide.max = run.to;
  const wanted = (run.to - run.from) / 16e6 / 12;      // at first, a run plays in some twelve seconds
  view.speed = SPEEDS.map(s => 1 / s).find(speed => speed <= wanted * 1.5) || 1 / SPEEDS[SPEEDS.length - 1];
  look.bar.speed.value = view.speed;
  arrange(look);
  if (look.useHash) readHash(look); else look.go(run.from);
  playChips(run, () => showPlayed(look, run));
}

function showPlayed(look, run) {    // what its chips showed, as it comes
  const { view } = look;
  if (look.run !== run) return;
  if (!view.playing) { look.board.update({ t: view.t, since: view.since, moving: view.moving }); showNow(look); }
  showLeft(look);
}

const MANY_ROWS = 40;
function foldedAtFirst(run, chosen) {                  // more rows than a pane can show: the later parts begin folded
  const folded = new Set();
  chosen.forEach((name, i) => { if (i >= MANY_ROWS) folded.add(name.slice(0, name.indexOf('.'))); });
  for (const name of chosen.slice(0, MANY_ROWS)) folded.delete(name.slice(0, name.indexOf('.')));
  return folded;
}

function factsOf(run) {
  const edges = run.waves.reduce((sum, wave) => sum + wave.t.length - 1, 0), whole = run.from === 0 && run.to === run.cycles;
  const time = `${grouped(run.cycles / 16)} µs, ${grouped(run.cycles)} cycles`;
  const counted = (n, one) => `${grouped(n)} ${one}${n === 1 ? '' : 's'}`;
  return `${whole ? time : `${inMicroseconds(run.from)} to ${inMicroseconds(run.to)} of ${time}`}; ${counted(edges, 'change')} in ${movedNames(run).length === 1 ? '1 wave' : counted(movedNames(run).length, 'different wave')}`;
}

function showLeft(look) {           // what the run, or the page, left out, each with its time; what a tool said of the project: in words
  const { run, elements } = look, lines = run.left ? [make('li', {}, run.left)] : [];
  for (const note of [...run.notes, ...(run.unplayed || [])]) {
    const within = note.t !== null && note.t >= run.from && note.t <= run.to;
    lines.push(make('li', {}, note.t === null ? '' : within ? button(`at ${inMicroseconds(note.t)}`, 'goes there', () => look.go(note.t)) : `at ${inMicroseconds(note.t)}`, ' ' + note.text));
  }
  elements.left.replaceChildren(...(lines.length ? [make('h2', {}, 'What this run left out'), make('ul', {}, ...lines)] : []));
  elements.left.hidden = lines.length === 0;
  elements.made.replaceChildren(make('summary', {}, 'How this project was made of another'), make('ul', {}, ...run.made.map(text => make('li', {}, text))));
  elements.made.hidden = run.made.length === 0;
  elements.made.open = run.made.length < 3;
}

// ---- Moving

function arrange(look) {            // the rows, after they or their folds changed
  const { view, run } = look;
  view.rows = rowsOf(run, view.chosen, view.decoders, view.folded);
  if (!view.rows.some(row => row.key === view.picked)) view.picked = null;
  look.element.style.setProperty('--rows', `${Math.max(totalHeight(view.rows) + AXIS_HEIGHT, 110)}px`);
  look.list.mark(run, view.chosen);
  look.pane.show(run, view);
  keepHash(look);
}

function goTo(look, t, follow) {
  const { view, run } = look;
  view.t = clamp(Math.round(t), run.from, run.to);
  const wall = view.playing ? Math.round(WALL_WINDOW * view.speed * 16e6) : 0;
  view.since = Math.max(view.t - Math.max(wall, view.eye ? EYE : 0), run.from);
  view.moving = Math.max(view.t - wall, run.from);
  if (follow && (view.t < view.from || view.t > view.to)) {
    const span = view.to - view.from, from = view.t - span * (view.playing ? .05 : .5);
    setRange(look, from, from + span);
  }
  look.board.update({ t: view.t, since: view.since, moving: view.moving });
  showNow(look); showSentAt(look); showReadouts(look);
  look.pane.drawCursors();
  if (!view.playing) keepHash(look);
  if (look.on.cursor) look.on.cursor(view.t);
}

function setRange(look, from, to) {
  const { view, run } = look, whole = run.to - run.from, span = clamp(to - from, Math.min(8, whole), whole), start = clamp(from, run.from, run.to - span);
  view.from = start; view.to = start + span;
  look.pane.draw();
  if (!view.playing) keepHash(look);
}

function goToEdge(look, way) {      // of the row that is picked, else of any row
  const { view, run } = look, picked = look.pickedName();
  const names = picked ? [picked] : view.rows.filter(row => row.kind === 'wave').map(row => row.name);
  const edges = names.map(name => nextEdge(run.wave(name), view.t, way)).filter(t => t !== null && t >= run.from);
  look.go(edges.length ? (way > 0 ? Math.min(...edges) : Math.max(...edges)) : way > 0 ? run.to : run.from);
}

function pickBy(look, step) {
  const { view } = look, at = view.rows.findIndex(row => row.key === view.picked), next = at < 0 ? (step > 0 ? 0 : view.rows.length - 1) : clamp(at + step, 0, view.rows.length - 1);
  if (!view.rows.length) return;
  view.picked = view.rows[next].key;
  look.pane.reveal(view.picked);
  look.pane.draw();
  describe(look);
}

function revealPin(look, name) {    // the row of a pin's wave; a new one if it has none
  const { view, run } = look, index = run.waveOf.get(name), id = name.slice(0, name.indexOf('.'));
  if (index === undefined) return;
  const chosen = view.chosen.find(other => run.waveOf.get(other) === index);
  if (!chosen) view.chosen = [...view.chosen, name];
  view.folded.delete(chosen ? chosen.slice(0, chosen.indexOf('.')) : id);
  view.picked = chosen || name;
  arrange(look);
  view.picked = (view.rows.find(row => row.kind === 'wave' && run.waveOf.get(row.name) === index) || {}).key || null;
  look.pane.reveal(view.picked);
  look.pane.draw();
  describe(look);
}

function setPlaying(look, start) {
  const { view, run } = look;
  if (start && view.t >= run.to) look.go(run.from);
  view.playing = start;
  setText(look.bar.play, start ? '❚❚ Pause' : '▶ Play');
  if (look.on.play) look.on.play(start);
  if (!start) { look.sound.stop(); look.go(view.t, false); return; }
  let last = performance.now(), at = view.t, shown = view.t, heard = null;        // heard: at which speed, with which box
  const step = now => {
    if (!view.playing || look.run !== run) return;
    if (view.t !== shown) { at = view.t; heard = null; }         // someone moved the cursor
    const how = view.speed === 1 && look.sound.box.checked;
    if (how !== heard) { if (how) look.sound.play(run, at); else look.sound.stop(); heard = how; }
    at += Math.min(now - last, 100) / 1000 * view.speed * 16e6;
    last = now;
    look.go(at);
    shown = view.t;
    if (view.t >= run.to) setPlaying(look, false); else requestAnimationFrame(step);
  };
  requestAnimationFrame(step);
}

// ---- What stands beside the board

function showNow(look) {
  const { view, elements } = look, texts = look.board.texts({ t: view.t, since: view.since });
  elements.nowBox.hidden = texts.length === 0;
  const list = elements.now;
  while (list.childElementCount > texts.length) list.lastElementChild.remove();
  texts.forEach(([id, text], i) => {
    const line = list.children[i] || list.appendChild(make('div', { className: 'now-line' }, make('b'), make('span')));
    setText(line.children[0], id); setText(line.children[1], text);
  });
}

function showSent(look) {
  const { run, elements } = look;
  const { bytes, formats, others } = run.serial;
  elements.sentBox.hidden = bytes.length === 0;
  elements.sentAs.hidden = others.length === 0;
  elements.sentAs.replaceChildren(...(others.length ? [formats[0], ...others].map(name => new Option(`read as ${name}`, name)) : []));
  look.sentAt = null;
}
function showSentAt(look) {         // what was sent up to the cursor, and, dimmed, what is still to come
  const { run, view, elements } = look, { bytes, times } = run.serial;
  if (!bytes.length) return;
  let n = bytes.length;
  if (times) { let low = 0, high = times.length; while (low < high) { const half = (low + high) >> 1; if (times[half] !== null && times[half] <= view.t) low = half + 1; else high = half; } n = low; }
  if (n === look.sentAt) return;
  look.sentAt = n;
  const decoder = new TextDecoder();
  elements.before.textContent = decoder.decode(bytes.subarray(0, n)); elements.after.textContent = decoder.decode(bytes.subarray(n));
  setText(elements.sentNote, times ? `${grouped(n)} of ${grouped(bytes.length)} bytes${times.includes(null) ? ', the last ones after what is kept' : ''}` : `${grouped(bytes.length)} bytes; the wave does not tell when`);
  elements.sent.scrollTop = Math.max(0, elements.before.offsetHeight - elements.sent.clientHeight + 24);
}

function clickedByte(look, event) { // to the time when the character under the mouse was sent
  const { times, bytes } = look.run.serial, spot = document.caretPositionFromPoint ? document.caretPositionFromPoint(event.clientX, event.clientY) : document.caretRangeFromPoint && document.caretRangeFromPoint(event.clientX, event.clientY);
  if (!times || !spot) return;
  const node = spot.offsetNode || spot.startContainer, offset = spot.offset ?? spot.startOffset, { before, after } = look.elements;
  if (!before.contains(node) && !after.contains(node)) return;
  const text = node.data ? node.data.slice(0, offset) : '', index = new TextEncoder().encode(text).length + (after.contains(node) ? look.sentAt : 0);
  const t = times[clamp(index, 0, bytes.length - 1)];
  if (t !== null && t !== undefined) look.go(t);
}

function showReadouts(look) {
  const { view, elements, bar } = look, { t, b } = view;
  setText(elements.a, `A ${inMicroseconds(t)} (cycle ${grouped(t)})`);
  setText(elements.b, b === null ? '' : `B ${inMicroseconds(b)} (cycle ${grouped(b)})`);
  setText(elements.gap, b === null ? '' : gapText(look, Math.min(t, b), Math.max(t, b)));
  if (document.activeElement !== bar.time) bar.time.value = inMicroseconds(t);
  bar.slide.value = t;
  bar.slide.setAttribute('aria-valuetext', inMicroseconds(t));
  if (!view.playing) describe(look);
}

function gapText(look, from, to) {
  const gap = to - from, name = look.pickedName();
  if (!gap) return 'A and B are at one cycle';
  const duty = name ? `; ${name} high for ${percent(highShare(look.run.wave(name), from, to))}` : '';
  return `A to B: ${inCycles(gap)} = ${inMicroseconds(gap)} = ${inHertz(gap)}${duty}`;
}

function describe(look) {           // for those who hear the page: the row that is picked, or the levels of the first rows
  const { view, run } = look, row = view.rows.find(r => r.key === view.picked);
  if (view.b !== null) setText(look.elements.gap, gapText(look, Math.min(view.t, view.b), Math.max(view.t, view.b)));
  if (!row) { setText(look.elements.heard, view.rows.filter(r => r.kind === 'wave').slice(0, 16).map(r => `${r.name} ${LEVELS[levelAt(run.wave(r.name), view.t)]}`).join(', ')); return; }
  if (row.kind === 'group') { setText(look.elements.heard, `${row.title}, ${row.folded ? 'folded' : 'open'}, ${row.count} rows`); return; }
  if (row.kind === 'frames' && hasFrames(run, row.decoder)) {
    const frames = framesOf(run, row.decoder), next = frames[firstFrame(frames, view.t)];
    setText(look.elements.heard, `${decoderTitle(run, row.decoder)} on ${row.name}, ${frames.length} frames${next ? `; at or after A: ${next.text} at ${inMicroseconds(next.from)}` : ''}`);
    return;
  }
  if (row.kind === 'frames') return;
  const wave = run.wave(row.name), i = Math.max(findEdge(wave, view.t), 0), next = nextEdge(wave, view.t, 1), inView = findEdge(wave, view.to) - findEdge(wave, view.from);
  setText(look.elements.heard, `${[row.name, ...row.also].join(' = ')} is ${LEVELS[wave.v[i]]} since ${inMicroseconds(wave.t[i])}${next === null ? ' and stays so' : `, until ${inMicroseconds(next)}`}; in view it changes ${inView} times and is high for ${percent(highShare(wave, view.from, view.to))}`);
}

// ---- The view in the address, so that it can be sent to someone: #t=5000us&b=5100us&view=0us..10000us&eye=1&pins=uno.13,led1.A

let hashTimer = 0;
function keepHash(look) {
  if (!look.useHash) return;
  clearTimeout(hashTimer);
  hashTimer = setTimeout(() => {
    const { view, run } = look, some = (name, text) => text ? [`${name}=${text}`] : [];
    const whole = view.from === run.from && view.to === run.to, pins = view.chosen.map(encodeURIComponent).join(), moved = movedNames(run).map(encodeURIComponent).join();
    const text = [`t=${view.t}cy`, ...some('b', view.b !== null && `${view.b}cy`), ...some('view', !whole && `${Math.round(view.from)}cy..${Math.round(view.to)}cy`), ...some('eye', view.eye && '1'), ...some('pins', pins !== moved && pins)].join('&');
    try { history.replaceState(null, '', '#' + text); } catch (e) { look.useHash = true; }         // some viewers forbid it
  }, 400);
}

function readHash(look) {
  const { view, run } = look, plain = text => { try { return decodeURIComponent(text); } catch (e) { return text; } };
  let t = run.from;
  for (const item of location.hash.slice(1).split('&')) {
    const at = item.indexOf('='), name = item.slice(0, at), value = item.slice(at + 1);
    if (name === 't') t = parsedTime(plain(value)) ?? t;
    if (name === 'b') { const b = parsedTime(plain(value)); view.b = b === null ? null : clamp(b, run.from, run.to); }
    if (name === 'eye') view.eye = look.bar.eye.checked = value === '1';
    if (name === 'pins') view.chosen = value.split(',').map(plain).filter(pin => run.waveOf.has(pin));
    if (name === 'view') { const [from, to] = plain(value).split('..').map(parsedTime); if (from !== null && to > from) { view.from = Math.max(from, run.from); view.to = Math.min(to, run.to); if (view.to <= view.from) { view.from = run.from; view.to = run.to; } } }
  }
  arrange(look);
  look.go(t, false);
}

// ---- A picture of the board as it is

function saveBoard(look) {
  const text = boardPicture(look.board, document.querySelector('style') ? document.querySelector('style').textContent : '');
  const link = make('a', { href: URL.createObjectURL(new Blob([text], { type: 'image/svg+xml' })), download: `${look.run.title}-board.svg` });
  link.click();
  setTimeout(() => URL.revokeObjectURL(link.href), 1000);
}

// The <svg> as a text of its own; `css` are rules, of which those of `.board` are taken.
function boardPicture(board, css) {
  const rules = (css.match(/^\.board [^\n]*$/gm) || []).join('\n'), copy = board.element.cloneNode(true), [x, y, width, height] = board.box;
  copy.setAttribute('xmlns', SVG_NAMES); copy.setAttribute('width', width); copy.setAttribute('height', height); copy.setAttribute('viewBox', board.box.join(' '));
  copy.prepend(svg('style', {}, rules), rect(x, y, width, height, { fill: '#f3f4ef' }));
  return new XMLSerializer().serializeToString(copy);
}
