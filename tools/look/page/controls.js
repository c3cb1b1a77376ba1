'use strict';
// The bar of controls, the list of rows and the keys of a look. Each function makes elements and wires them to the look's actions.

const SPEEDS = [1, 2, 5, 10, 20, 50, 100, 200, 500, 1e3, 2e3, 5e3, 1e4, 2e4, 5e4, 1e5, 2e5, 5e5, 1e6];
const button = (text, title, onclick, more = {}) => make('button', { type: 'button', title, onclick, ...more }, text);

function makeBar(look) {
  const bar = {
    play: button('▶ Play', 'Space', () => look.play(!look.view.playing), { className: 'play' }),
    speed: make('select', { 'aria-label': 'speed', onchange: event => { look.view.speed = Number(event.target.value); } }),
    eye: make('input', { type: 'checkbox', onchange: event => { look.view.eye = event.target.checked; look.go(look.view.t); } }),
    slide: make('input', { type: 'range', min: '0', step: '1', className: 'slide', 'aria-label': 'time', oninput: event => look.go(Number(event.target.value)) }),
    time: make('input', { className: 'time', spellcheck: false, autocomplete: 'off', 'aria-label': 'time of cursor A: a number with us, ms, s or cy', title: 'a time: 5000us, 5ms, 80000cy' }),
  };
  for (const s of SPEEDS) bar.speed.append(new Option(s === 1 ? 'real time' : `1/${grouped(s)}`, 1 / s));
  bar.time.addEventListener('change', () => { const t = parsedTime(bar.time.value); if (t !== null) look.go(t); });
  bar.time.addEventListener('blur', () => { bar.time.value = inMicroseconds(look.view.t); });
  bar.element = make('div', { className: 'bar' },
    button('◂ edge', 'to the edge before (Left)', () => look.edge(-1)), bar.play, button('edge ▸', 'to the next edge (Right)', () => look.edge(1)),
    make('label', { className: 'speed' }, 'speed ', bar.speed),
    look.sound.element,
    make('label', { title: 'lights show their mean over the last 20 ms: dimmed by their duty, and digits that take turns together' }, bar.eye, ' as the eye sees'),
    bar.slide, bar.time);
  return bar;
}

function makeFinder(look) {         // the next time that a row has a level for longer than a time
  const level = make('select', { 'aria-label': 'level' }, new Option('high', 1), new Option('low', 0), new Option('open (z)', 2), new Option('x', 3));
  const least = make('input', { className: 'least', value: '100us', spellcheck: false, 'aria-label': 'longer than' }), answer = make('output', { 'aria-live': 'polite' });
  const find = () => {
    const name = look.pickedName(), least_ = parsedTime(least.value);
    if (!name) { setText(answer, 'choose a row first'); return; }
    if (least_ === null) { setText(answer, 'a time is a number with us, ms, s or cy'); return; }
    const t = nextLonger(look.run.wave(name), look.view.t, Number(level.value), least_, look.run.to);
    setText(answer, t === null ? 'not again in this run' : '');
    if (t !== null) look.go(t);
  };
  least.addEventListener('keydown', event => { if (event.key === 'Enter') find(); });
  return make('span', { className: 'finder' }, 'next time that the row is ', level, ' longer than ', least, ' ', button('find', 'looks from cursor A on', find), ' ', answer);
}

function makeRowList(look) {        // which pins have rows, by a search, and the decoders
  const search = make('input', { type: 'search', placeholder: 'search', 'aria-label': 'search pins', spellcheck: false }), pins = make('div', { className: 'pins' }), count = make('span', { className: 'dim' });
  const filter = () => {
    const text = search.value.trim().toLowerCase();
    let shown = 0;
    for (const item of pins.children) { item.hidden = !item.textContent.toLowerCase().includes(text); shown += item.hidden ? 0 : 1; }
    setText(count, `${shown} of ${pins.children.length} pins`);
  };
  search.addEventListener('input', filter);
  pins.addEventListener('change', event => look.choose(event.target.value, event.target.checked));
  const list = {
    element: make('details', { className: 'row-list' }, make('summary', {}, 'Rows'),
      make('div', { className: 'panel' },
        make('div', { className: 'line' }, search, button('all shown', 'gives each pin of the list a row', () => look.chooseAll([...pins.querySelectorAll('label:not([hidden]) input')].map(input => input.value))),
          button('that moved', 'one row for each wave that moved', () => look.chooseAll(movedNames(look.run), true)), button('none', 'no rows', () => look.chooseAll([], true)), count),
        pins, makeDecoderForm(look))),
    fill(run) {
      const moved = new Set(movedNames(run)), first = run.names.filter(name => moved.has(name)), rest = run.names.filter(name => !moved.has(name));
      pins.replaceChildren(...[...first, ...rest].map(name => make('label', { className: run.wave(name).t.length > 1 ? '' : 'still', title: [name, ...sameWave(run, name)].join(' = ') }, make('input', { type: 'checkbox', value: name }), ' ' + name)));
      filter();
    },
    mark(run, chosen) {
      const waves = new Set(chosen.map(name => run.waveOf.get(name)));
      for (const input of pins.querySelectorAll('input')) input.checked = chosen.includes(input.value) || (!isOwnDrive(input.value) && waves.has(run.waveOf.get(input.value)) && chosen.includes(input.value));
    },
  };
  return list;
}

function makeDecoderForm(look) {
  const kind = make('select', { 'aria-label': 'decoder' }, new Option('UART', 'uart'), new Option('SPI', 'spi'), new Option('I2C', 'i2c'));
  const field = (placeholder, title) => make('input', { placeholder, title, 'aria-label': title, list: 'look-pins', spellcheck: false, className: 'pin-field' });
  const data = field('data', 'pin of the data line'), clock = field('clock', 'pin of the clock'), select = field('select', 'pin that selects, if there is one');
  const baud = make('input', { value: '9600', className: 'baud', 'aria-label': 'baud', title: 'baud' }), edge = make('select', { 'aria-label': 'edge' }, new Option('rise', 'rise'), new Option('fall', 'fall')), answer = make('output', { 'aria-live': 'polite' });
  const format = make('input', { value: USUAL_FORMAT, className: 'format', 'aria-label': 'format', title: '5 to 9 data bits, parity N, E or O, 1 or 2 stop bits', spellcheck: false });
  const names = make('datalist', { id: 'look-pins' });
  const show = () => { clock.hidden = kind.value === 'uart'; select.hidden = edge.hidden = kind.value !== 'spi'; baud.hidden = format.hidden = kind.value !== 'uart'; };
  kind.addEventListener('change', show); show();
  const add = () => {
    const pins = [data.value.trim(), ...(kind.value === 'uart' ? [] : [clock.value.trim()]), ...(kind.value === 'spi' && select.value.trim() ? [select.value.trim()] : [])];
    const unknown = pins.find(pin => !look.run.waveOf.has(pin)), bit = Math.round(16e6 / Number(baud.value)), written = format.value.trim().toUpperCase();
    if (unknown !== undefined) { setText(answer, `no pin “${unknown}”`); return; }
    if (kind.value === 'uart' && !(bit >= 2 && bit < 1e6)) { setText(answer, 'baud is a number'); return; }
    if (kind.value === 'uart' && !UART_FORMAT.test(written)) { setText(answer, 'a format is one as 8N1 or 7E2'); return; }
    setText(answer, '');
    const uart = { kind: 'uart', pins, bit, ...(written === USUAL_FORMAT ? {} : { format: written }) };
    look.addDecoder(kind.value === 'uart' ? uart : kind.value === 'spi' ? { kind: 'spi', pins, sampleFall: edge.value === 'fall' } : { kind: 'i2c', pins });
  };
  const form = make('div', { className: 'line decoder' }, 'decode ', kind, data, clock, select, baud, format, edge, button('add', 'puts a row of frames above the data line', add), button('remove all', 'no decoded rows', () => look.noDecoders()), answer, names);
  form.addEventListener('focusin', () => { if (names.childElementCount !== look.run.names.length) names.replaceChildren(...look.run.names.map(name => new Option(name))); });
  return form;
}

const HELP = [['space', 'play'], ['← →', 'edge'], ['shift ← →', 'one cycle'], ['↑ ↓', 'row'], ['enter', 'fold'], ['+ − 0', 'zoom'], ['b', 'second cursor'], ['f', 'find'], ['r', 'rows'], ['home end', 'ends']];
const makeHelp = () => make('div', { className: 'help' }, ...HELP.flatMap(([keys, what]) => [...keys.split(' ').map(key => make('kbd', {}, key)), ` ${what}  `]));

function onKey(look, event) {
  const { target, key } = event, tag = target.tagName;
  if (event.ctrlKey || event.metaKey || event.altKey || (tag === 'INPUT' && target.type !== 'checkbox' && target.type !== 'range') || tag === 'SELECT') return;
  if (tag === 'INPUT' && target.type === 'range' && /^(Arrow|Home|End)/.test(key)) return;
  if ((key === ' ' || key === 'Enter') && /^(BUTTON|SUMMARY|INPUT)$/.test(tag)) return;
  if (tag === 'PRE' && /^Arrow(Up|Down)$/.test(key)) return;
  const actions = {
    ' ': () => look.play(!look.view.playing), ArrowRight: () => event.shiftKey ? look.go(look.view.t + 1) : look.edge(1), ArrowLeft: () => event.shiftKey ? look.go(look.view.t - 1) : look.edge(-1),
    Home: () => look.go(look.run.from), End: () => look.go(look.run.to), ArrowDown: () => look.pickBy(1), ArrowUp: () => look.pickBy(-1), Enter: () => look.foldPicked(), Escape: () => look.escape(),
    '+': () => look.zoom(.5), '=': () => look.zoom(.5), '-': () => look.zoom(2), 0: () => look.range(look.run.from, look.run.to), b: () => look.second(look.view.b === look.view.t ? null : look.view.t), f: () => look.focusFinder(), r: () => look.toggleRowList(),
  };
  if (!Object.hasOwn(actions, key)) return;
  event.preventDefault();
  actions[key]();
}
