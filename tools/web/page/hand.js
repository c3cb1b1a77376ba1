'use strict';
// Buttons, switches and wipers of the board as controls: what is done with one becomes a line of the script at the cursor.
//
//   const hand = makeHand({ onLine(action, id, value) {} });
//   hand.show(parts, valueOf, rules, controlOf)    one control for each part that a script can set; valueOf(id) is its value at the
//                                cursor. Of parts of the editor with controls of their own, rules[id] are these (types.json), and
//                                controlOf(id, name) is the value
//   hand.use(id)                 what a click on the part does

const TAP = 1920000;                // 120 ms in cycles: how long a finger's tap presses
const HANDS = {
  'wokwi-pushbutton': buttonHand, 'wokwi-slide-switch': switchHand, 'wokwi-dip-switch-8': dipHand, 'wokwi-potentiometer': wiperHand,
  'board-source': sourceHand,
};

function makeHand({ onLine, onTap }) {
  const hand = { element: make('div', { className: 'hand' }), controls: new Map(), shown: '' };
  hand.element.hidden = true;
  hand.show = (parts, valueOf, rules = {}, controlOf = () => '') => {
    const own = parts.filter(part => HANDS[part.type] && !(part.within && rules[part.within])), shown = JSON.stringify([own.map(part => [part.type, part.id]), rules]);
    if (shown === hand.shown) { hand.update(valueOf, controlOf); return; }      // the same parts: what has the focus keeps it
    hand.shown = shown;
    hand.controls.clear();
    hand.element.replaceChildren();
    const bounces = make('input', { type: 'checkbox' }), line = (id, control) => hand.element.append(make('div', { className: 'hand-line' }, make('b', {}, id), ...control.elements));
    if (own.some(isBouncy)) hand.element.append(make('label', { title: 'a real contact opens and closes some times in its first millisecond' }, bounces, ' buttons bounce'));
    for (const part of own) {
      const how = isBouncy(part) ? action => (bounces.checked ? 'bounce' : undefined) : () => undefined;
      const control = HANDS[part.type](part, { onLine: (action, id, value) => onLine(action, id, value ?? how(action)), onTap: (id, cycles) => onTap(id, cycles, how('press')) });
      hand.controls.set(part.id, { ...control, update: () => control.update(hand.valueOf(part.id)) });
      line(part.id, control);
    }
    for (const [id, controls] of Object.entries(rules)) {
      const made = Object.entries(controls).map(([name, rule]) => [name, controlHand(id, name, rule, onLine)]);
      line(id, { elements: made.flatMap(([, it]) => it.elements) });
      hand.controls.set(id, { update: () => { for (const [name, it] of made) it.update(hand.controlOf(id, name)); }, use: made[0][1].use });
    }
    hand.element.hidden = hand.controls.size === 0;
    hand.update(valueOf, controlOf);
  };
  hand.update = (valueOf, controlOf) => { Object.assign(hand, { valueOf, controlOf }); for (const control of hand.controls.values()) control.update(); };
  hand.use = id => { const control = hand.controls.get(id); if (control) control.use(); };
  return hand;
}

function buttonHand({ id }, { onLine, onTap }) {
  let value = 0;
  const toggle = () => onLine(value ? 'release' : 'press', id), main = make('button', { type: 'button', onclick: toggle });
  return { elements: [main, make('button', { type: 'button', title: 'presses at the cursor, and releases 120 ms later', onclick: () => onTap(id, TAP) }, 'tap')],
    update(now) { value = now; setText(main, now ? 'release' : 'press'); main.setAttribute('aria-pressed', String(now === 1)); }, use: toggle };
}

function switchHand({ id }, { onLine }) {
  let value = 0;
  const toggle = () => onLine('set', id, value ? 0 : 1), main = make('button', { type: 'button', onclick: toggle });
  return { elements: [main], update(now) { value = now; setText(main, now ? 'to the left' : 'to the right'); main.setAttribute('aria-pressed', String(now === 1)); }, use: toggle };
}

function dipHand({ id }, { onLine }) {
  let value = 0;
  const boxes = Array.from({ length: 8 }, (_, k) => make('input', { type: 'checkbox', 'aria-label': `${id} switch ${k + 1}`, title: `switch ${k + 1}`, onchange: () => onLine('set', id, value ^ (1 << k)) }));
  return { elements: boxes, update(now) { value = now; boxes.forEach((box, k) => { box.checked = (now >> k & 1) === 1; }); }, use() { boxes[0].focus(); } };
}

function sourceHand({ id }, { onLine }) {
  const chosen = make('select', { 'aria-label': id, onchange: () => onLine('set', id, Number(chosen.value)) },
    ...['low', 'high', 'open'].map((text, value) => make('option', { value: String(value) }, text)));
  return { elements: [chosen], update(now) { chosen.value = String(now); }, use() { chosen.focus(); } };
}

function wiperHand({ id }, { onLine }) {
  const slide = make('input', { type: 'range', min: '0', max: '1023', step: '1', 'aria-label': id }), shown = make('output');
  slide.addEventListener('input', () => setText(shown, slide.value));
  slide.addEventListener('change', () => onLine('set', id, Number(slide.value)));
  return { elements: [slide, shown], update(now) { if (document.activeElement !== slide || slide.value === String(now)) slide.value = now; setText(shown, String(now)); }, use() { slide.focus(); } };
}

const isBouncy = ({ type, attrs }) => type === 'wokwi-pushbutton' && attrs.bounce !== '0';

// A control of a part of the editor: a slider with its unit, a switch, keys, or what it does once.
function controlHand(id, name, rule, onLine) {
  const put = value => onLine('set', id, `${name} ${value}`), title = `${id} ${name}`, element = (text, value) => make('button', { type: 'button', title: `${title} ${value}`, onclick: () => put(value) }, text);
  if (rule.words) {
    const chosen = make('select', { 'aria-label': title, onchange: () => { if (chosen.value) put(chosen.value); } }, new Option(`${name} …`, ''), ...wordsOf(rule.words).map(word => new Option(word, word)));
    return { elements: [chosen], update() { chosen.value = ''; }, use() { chosen.focus(); } };
  }
  if (rule.acts === 'turn') { const both = [element('◂', -1), element('▸', 1)]; return { elements: both, update() {}, use: () => put(1) }; }
  if (rule.acts === 'motion') return { elements: [element('motion', 1)], update() {}, use: () => put(1) };
  if (rule.step === rule.max - rule.min) {
    let value = '0';
    const toggle = () => put(value === '1' ? 0 : 1), main = make('button', { type: 'button', title, onclick: toggle }, name);
    return { elements: [main], update(now) { value = now; main.setAttribute('aria-pressed', String(now === '1')); }, use: toggle };
  }
  const slide = make('input', { type: 'range', min: String(rule.min), max: String(rule.max), step: String(rule.step), 'aria-label': title, title }), shown = make('output'), text = value => setText(shown, `${name} ${value}${rule.unit && ` ${rule.unit}`}`);
  slide.addEventListener('input', () => text(slide.value));
  slide.addEventListener('change', () => put(slide.value));
  return { elements: [slide, shown], update(now) { slide.value = now; text(now); }, use() { slide.focus(); } };
}
