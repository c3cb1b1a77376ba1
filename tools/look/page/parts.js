'use strict';
// The parts: one entry for each `type` of docs/PARTS.md. A new part is one entry here.
//
//   size    [width, height], in the pixels of the editor (96 an inch, so 9.6 between the pins of a header)
//   pins    {name: [x, y]}, or a function of the part that answers this
//   draw    (g, part, run) draws into the SVG group g; it may answer a function of a moment, which shows what changes
//   tell    (part, run, moment), optional: what the part is at the moment, in words
//   named   false if the part's id is not written over it
//   beyond  (part, run), optional: points outside its size that the picture has to hold too
//
// A moment is {t, since}: the cursor's cycle, and the cycle from which on lights show their mean; since = t is the moment alone.
// Places of pins are those of Wokwi's editor as far as they are known; docs/LOOK.md has a table of what was checked.

const row = (names, x, y, step = 9.6) => Object.fromEntries(words(names).map((name, i) => [name, [x + i * step, y]]));
const column = (names, x, y, step = 9.5) => Object.fromEntries(words(names).map((name, i) => [name, [x, y + i * step]]));
const middle = { 'text-anchor': 'middle' };
const pinOf = (part, name) => `${part.id}.${name}`;
const flipped = part => part.attrs.flip === '1' || part.attrs.flip === 'true';
const percent = share => `${Math.round(share * 1000) / 10} %`;
const TEN_MS = 160000;

// What a light looks like: the eye sees a light of a tenth of the time far brighter than a tenth.
const seen = share => share ** 0.45;
function glow(shape, dark, bright, share) { shape.setAttribute('fill', mixed(dark, bright, seen(share))); }

// On or off, and its share of the last 10 ms where that says more.
function lightText(run, anode, cathode, moment) {
  const now = lightShare(run, anode, cathode, moment.since, moment.t), from = Math.max(moment.t - TEN_MS, run.from);
  const share = lightShare(run, anode, cathode, from, moment.t);
  const dimmed = share > 0 && share < 1 ? `, ${percent(share)} of the last ${moment.t - from < TEN_MS ? inMicroseconds(moment.t - from) : '10 ms'}` : '';
  return (now > 0.5 ? 'on' : 'off') + dimmed;
}

// ---- Gates

function gate(kind) {
  const single = kind === 'not' || kind === 'buffer', or = kind.includes('or'), exclusive = kind.startsWith('x'), turned = /^(n|xn)/.test(kind);
  const shape = single ? 'M16 5L46 20L16 35Z' : or ? 'M14 4H24Q42 6 51 20Q42 34 24 36H14Q23 20 14 4Z' : 'M15 4H35A16 16 0 0 1 35 36H15Z';
  const name = kind.replace('-2', '').toUpperCase();
  return {
    size: [67.2, 40],
    pins: single ? { IN: [0, 20], OUT: [67.2, 20] } : { A: [0, 12], B: [0, 28], OUT: [67.2, 20] },
    draw(g) {
      g.append(path(single ? 'M0 20H16M46 20H67' : 'M0 12H20M0 28H20M51 20H67', { class: 'lead' }), path(shape, { class: 'symbol-body' }));
      if (exclusive) g.append(path('M9 4Q18 20 9 36', { class: 'symbol' }));
      if (turned) g.append(circle(single ? 49.5 : 54.5, 20, 3.4, { class: 'symbol-body' }));
      g.append(label(single ? 25 : 31, 22.6, single && !turned ? '' : name, { class: 'symbol-text', 'font-size': single ? 6.4 : 7.6, ...middle }));
    },
  };
}

// ---- The Uno

const places = (names, xs, y) => Object.fromEntries(words(names).map((name, i) => [name, [xs[i], y]]));
const LCD_PLACES = [32, 41.5, 51.5, 60.5, 70.5, 80, 89.5, 99.5, 109, 118.5, 128, 137.5, 147, 156.5, 166.5, 176];
const UNO_TOP = {
  ...places('A5.2 A4.2 AREF GND.1 13 12 11 10 9 8', [87, 97, 106, 115.5, 125, 134.5, 144, 153.5, 163, 173], 9),
  ...places('7 6 5 4 3 2 1 0', [189, 198.5, 208, 217.5, 227, 236.5, 246, 255.5], 9),
};
const UNO_BOTTOM = {
  ...places('IOREF RESET 3.3V 5V GND.2 GND.3 VIN', [131, 140.5, 150, 160, 169.5, 179, 188.5], 191.5),
  ...places('A0 A1 A2 A3 A4 A5', [208, 217.5, 227, 236.5, 246, 255.5], 191.5),
};
const UNO_TEXT = { 'A5.2': 'SCL', 'A4.2': 'SDA', 'GND.1': 'GND', 'GND.2': 'GND', 'GND.3': 'GND', 3: '~3', 5: '~5', 6: '~6', 9: '~9', 10: '~10', 11: '~11', 0: 'RX 0', 1: 'TX 1' };

function unoBoard(g) {
  const silk = { fill: '#dff1f2', 'font-size': 6.6 }, metal = { fill: '#c3c8cb', stroke: '#888f94' }, black = { fill: '#23272a', stroke: '#101314' };
  g.append(
    path('M19 1H259L264 6V49L273.6 58.6V182.4L264 192V197Q264 201 260 201H19Q15.6 201 15.6 197V5Q15.6 1 19 1Z', { fill: '#12697a', stroke: '#0b4450', 'stroke-width': 1.2 }),
    path('M20 4H257.8L261 7.2V50.2', { fill: 'none', stroke: '#2b8494', 'stroke-width': .8 }),
    rect(.5, 35.4, 53, 44.6, { ...metal, rx: 2 }), path('M.5 43H48M.5 72.4H48M48 35.4V80', { stroke: '#9aa1a5', 'stroke-width': 1, fill: 'none' }),
    rect(5.4, 142, 44, 34, { ...black, rx: 2 }), path('M40 142V176', { stroke: '#454b4f', 'stroke-width': 1.4 }),
    rect(23, 8, 20, 18, { ...metal, rx: 1.5 }), circle(33, 17, 5.2, { fill: '#b23a30', stroke: '#7c241d' }),
    rect(55, 100, 28, 12, { ...metal, rx: 6 }), circle(59, 150, 8, metal), circle(59, 172, 8, metal), rect(66, 44, 22, 22, { ...black, rx: 1 }),
  );
  for (const k of upTo(14)) g.append(rect(124.5 + 9.3 * k, 118.5, 3.6, 5, { fill: '#aeb4b8' }), rect(124.5 + 9.3 * k, 150.5, 3.6, 5, { fill: '#aeb4b8' }));
  g.append(
    rect(118, 122, 136, 30, { ...black, rx: 2 }), path('M118 132A5 5 0 0 1 118 142Z', { fill: '#0d0f10' }),
    label(189, 140, 'ATmega328P', { ...middle, 'font-size': 9, fill: '#aab1b5' }),
    label(160, 86, 'UNO', { 'font-size': 27, 'font-weight': 700, fill: '#e9f6f7', 'letter-spacing': 1.5 }), label(161, 98, '16 MHz', { 'font-size': 8, fill: '#a9d5da' }),
    label(221, 44, 'DIGITAL (PWM ~)', { ...silk, ...middle, 'font-size': 7 }), 
    label(160, 163.5, 'POWER', { ...silk, ...middle, 'font-size': 7 }), label(232, 163.5, 'ANALOG IN', { ...silk, ...middle, 'font-size': 7 }),
    rect(82, 4, 98, 10, black), rect(184, 4, 77, 10, black), rect(126, 186.5, 67.5, 10, black), rect(203, 186.5, 58, 10, black),
  );
  for (const [name, [x, y]] of Object.entries({ ...UNO_TOP, ...UNO_BOTTOM })) {
    g.append(label(0, 0, UNO_TEXT[name] || name, { ...silk, transform: `translate(${x + 2.4} ${y < 100 ? 17 : 183.5}) rotate(-90)`, 'text-anchor': y < 100 ? 'end' : 'start' }));
  }
  g.append(rect(246, 60, 7, 4, { rx: 1, fill: '#7be38a' }), label(243, 64.5, 'ON', { ...silk, 'text-anchor': 'end' }), label(94, 64.5, 'L', { ...silk, 'text-anchor': 'end' }));
}

// ---- Digits

const SEGMENTS = {
  A: 'M13.5 16h20l-3.8 4.5h-12.4z', B: 'M35 17.2v17l-2.4 1.8-2.1-2.7v-11.6z', C: 'M35 38.2v17l-4.5-4.5v-11.6l2.1-2.7z', D: 'M13.5 56.5h20l-3.8-4.5h-12.4z',
  E: 'M12 38.2v17l4.5-4.5v-11.6l-2.1-2.7z', F: 'M12 17.2v17l2.4 1.8 2.1-2.7v-11.6z', G: 'M15 36.2l3-2.3h11l3 2.3-3 2.3h-11z', DP: 'M38 53h3.8v3.8h-3.8z',
};
function segmentShare(part, run, name, since, t) {
  const segment = pinOf(part, name), common = pinOf(part, 'COM');
  return part.attrs.common === 'cathode' ? lightShare(run, segment, common, since, t) : lightShare(run, common, segment, since, t);
}

// ---- Resistors

const BANDS = ['#1c1c1c', '#7a4a21', '#cf2a27', '#e8811c', '#ecd022', '#2a9d3a', '#2a5fd0', '#8a3fbf', '#8a8f93', '#f6f6f4'];
function bandsOf(ohms) {            // two digits and the power of ten
  if (!(ohms >= 1)) return [0, 0, 0];
  let power = Math.max(Math.floor(Math.log10(ohms)) - 1, 0), two = Math.round(ohms / 10 ** power);
  if (two > 99) { two = Math.round(two / 10); power++; }
  return [Math.floor(two / 10), two % 10, Math.min(power, 9)];
}
const ohmText = ohms => ohms >= 1e6 ? `${ohms / 1e6} MΩ` : ohms >= 1e3 ? `${ohms / 1e3} kΩ` : `${ohms} Ω`;

// ---- The table

const SOURCE_LEVELS = ['L', 'H', 'Z'];      // as `set` has them: low, high, open
const PARTS = {
  'wokwi-arduino-uno': {
    size: [274.3, 201.6],
    named: false,
    pins: { ...UNO_TOP, ...UNO_BOTTOM },
    draw(g, part, run) {
      unoBoard(g);
      const lamp = rect(97, 60, 7, 4, { rx: 1 }), shine = circle(100.5, 62, 7, { fill: '#ffc24d' });
      g.append(shine, lamp);
      return moment => {
        const share = lightShare(run, pinOf(part, '13'), pinOf(part, 'GND.1'), moment.since, moment.t);
        glow(lamp, '#7b6a44', '#ffd884', share);
        shine.setAttribute('opacity', .55 * seen(share));
      };
    },
  },

  'wokwi-led': {
    size: [40, 50],
    pins: part => flipped(part) ? { A: [15, 42], C: [25, 42] } : { A: [25, 42], C: [15, 42] },
    draw(g, part, run) {
      const color = colorOf(part.attrs.color, COLORS.red), light = colorOf(part.attrs.lightColor || part.attrs.color, COLORS.red);
      const far = circle(20, 17, 21, { fill: light }), near = circle(20, 17, 15, { fill: light });
      const body = path('M11 28V15A9 9 0 0 1 29 15V28Z', { stroke: mixed(color, '#000000', .45), 'stroke-width': .8 });
      const legs = flipped(part) ? 'M25 30V42M17 30L15 34V42' : 'M15 30V42M23 30L25 34V42';
      const shine = path('M14.5 24V15A5.5 5.5 0 0 1 18 10', { fill: 'none', stroke: '#ffffff', 'stroke-width': 1.6, 'stroke-linecap': 'round', opacity: .55 });
      g.append(far, near, path(legs, { class: 'lead' }), body, rect(9, 27, 22, 4.6, { rx: 1.2, fill: mixed(color, '#000000', .18), stroke: mixed(color, '#000000', .5), 'stroke-width': .7 }), shine);
      return moment => {
        const share = lightShare(run, pinOf(part, 'A'), pinOf(part, 'C'), moment.since, moment.t);
        glow(body, mixed(color, '#2c2d2c', .62), mixed(light, '#ffffff', .3), share);
        far.setAttribute('opacity', .24 * seen(share));
        near.setAttribute('opacity', .4 * seen(share));
      };
    },
    tell: (part, run, moment) => lightText(run, pinOf(part, 'A'), pinOf(part, 'C'), moment),
  },

  'wokwi-pushbutton': {
    size: [67.3, 45.4],
    pins: { '1.l': [0, 13], '2.l': [0, 32], '1.r': [67, 13], '2.r': [67, 32] },
    draw(g, part, run) {
      const color = colorOf(part.attrs.color, COLORS.red), cap = circle(33.6, 22.7, 13, { stroke: mixed(color, '#000000', .5) });
      const ring = circle(33.6, 22.7, 16, { fill: 'none', class: 'pressed' });
      g.append(path('M0 13H67M0 32H67', { class: 'lead' }), rect(11, 0, 45.2, 45.4, { rx: 3.5, fill: '#494f54', stroke: '#2c3033' }), rect(14, 3, 39.2, 39.4, { rx: 2, fill: '#bfc4c7' }));
      for (const [x, y] of [[17.5, 6.5], [49.7, 6.5], [17.5, 38.9], [49.7, 38.9]]) g.append(circle(x, y, 2, { fill: '#33373a' }));
      g.append(ring, cap);
      return moment => {
        const on = inputAt(run, part.id, moment.t) === 1;
        cap.setAttribute('r', on ? 10.5 : 13);
        cap.setAttribute('fill', on ? mixed(color, '#000000', .22) : color);
        ring.setAttribute('opacity', on ? 1 : 0);
      };
    },
    tell: (part, run, moment) => inputAt(run, part.id, moment.t) ? 'pressed' : 'released',
  },

  'wokwi-slide-switch': {
    size: [32, 35.5],
    pins: row('1 2 3', 6.5, 34, 9.5),
    draw(g, part, run) {
      const knob = rect(4, 5, 11, 11.5, { rx: 1, fill: '#f1f2f1', stroke: '#8a9094', 'stroke-width': .7 });
      g.append(path('M6.5 21V34M16 21V34M25.5 21V34', { class: 'lead' }), rect(0, 0, 32, 22, { rx: 2, fill: '#6a7176', stroke: '#43484b' }), rect(3, 4, 26, 13.5, { rx: 1, fill: '#1f2224' }), knob);
      return moment => knob.setAttribute('x', inputAt(run, part.id, moment.t) ? 17 : 4);
    },
    tell: (part, run, moment) => String(inputAt(run, part.id, moment.t)),
  },

  'wokwi-dip-switch-8': {
    size: [82.9, 55.4],
    pins: { ...row('1a 2a 3a 4a 5a 6a 7a 8a', 8.1, 51.3), ...row('1b 2b 3b 4b 5b 6b 7b 8b', 8.1, 3) },
    draw(g, part, run) {
      g.append(...upTo(8).map(i => path(`M${8.1 + 9.6 * i} 3V51.3`, { class: 'lead' })), rect(0, 6.5, 82.9, 42, { rx: 2, fill: '#b3312d', stroke: '#7c1f1c' }), label(4, 13.5, 'ON', { 'font-size': 5.5, fill: '#ffffff' }));
      const knobs = upTo(8).map(i => {
        const x = 8.1 + 9.6 * i, knob = rect(x - 2.5, 0, 5, 8, { fill: '#f4f4f2' });
        g.append(rect(x - 3, 15, 6, 20, { fill: '#430f0d' }), knob, label(x, 44.5, i + 1, { ...middle, 'font-size': 7, fill: '#ffffff' }));
        return knob;
      });
      return moment => knobs.forEach((knob, i) => knob.setAttribute('y', inputAt(run, part.id, moment.t) >> i & 1 ? 16 : 26));
    },
    tell: (part, run, moment) => { const v = inputAt(run, part.id, moment.t); return `${v}, on: ${upTo(8).filter(i => v >> i & 1).map(i => i + 1).join(' ') || 'none'}`; },
  },

  'wokwi-potentiometer': {
    size: [75.6, 75.6],
    pins: row('GND SIG VCC', 29, 68.5, 10),
    draw(g, part, run) {
      const hand = path('M37.8 33V16', { stroke: '#ffffff', 'stroke-width': 3, 'stroke-linecap': 'round' }), mark = label(37.8, 59.8, '', { ...middle, 'font-size': 8, fill: '#e8eefb' });
      g.append(path('M29 60V68M39 60V68M49 60V68', { class: 'lead' }), rect(7, 2, 61.6, 63, { rx: 6, fill: '#3058a3', stroke: '#1f3c73' }));
      for (const k of upTo(11)) g.append(path('M37.8 11V7.5', { stroke: '#cfdbf3', 'stroke-width': 1, transform: `rotate(${-135 + 27 * k} 37.8 33)` }));
      for (const [name, [x]] of Object.entries(this.pins)) g.append(label(x, 64, name, { ...middle, 'font-size': 4, fill: '#e8eefb' }));
      g.append(circle(37.8, 33, 20, { fill: '#d7dcdf', stroke: '#9aa1a6' }), circle(37.8, 33, 15.5, { fill: '#4a5157' }), hand, mark);
      return moment => {
        const value = inputAt(run, part.id, moment.t);
        hand.setAttribute('transform', `rotate(${-135 + 270 * value / 1023} 37.8 33)`);
        mark.textContent = value;
      };
    },
    tell: (part, run, moment) => `${inputAt(run, part.id, moment.t)} of 1023`,
  },

  'board-source': {
    size: [44, 26],
    pins: { OUT: [44, 13] },
    draw(g, part, run) {
      const mark = label(17, 17.5, '', { ...middle, 'font-size': 11, fill: '#ffffff' });
      g.append(path('M34 13H44', { class: 'lead' }), rect(0, 0, 34, 26, { rx: 3, fill: '#3d4650', stroke: '#22282e' }), mark);
      return moment => { mark.textContent = SOURCE_LEVELS[inputAt(run, part.id, moment.t)] || ''; };
    },
    tell: (part, run, moment) => ['low', 'high', 'open'][inputAt(run, part.id, moment.t)] || '',
  },

  'wokwi-resistor': {
    size: [58.8, 11.3],
    pins: { 1: [0, 5.65], 2: [58.8, 5.65] },
    note: part => ohmText(parseFloat(part.attrs.value || '1000') || 0),
    draw(g, part) {
      const [one, two, power] = bandsOf(parseFloat(part.attrs.value || '1000'));
      g.append(path('M0 5.65H58.8', { class: 'lead' }), path('M13 2.5Q13 .6 15 .6H20L22 1.8H37L39 .6H44Q46 .6 46 2.5V8.8Q46 10.7 44 10.7H39L37 9.5H22L20 10.7H15Q13 10.7 13 8.8Z', { fill: '#e4d3ab', stroke: '#a78f5f', 'stroke-width': .8 }));
      for (const [i, digit] of [one, two, power].entries()) g.append(rect([16, 24, 30][i], i ? 1.8 : .6, 3, i ? 7.7 : 10.1, { fill: BANDS[digit] }));
      g.append(rect(40.5, .6, 2.6, 10.1, { fill: '#c4981f' }));
    },
  },

  'wokwi-junction': {
    size: [7.2, 7.2],
    named: false,
    pins: { J: [3.6, 3.6] },
    draw: g => g.append(circle(3.6, 3.6, 3.6, { class: 'symbol-dot' })),
  },

  'wokwi-text': {
    size: [10, 10],
    named: false,
    pins: {},
    draw: (g, part) => String(part.attrs.text || '').split('\n').forEach((line, i) => g.append(label(0, 12 + 16.5 * i, line, { class: 'free-text', 'font-size': 14 }))),
  },

  'wokwi-vcc': {
    size: [19.2, 28],
    named: false,
    pins: { VCC: [9.6, 28] },
    draw: g => g.append(path('M9.6 28V10M3.6 15L9.6 9L15.6 15', { class: 'symbol' }), label(9.6, 6, 'VCC', { class: 'symbol-text', 'font-size': 7.5, ...middle })),
  },

  'wokwi-gnd': {
    size: [18, 20],
    named: false,
    pins: { GND: [9, 0] },
    draw: g => g.append(path('M9 0V9M1 9H17M4 13H14M7 17H11', { class: 'symbol' })),
  },

  'wokwi-74hc595': {
    size: [76.8, 48],
    pins: { ...row('VCC Q0 DS OE STCP SHCP MR Q7S', 4.8, 3), ...row('Q1 Q2 Q3 Q4 Q5 Q6 Q7 GND', 4.8, 45) },
    draw(g) {
      g.append(...upTo(8).map(i => path(`M${4.8 + 9.6 * i} 3V45`, { class: 'lead' })), rect(-1, 8, 78.8, 32, { rx: 2, fill: '#2b2f32', stroke: '#14171a' }), path('M-1 19.5A4.5 4.5 0 0 1 -1 28.5Z', { fill: '#121415' }), label(38.4, 27, '74HC595', { ...middle, 'font-size': 8.5, fill: '#d2d7da' }));
      for (const [name, [x, y]] of Object.entries(this.pins)) g.append(label(x, y < 20 ? 13.5 : 37.5, name, { ...middle, 'font-size': 3.4, fill: '#b9c0c4' }));
    },
    tell: (part, run, moment) => 'Q7..Q0 ' + upTo(8).map(i => { const wave = run.wave(pinOf(part, `Q${7 - i}`)); return wave ? LEVELS[levelAt(wave, moment.t)] : 'z'; }).join(''),
  },

  'wokwi-7segment': {
    size: [47.4, 72],
    pins: { ...row('G F COM.2 A B', 4.8, 3.8), ...row('E D COM C DP', 4.8, 68.2), 'COM.1': [24, 68.2] },
    draw(g, part, run) {
      const color = colorOf(part.attrs.color, COLORS.red), off = colorOf(part.attrs.offColor, '#3a3f43'), back = colorOf(part.attrs.background, '#1b1e20');
      g.append(rect(0, 0, 47.4, 72, { rx: 2.5, fill: back, stroke: '#000000', 'stroke-width': .6 }));
      const segments = Object.entries(SEGMENTS).map(([name, d]) => { const shape = path(d); g.append(shape); return [name, shape]; });
      return moment => segments.forEach(([name, shape]) => glow(shape, off, mixed(color, '#ffffff', .18), segmentShare(part, run, name, moment.since, moment.t)));
    },
    tell: (part, run, moment) => 'lit: ' + (Object.keys(SEGMENTS).filter(name => segmentShare(part, run, name, moment.since, moment.t) > .5).join(' ') || 'nothing'),
  },

  'wokwi-lcd1602': {
    size: [302.4, 136],
    pins: part => isI2c(part) ? column(LCD_PINS.i2c.join(' '), 4, 32) : places(LCD_PINS.full.join(' '), LCD_PLACES, 131),
    draw(g, part, run) {
      const blue = part.attrs.background === 'blue', glass = blue ? '#2448c8' : '#a3c63c', cell = blue ? '#1d3db3' : '#97bb34';
      const ink = colorOf(part.attrs.color, blue ? '#f4f6ff' : '#1c2a10');
      g.append(rect(0, 0, 302.4, 136, { rx: 3, fill: '#1c6b48', stroke: '#0f4a30' }), rect(19, 20, 264, 86, { rx: 4, fill: '#1f2325' }), rect(28, 31, 246, 64, { rx: 2, fill: glass }));
      for (const [x, y] of [[8, 8], [294, 8], [8, 128], [294, 128]]) g.append(circle(x, y, 4, { fill: '#d7dbd6', stroke: '#0f4a30' }));
      for (const [name, [x, y]] of Object.entries(this.pins(part))) g.append(label(x + (x < 10 ? 6 : 0), y - (x < 10 ? -2 : 7), name, { 'font-size': 4.2, fill: '#dcf1e5', 'text-anchor': x < 10 ? 'start' : 'middle' }));
      const cells = upTo(32).map(i => {
        const x = 33 + 14.9 * (i % 16), y = 36.5 + 28 * (i >> 4), letter = label(x + 6.4, y + 18.5, '', { ...middle, 'font-size': 19, class: 'mono', fill: ink });
        g.append(rect(x, y, 12.8, 25, { fill: cell }), letter);
        return letter;
      });
      return moment => {
        const states = lcdStates(run, part), lines = states[Math.max(lastBefore(states, moment.t), 0)][1].join('');
        cells.forEach((letter, i) => { if (letter.textContent !== lines[i]) letter.textContent = lines[i]; });
      };
    },
    tell: (part, run, moment) => { const states = lcdStates(run, part); return states[Math.max(lastBefore(states, moment.t), 0)][1].map(line => `|${line}|`).join('\n'); },
  },
};
for (const kind of words('not buffer and-2 or-2 nand-2 nor-2 xor-2 xnor-2')) PARTS['wokwi-gate-' + kind] = gate(kind);

// ---- The OLED and the keypad.

PARTS['board-ssd1306'] = {
  size: [150, 116],
  pins: row('GND VCC SCL SDA', 60.6, 8),
  draw(g, part, run) {
    const dots = path('', { fill: '#9fdcff' });
    g.append(rect(0, 0, 150, 116, { rx: 5, fill: '#1b3f70', stroke: '#102a4d' }), rect(7, 28, 136, 76, { rx: 2, fill: '#05070a' }), svg('g', { transform: 'translate(11 34)' }, dots));
    for (const [name, [x]] of Object.entries(this.pins)) g.append(label(x, 17, name, { ...middle, 'font-size': 3.9, fill: '#dfe9f5' }));
    let shown = null;
    return moment => {
      const now = oledAt(run, part, moment.t);
      if (now.key === shown) return;
      shown = now.key;
      dots.setAttribute('d', dotsOf(now.dots));
    };
  },
  tell(part, run, moment) {
    const { on, dots } = oledAt(run, part, moment.t);
    return on ? `on, ${upTo(8).reduce((sum, k) => sum + dots.filter(byte => byte >> k & 1).length, 0)} dots lit` : 'off';
  },
};
function dotsOf(dots) {             // the lit stretches of each row; the lowest bit of a column is its upper dot
  let d = '';
  for (let y = 0; y < 8 * PAGES; y++) {
    const lit = x => x < COLUMNS && dots[(y >> 3) * COLUMNS + x] >> (y & 7) & 1;
    for (let x = 0; x < COLUMNS; x++) {
      if (!lit(x)) continue;
      const from = x;
      while (lit(x)) x++;
      d += `M${from} ${y}h${x - from}v1h${from - x}z`;
    }
  }
  return d;
}

// With the attribute `columns` 3 the last column has no keys and no pin.
const keypad = columns => ({
  size: [columns === 4 ? 266 : 210, 338],
  pins: columns === 4 ? places('R1 R2 R3 R4 C1 C2 C3 C4', [100, 110, 119.5, 129, 138.5, 148, 157.5, 167.5], 335) : places('R1 R2 R3 R4 C1 C2 C3', [76.5, 86, 95.5, 105, 114.5, 124, 133.5], 335),
  draw(g, part, run) {
    const [width] = this.size, first = this.pins.R1[0] - 5;
    g.append(rect(0, 0, width, 270, { rx: 9, fill: '#2f3439', stroke: '#191c1e' }), rect(first, 270, 9.5 * (4 + columns) + 1, 65, { fill: '#c3c8cb' }));
    const keys = upTo(16).map(i => {
      if ((i & 3) >= columns) return rect(0, 0, 0, 0);
      const x = 14 + 61 * (i & 3), y = 14 + 62 * (i >> 2), key = rect(x, y, 54, 54, { rx: 6, stroke: '#ffffff' });
      g.append(key, label(x + 27, y + 35, '123A456B789C*0#D'[i], { ...middle, 'font-size': 22, fill: '#ffffff' }));
      return key;
    });
    return moment => keys.forEach((key, i) => {
      const on = inputAt(run, part.id, moment.t) >> i & 1;
      key.setAttribute('fill', on ? '#e08a1d' : (i & 3) === 3 ? '#b23a30' : '#3468b8');
      key.setAttribute('stroke-width', on ? 4 : 1);
    });
  },
  tell: (part, run, moment) => { const v = inputAt(run, part.id, moment.t); return 'closed: ' + ([...'123A456B789C*0#D'].filter((key, i) => v >> i & 1).join(' ') || 'none'); },
});
PARTS['wokwi-membrane-keypad'] = keypad(4);
const KEYPAD_OF_THREE = keypad(3);

const MOST_LINES = 24;              // of what a chip has printed

// ---- Custom chips, and types without an entry: a box with its pins, counted as on a chip with two rows of legs.

function boxOf(part, wires) {
  const used = wires.flatMap(([a, b]) => [a, b]).filter(end => end.startsWith(part.id + ':')).map(end => end.slice(part.id.length + 1));
  const names = part.pins || [...new Set(used)], half = Math.ceil(names.length / 2), title = part.type.replace(/^(chip|wokwi|board)-/, '');
  const longest = side => Math.max(0, ...side.map(name => name.length)), wide = 5.2 * (longest(names.slice(0, half)) + longest(names.slice(half))) + 34;
  const width = Math.max(66, wide, 7.2 * title.length + 26), height = 24 + 14.4 * Math.max(half, 1), pins = {};
  names.forEach((name, i) => { if (name) pins[name] = i < half ? [0, 28 + 14.4 * i] : [width, 28 + 14.4 * (names.length - 1 - i)]; });
  return {
    size: [width, height],
    pins,
    beyond(drawn, run) { const display = displayOf(run, drawn, width); return display ? [[-2, display.top - 2]] : []; },
    draw(g, drawn, run) {
      const display = displayOf(run, drawn, width);
      let pixels = null, shown = -1;            // what its display shows
      if (display) g.append(rect(-2, display.top - 2, display.width + 4, display.height + 4, { rx: 2, fill: '#0b0f14' }));
      g.append(rect(6, 1, width - 12, height - 2, { rx: 4, fill: '#34434f', stroke: '#141c22' }), path(`M6 19H${width - 6}`, { stroke: '#55677a', 'stroke-width': .8 }), label(width / 2, 14, title, { ...middle, 'font-size': 9.5, 'font-weight': 700, fill: '#ffffff' }));
      for (const [name, [x, y]] of Object.entries(pins)) {
        g.append(path(`M${x} ${y}h${x ? -6 : 6}`, { class: 'lead' }), label(x ? width - 10 : 10, y + 2.9, name, { 'font-size': 8, fill: '#dbe3e9', 'text-anchor': x ? 'end' : 'start' }));
      }
      const cross = label(width / 2, height - 6, 'ended', { ...middle, 'font-size': 8, fill: '#ff9d9d' }), end = endOf(run, drawn.id);
      if (end) g.append(cross);
      return moment => {
        if (end) cross.setAttribute('opacity', end.t !== null && moment.t >= end.t ? 1 : 0);
        const frame = display && frameAt(run, drawn, moment.t);
        if (!frame || frame.key === shown) return;
        shown = frame.key;
        if (pixels) pixels.remove();
        pixels = pixelsOf(frame, display);
        g.append(pixels);
      };
    },
    tell(drawn, run, moment) {
      const trap = endOf(run, drawn.id), end = trap && trap.t !== null && moment.t >= trap.t;
      const all = linesAt(run, drawn, moment.t), lines = all.length > MOST_LINES ? [`(${all.length - MOST_LINES} lines)`, ...all.slice(-MOST_LINES)] : all;
      return [end ? 'ended' : drawn.pins ? 'alive' : '', ...lines].join('\n') || null;
    },
  };
}

// Where a chip's display is drawn: above its box and its name, as wide as the box.
function displayOf(run, part, room) {
  const { display } = (run.modules || {})[part.type] || {};
  if (!display) return null;
  const [wide, high] = display, scale = Math.min(room / wide, 4);
  return { scale, width: scale * wide, height: scale * high, top: -Math.ceil(scale * high + 18) };
}

// The pixels of a chip's display: one path for each colour, a stretch of one colour at once.
function pixelsOf({ width, height, pixels }, { scale, top }) {
  const paths = new Map(), g = svg('g', { transform: `translate(0 ${top}) scale(${scale})` }), words = new DataView(pixels.buffer, pixels.byteOffset, pixels.length);
  for (let y = 0; y < height; y++) {
    for (let x = 0, to; x < width; x = to) {
      const color = words.getUint32(4 * (y * width + x));
      for (to = x + 1; to < width && words.getUint32(4 * (y * width + to)) === color;) to++;
      if (color & 255) paths.set(color, (paths.get(color) || '') + `M${x} ${y}h${to - x}v1h${x - to}z`);
    }
  }
  for (const [color, d] of paths) g.append(path(d, { fill: '#' + (color >>> 8).toString(16).padStart(6, '0'), 'fill-opacity': (color & 255) / 255 }));
  return g;
}

const entryOf = (part, wires) => shownEntry(part) || ownEntry(part, wires);
const ownEntry = (part, wires) => part.type === 'wokwi-membrane-keypad' && part.attrs.columns === '3' ? KEYPAD_OF_THREE : Object.hasOwn(PARTS, part.type) ? PARTS[part.type] : boxOf(part, wires);
const pinsOf = (entry, part) => typeof entry.pins === 'function' ? entry.pins(part) : entry.pins;
