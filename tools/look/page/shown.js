'use strict';
// Parts of Wokwi's editor that are a chip here, or several parts (tools/wokwi/types.json), drawn as what they are: from the pixels of the
// chip's display, or from the levels of the parts. One entry for each type of the editor, or a function of the part that answers one;
// `PARTS` (parts.js) says what an entry has.

const SHOWN = {};
const pixelAt = (frame, x, y = 0) => frame.pixels.subarray(4 * (y * frame.width + x), 4 * (y * frame.width + x) + 4);
const signed24 = ([low, mid, high]) => (low | mid << 8 | high << 16) << 8 >> 8;

// An entry whose `show` is called with each new frame.
function byChip({ size, pins, note, make, show, tell }) {
  return {
    size, pins, note,
    draw(g, part, run) {
      const made = make(g, part, this);
      let last = null;
      return moment => { const frame = frameAt(run, part, moment.t); if (frame && frame.key !== last) { last = frame.key; show(made, frame, part); } };
    },
    tell: (part, run, moment) => { const frame = frameAt(run, part, moment.t); return frame && tell ? tell(frame, part) : null; },
  };
}

SHOWN['wokwi-servo'] = byChip({
  size: [170, 120], pins: column('GND V+ PWM', 0, 50),
  make(g, part) {
    const horn = part.attrs.horn || 'single', color = colorOf(part.attrs.hornColor, '#cccccc');
    const arm = 'M-5 0L-3.5 -38A3.5 3.5 0 0 1 3.5 -38L5 0A5 5 0 0 1 -5 0Z', turn = svg('g', {}, ...(horn === 'cross' ? [0, 90, 180, 270] : horn === 'double' ? [0, 180] : [0]).map(angle => path(arm, { fill: color, stroke: '#6d7378', 'stroke-width': .8, transform: `rotate(${angle})` })), circle(0, 0, 7, { fill: color, stroke: '#6d7378', 'stroke-width': .8 }), circle(0, 0, 2.4, { fill: '#6d7378' }));
    g.append(path('M0 50H24M0 59.5H24M0 69H24', { stroke: '#b5651d', 'stroke-width': 3 }), rect(24, 40, 132, 60, { rx: 4, fill: '#3b4147', stroke: '#1d2124' }), rect(40, 32, 100, 76, { rx: 3, fill: '#4d555c', stroke: '#1d2124' }), circle(114, 70, 26, { fill: '#596269', stroke: '#30363b' }), svg('g', { transform: 'translate(114 70)' }, turn));
    const text = label(66, 73, '', { ...middle, 'font-size': 13, fill: '#ffffff' });
    g.append(text);
    return { turn, text };
  },
  show({ turn, text }, frame) { const [angle] = pixelAt(frame, 0); turn.setAttribute('transform', `rotate(${angle - 90})`); text.textContent = `${angle}°`; },
  tell: frame => { const [angle, low, high] = pixelAt(frame, 0); return `${angle}°, pulse ${low + 256 * high} us`; },
});

// ---- The Nano: the Uno's microcontroller on a board of its own, with the holes of its header for programming at the right

const NANO_PINS = {
  ...row('12 11 10 9 8 7 6 5 4 3 2 GND.2 RESET.2 0 1', 19.7, 4.8), ...row('13 3.3V AREF A0 A1 A2 A3 A4 A5', 19.7, 62.4), ...row('5V RESET GND.1 VIN', 125.3, 62.4),
  'GND.3': [154.1, 24], 'RESET.3': [163.7, 24], '11.2': [154.1, 33.6], '13.2': [163.7, 33.6], '5V.2': [154.1, 43.2], '12.2': [163.7, 43.2],
};
const NANO_TEXT = { 0: 'RX0', 1: 'TX1', 'GND.1': 'GND', 'GND.2': 'GND', RESET: 'RST', 'RESET.2': 'RST', AREF: 'REF', '3.3V': '3V3' };
SHOWN['wokwi-arduino-nano'] = {
  size: [169.7, 67.3], named: false, pins: NANO_PINS,
  draw(g, part, run) {
    const metal = { fill: '#c3c8cb', stroke: '#888f94' }, black = { fill: '#23272a', stroke: '#101314' }, silk = { fill: '#dff1f2', 'font-size': 4.1, ...middle };
    g.append(rect(5, 0, 164.2, 67.2, { rx: 2, fill: '#12697a', stroke: '#0b4450' }), rect(0, 20, 24, 27, { ...metal, rx: 1.5 }), path('M0 26H19M0 41H19', { stroke: '#9aa1a5', fill: 'none' }));
    g.append(rect(64.5, 20.1, 27, 27, { ...black, rx: 1, transform: 'rotate(45 78 33.6)' }), label(78, 32.6, 'ATmega', { ...middle, 'font-size': 5.4, fill: '#aab1b5' }), label(78, 38.6, '328P', { ...middle, 'font-size': 5.4, fill: '#aab1b5' }));
    g.append(label(40, 36, 'NANO', { ...middle, 'font-size': 7.5, 'font-weight': 700, fill: '#e9f6f7', transform: 'rotate(-90 40 33.6)' }), rect(108, 28, 11, 11, { rx: 1.5, ...metal }), circle(113.5, 33.5, 3.4, { fill: '#f1f2f1', stroke: '#8a9094' }));
    for (const [name, [x, y]] of [...Object.entries(NANO_PINS), ['A6', [106.1, 62.4]], ['A7', [115.7, 62.4]]]) {
      g.append(circle(x, y, 3.4, { fill: '#d8b64f' }), circle(x, y, 1.9, { fill: '#1d2124' }));
      const text = NANO_TEXT[name] || (/^\d+$/.test(name) ? 'D' + name : name);
      if (y < 10 || y > 60) g.append(label(x, y < 10 ? 13 : 57.2, text, silk));
    }
    const lamps = ['TX', 'RX', 'ON', 'L'].map((name, i) => { const y = 22.6 + 7.4 * i, lamp = rect(127, y, 5, 3, { rx: .6, fill: name === 'ON' ? '#7be38a' : '#7b6a44' }); g.append(lamp, label(139, y + 3.2, name, { ...silk, 'font-size': 4.8 })); return lamp; });
    const shine = circle(129.5, 46.3, 6, { fill: '#ffc24d' });
    g.insertBefore(shine, lamps[3]);
    return moment => {
      const share = lightShare(run, pinOf(part, '13'), pinOf(part, 'GND.1'), moment.since, moment.t);
      glow(lamps[3], '#7b6a44', '#ffd884', share);
      shine.setAttribute('opacity', .55 * seen(share));
    };
  },
};

// ---- Pixels

const rgbText = ([r, g, b]) => colorText([r, g, b].map(n => 255 * seen(n / 255)));
const litCount = frame => { let n = 0; for (let i = 0; i < frame.pixels.length; i += 4) n += frame.pixels[i] || frame.pixels[i + 1] || frame.pixels[i + 2] ? 1 : 0; return `${n} of ${frame.width * frame.height} pixels lit`; };
const showPixels = (dots, frame) => dots.forEach((dot, i) => { const now = rgbText(frame.pixels.subarray(4 * i, 4 * i + 3)), shown = now === '#000000' ? dot.dark : now; if (dot.shown !== shown) { dot.shown = shown; dot.element.setAttribute('fill', shown); } });
const lamp = (element, dark) => ({ element, dark, shown: null });
const few = (text, other, most) => clamp(Number.parseInt(text ?? other, 10) || 0, 1, most);

SHOWN['wokwi-neopixel'] = byChip({
  size: [21.8, 19.5], pins: { VDD: [1, 4.5], DOUT: [1, 14.6], VSS: [20.8, 14.6], DIN: [20.8, 4.5] },
  make(g) { const dot = circle(10.9, 9.75, 6); g.append(rect(2, 0, 17.8, 19.5, { rx: 1.5, fill: '#f2f2ee', stroke: '#a8aaa5' }), dot); return [lamp(dot, '#d9d9d2')]; },
  show: showPixels, tell: litCount,
});
SHOWN['wokwi-led-ring'] = part => {
  const count = few(part.attrs.pixels, '16', 1024), around = count * 18 / (2 * Math.PI), r = Math.max(around, 28) + 12, c = r;
  return byChip({
    size: [2 * r, 2 * r + 12], pins: row('GND VCC DIN DOUT', r - 14.4, 2 * r + 10),
    make(g) {
      g.append(circle(c, c, r, { fill: '#24282b', stroke: '#0f1112' }), circle(c, c, Math.max(r - 24, 6), { fill: 'var(--look-back, #ffffff)', stroke: '#0f1112' }), rect(r - 20, 2 * r - 8, 40, 20, { rx: 2, fill: '#24282b' }));
      return upTo(count).map(i => { const a = 2 * Math.PI * i / count, dot = circle(c + (r - 12) * Math.sin(a), c - (r - 12) * Math.cos(a), 6.5); g.append(dot); return lamp(dot, '#4a4f53'); });
    },
    show: showPixels, tell: litCount,
  });
};
// A matrix whose rows go to and fro is put in order by its chip; within a chain, which is a strip, here.
const pixelGrid = (part, columns, rows, step, round) => byChip({
  size: [columns * step + 8, rows * step + 22], pins: row('GND VCC DIN DOUT', 8, rows * step + 19),
  make(g) {
    g.append(rect(0, 0, columns * step + 8, rows * step + 22, { rx: 3, fill: '#24282b', stroke: '#0f1112' }));
    const isTurned = i => part.slice && part.attrs.layout === 'serpentine' && Math.floor(i / columns) % 2 === 1;
    return upTo(columns * rows).map(i => { const at = i % columns, x = 4 + step * (isTurned(i) ? columns - 1 - at : at), y = 4 + step * Math.floor(i / columns), dot = round ? circle(x + step / 2, y + step / 2, .38 * step) : rect(x + .5, y + .5, step - 1, step - 1); g.append(dot); return lamp(dot, '#3f4448'); });
  },
  show: showPixels, tell: litCount,
});
SHOWN['wokwi-neopixel-matrix'] = part => { const c = few(part.attrs.cols, '8', 256), r = few(part.attrs.rows, '8', 256); return pixelGrid(part, c, r, c * r > 256 ? 10 : 18, true); };
SHOWN['wokwi-neopixel-canvas'] = part => { const c = few(part.attrs.cols, '16', 256), r = few(part.attrs.rows, '16', 256); return pixelGrid(part, c, r, 10, false); };

SHOWN['wokwi-max7219-matrix'] = part => {
  const chain = few(part.attrs.chain, '1', 32), width = 77 * chain;
  return byChip({
    size: [width, 105], pins: { ...column('V+ GND DIN CS CLK', 0, 34), ...Object.fromEntries(words('V+.2 GND.2 DOUT CS.2 CLK.2').map((name, i) => [name, [width, 34 + 9.5 * i]])) },
    make(g) {
      const color = colorOf(part.attrs.color, COLORS.red);
      g.append(rect(0, 0, width, 105, { rx: 2, fill: '#1b3f70', stroke: '#102a4d' }));
      for (const k of upTo(chain)) g.append(rect(77 * k + 2, 14, 73, 77, { rx: 2, fill: '#1a1c1e' }));
      return upTo(64 * chain).map(i => { const x = i % (8 * chain), y = Math.floor(i / (8 * chain)), dot = circle(77 * (x >> 3) + 8 + 8.7 * (x & 7), 22 + 8.7 * y, 3.5); g.append(dot); return Object.assign(lamp(dot, '#40454a'), { color }); });
    },
    show(dots, frame) { dots.forEach((dot, i) => { const level = frame.pixels[4 * i], now = level ? mixed('#40454a', dot.color, .45 + .55 * level / 255) : dot.dark; if (now !== dot.shown) { dot.shown = now; dot.element.setAttribute('fill', now); } }); },
    tell: litCount,
  });
};

SHOWN['wokwi-tm1637-7segment'] = byChip({
  size: [171, 78], pins: column('CLK DIO VCC GND', 0, 24),
  make(g, part) {
    const shapes = [];
    g.append(rect(0, 0, 171, 78, { rx: 3, fill: '#1c5c8a', stroke: '#113a57' }), rect(14, 10, 150, 58, { fill: '#15181a' }));
    for (const digit of upTo(4)) {
      const at = svg('g', { transform: `translate(${17 + 33 * digit + (digit > 1 ? 12 : 0)} ${3.5})` });
      for (const name of words('A B C D E F G')) { const shape = path(SEGMENTS[name]); at.append(shape); shapes.push([digit, 'ABCDEFG'.indexOf(name), shape]); }
      g.append(at);
    }
    for (const y of [30, 48]) { const dot = circle(91, y, 2.6); g.append(dot); shapes.push([1, 7, dot]); }
    return shapes.map(it => [...it, colorOf(part.attrs.color, COLORS.red)]);
  },
  show(shapes, frame) { for (const [digit, bit, shape, color] of shapes) { const [cells, bright] = pixelAt(frame, digit); glow(shape, '#33383c', color, bright && cells >> bit & 1 ? .3 + .0875 * bright : 0); } },
  tell(frame) {
    const letters = new Map([...'0123456789'].map((c, i) => [[0x3f, 0x06, 0x5b, 0x4f, 0x66, 0x6d, 0x7d, 0x07, 0x7f, 0x6f][i], c]).concat([[0, ' '], [0x40, '-']]));
    const text = upTo(4).map(k => letters.get(pixelAt(frame, k)[0] & 127) ?? '?');
    return pixelAt(frame, 0)[1] ? `|${text.slice(0, 2).join('')}${pixelAt(frame, 1)[0] & 128 ? ':' : ' '}${text.slice(2).join('')}|` : 'off';
  },
});

// ---- Motors

SHOWN['wokwi-stepper-motor'] = byChip({
  size: [164, 190], pins: row('A- A+ B+ B-', 67.6, 188),
  make(g, part) {
    const turn = svg('g', {}, circle(0, 0, 27, { fill: '#d9dde0', stroke: '#8b9196' }), path('M-6 -26.3A27 27 0 0 1 6 -26.3L6 -14H-6Z', { fill: '#9aa1a6' }), path('M0 -25L5 -14H-5Z', { fill: colorOf(part.attrs.arrow || 'orange', '#f08a1d') }));
    const text = label(82, 82, '', { ...middle, 'font-size': 15, fill: '#26292b' });
    g.append(rect(6, 2, 152, 152, { rx: 18, fill: '#4d555c', stroke: '#24282b' }), circle(82, 78, 60, { fill: '#aab1b6', stroke: '#7c8388' }), svg('g', { transform: 'translate(82 78) scale(1.7)' }, turn), circle(82, 78, 22, { fill: '#eef0f1', stroke: '#8b9196' }), text, rect(58, 154, 48, 20, { fill: '#e9e9e4', stroke: '#9b9b95' }), path('M67.6 174V188M77.2 174V188M86.8 174V188M96.4 174V188', { class: 'lead' }));
    return { turn, text };
  },
  show({ turn, text }, frame, part) {
    const [up, down] = (part.attrs.gearRatio || '1:1').split(':').map(Number), ratio = up > 0 && down > 0 ? down / up : 1, half = signed24(pixelAt(frame, 0)), angle = half * .9 * ratio;
    turn.setAttribute('transform', `rotate(${angle})`);
    text.textContent = part.attrs.display === 'none' ? '' : part.attrs.display === 'angle' ? `${Math.round(((angle % 360) + 360) % 360)}°` : String(half / 2);
  },
  tell: frame => { const half = signed24(pixelAt(frame, 0)); return `${half / 2} steps, ${(half * .9).toFixed(1)}°`; },
});
SHOWN['wokwi-a4988'] = {
  size: [58, 76], pins: { ...column('ENABLE MS1 MS2 MS3 RESET SLEEP STEP DIR', 4, 5, 9.4), ...column('VMOT GND.2 2B 2A 1A 1B VDD GND', 54, 5, 9.4) },
  draw(g) {
    g.append(rect(0, 0, 58, 76, { rx: 2, fill: '#b23a30', stroke: '#7c241d' }), rect(21, 26, 17, 17, { fill: '#23272a' }), circle(29.5, 60, 5, { fill: '#c3c8cb' }));
    for (const [name, [x, y]] of Object.entries(this.pins)) g.append(label(x < 20 ? x + 4 : x - 4, y + 1.4, name.replace(/\..*/, ''), { 'font-size': 4, fill: '#ffffff', 'text-anchor': x < 20 ? 'start' : 'end' }));
  },
};

SHOWN['wokwi-led-matrix'] = byChip({
  size: [105, 105], pins: { ...row('R1 R2 R3 R4 R5 R6 R7 R8', 18, 103), ...row('C1 C2 C3 C4 C5 C6 C7 C8', 18, 2) },
  make(g, part) {
    const color = colorOf(part.attrs.color, COLORS.red);
    g.append(rect(2, 5, 101, 95, { rx: 2, fill: '#1a1c1e', stroke: '#0f1112' }));
    return upTo(64).map(i => { const dot = circle(13 + 11.3 * (i & 7), 13 + 11.3 * (i >> 3), 4.4); g.append(dot); return Object.assign(lamp(dot, '#40454a'), { color }); });
  },
  show(dots, frame) { dots.forEach((dot, i) => glow(dot.element, dot.dark, dot.color, Math.min(8 * frame.pixels[4 * i] / 255, 1))); },     // one row in eight at a time is all that a matrix can
  tell: litCount,
});
SHOWN['wokwi-nlsf595'] = {
  size: [92, 34], pins: { ...row('QB QC QD QE QF QG QH GND', 12.4, 32), ...row('VCC QA SI OE RCK SCK RST SQH', 12.4, 2) },
  draw(g) { g.append(path(`M12.4 2V32${upTo(7).map(i => `M${22 + 9.6 * i} 2V32`).join('')}`, { class: 'lead' }), rect(4, 6, 84, 22, { rx: 1.5, fill: '#2b2f32', stroke: '#0f1112' }), label(46, 20, 'NLSF595', { ...middle, 'font-size': 8, fill: '#c9cdcf' })); },
};

// A colour display: the picture of its chip, as the upright module has it.
const colourDisplay = pins => byChip({
  size: [190, 292], pins: row(pins, 40, 290, 10.5),
  make(g) { g.append(rect(0, 0, 190, 280, { rx: 5, fill: '#23272a', stroke: '#0f1112' }), path(`M40 280V290${upTo(pins.split(' ').length - 1).map(i => `M${50.5 + 10.5 * i} 280V290`).join('')}`, { class: 'lead' }), rect(4, 8, 182, 242, { fill: '#0b0d0e' })); return { g, pixels: null }; },
  show(made, frame) {
    if (made.pixels) made.pixels.remove();
    made.pixels = pixelsOf(frame, { scale: .75, top: 9 });
    made.pixels.setAttribute('transform', 'translate(5 9) scale(.75)');
    made.g.append(made.pixels);
  },
  tell: frame => { const colors = new Map(), words = new DataView(frame.pixels.buffer, frame.pixels.byteOffset, frame.pixels.length); for (let i = 0; i < frame.pixels.length; i += 4) { const color = words.getUint32(i) >>> 8; colors.set(color, (colors.get(color) || 0) + 1); } return [...colors].sort((one, other) => other[1] - one[1]).slice(0, 4).map(([color, count]) => `${percent(count / frame.width / frame.height)} #${color.toString(16).padStart(6, '0')}`).join(', '); },
});
SHOWN['wokwi-ili9341'] = colourDisplay('VCC GND CS RST D/C MOSI SCK LED MISO');
SHOWN['board-ili9341-cap-touch'] = colourDisplay('VCC GND CS RST D/C MOSI SCK LED MISO SCL SDA INT');

// ---- The text display, with the characters that a sketch makes

const HD44780 = new Map([[0x5C, '¥'], [0x7E, '→'], [0x7F, '←'], [0xA5, '·'], [0xDF, '°'], [0xE4, 'µ'], [0xE8, '√'], [0xF4, 'Ω'], [0xF7, 'π'], [0xFD, '÷'], [0xFF, '█']]);
const lcdLetter = code => (HD44780.get(code) ?? (code >= 0x20 && code < 0x7F ? String.fromCharCode(code) : code >= 0xA1 && code < 0xE0 ? String.fromCharCode(0xFF61 + code - 0xA1) : ' '));
const textDisplay = (columns, lines) => part => {
  const i2c = part.attrs.pins === 'i2c' || part.attrs.i2cAddress !== undefined, width = 38 + 14.9 * columns + 26, height = 80 + 28 * lines;
  const blue = part.attrs.background === 'blue', glass = blue ? '#2448c8' : '#a3c63c', cell = blue ? '#1d3db3' : '#97bb34', ink = colorOf(part.attrs.color, blue ? '#f4f6ff' : '#1c2a10');
  return byChip({
    size: [width, height], pins: i2c ? column(LCD_PINS.i2c.join(' '), 4, 32) : places(LCD_PINS.full.join(' '), LCD_PLACES, height - 5),
    make(g) {
      g.append(rect(0, 0, width, height, { rx: 3, fill: '#1c6b48', stroke: '#0f4a30' }), rect(19, 20, width - 38, height - 50, { rx: 4, fill: '#1f2325' }));
      const pane = rect(28, 31, width - 56, height - 72, { rx: 2, fill: glass });
      g.append(pane);
      return { pane, cells: upTo(columns * lines).map(i => {
        const x = 33 + 14.9 * (i % columns), y = 36.5 + 28 * Math.floor(i / columns), letter = label(x + 6.4, y + 18.5, '', { ...middle, 'font-size': 19, class: 'mono', fill: ink }), dots = path('', { fill: ink, transform: `translate(${x + .9} ${y + 1.5}) scale(2.2 2.75)` });
        const back = rect(x, y, 12.8, 25, { fill: cell });
        g.append(back, letter, dots);
        return { letter, dots, back, shown: '' };
      }) };
    },
    show({ pane, cells }, frame) {
      const own = frame.pixels.subarray(4 * columns * lines), lit = frame.pixels[1] & 4;
      pane.setAttribute('opacity', lit ? 1 : .55);
      cells.forEach((it, i) => {
        const [code, flags] = frame.pixels.subarray(4 * i), made = code < 16 ? [...own.subarray(8 * (code & 7), 8 * (code & 7) + 8)] : null, key = `${code} ${flags} ${made || ''}`;
        if (key === it.shown) return;
        it.shown = key;
        it.letter.textContent = made ? '' : lcdLetter(code);
        let d = made ? made.map((bits, y) => upTo(5).map(x => (bits >> (4 - x) & 1 ? `M${x} ${y}h1v1h-1z` : '')).join('')).join('') : '';
        if (flags & 1) d += 'M0 7.4h5v.6h-5z';
        it.dots.setAttribute('d', d);
        it.back.setAttribute('fill', flags & 2 ? ink : cell);
        it.back.setAttribute('opacity', flags & 2 ? .5 : lit ? 1 : .55);
      });
    },
    tell: frame => upTo(lines).map(y => `|${upTo(columns).map(x => { const code = frame.pixels[4 * (y * columns + x)]; return code < 16 ? '□' : lcdLetter(code); }).join('')}|`).join('\n'),
  });
};
SHOWN['wokwi-lcd2004'] = textDisplay(20, 4);
SHOWN['wokwi-lcd1602'] = textDisplay(16, 2);

// ---- Parts that are several here: the board has LEDs and digits, whose ids begin with that of the part

const pieceOf = (part, ending) => `${part.id}-${ending}`;
const pieceShare = (part, run, ending, { since, t }) => lightShare(run, `${pieceOf(part, ending)}.A`, `${pieceOf(part, ending)}.C`, since, t);

SHOWN['wokwi-rgb-led'] = {
  size: [45, 60], pins: { R: [8.5, 44], COM: [18, 54], G: [26.4, 44], B: [35.7, 44] },
  draw(g, part, run) {
    const far = circle(22.5, 17, 20), body = path('M12 28V15A10.5 10.5 0 0 1 33 15V28Z', { stroke: '#8d9296', 'stroke-width': .8 });
    g.append(far, path('M15 30L8.5 36V44M20 30L18 36V54M25 30L26.4 36V44M30 30L35.7 36V44', { class: 'lead' }), body, rect(10, 27, 25, 4.6, { rx: 1.2, fill: '#c9cdcf', stroke: '#8d9296', 'stroke-width': .7 }), path('M16 23V15A6 6 0 0 1 20 9.5', { fill: 'none', stroke: '#ffffff', 'stroke-width': 1.6, 'stroke-linecap': 'round', opacity: .6 }));
    return moment => {
      const shares = ['r', 'g', 'b'].map(ending => pieceShare(part, run, ending, moment)), most = seen(Math.max(...shares)), light = most ? colorText(shares.map(share => 255 * seen(share) / most)) : '#e3e6e7';
      body.setAttribute('fill', mixed('#d9dddf', light, most));
      far.setAttribute('fill', light);
      far.setAttribute('opacity', .35 * most);
    };
  },
};

SHOWN['wokwi-led-bar-graph'] = {
  size: [104, 42], pins: { ...row(upTo(10).map(i => `A${i + 1}`).join(' '), 8.8, 40), ...row(upTo(10).map(i => `C${i + 1}`).join(' '), 8.8, 2) },
  draw(g, part, run) {
    const named = part.attrs.color || 'red', colors = named === 'GYR' ? words('lime lime lime lime lime yellow yellow yellow red red') : named === 'BCYR' ? words('blue cyan cyan cyan lime lime yellow yellow red red') : upTo(10).map(() => named);
    g.append(rect(0, 6, 104, 30, { rx: 2, fill: '#2b2f32', stroke: '#14171a' }));
    const bars = upTo(10).map(i => { const bar = rect(5.3 + 9.6 * i, 10, 7, 22, { rx: .8 }); g.append(bar); return [bar, colorOf(colors[i], COLORS.red)]; });
    return moment => bars.forEach(([bar, color], i) => glow(bar, '#565c60', color, pieceShare(part, run, String(i + 1), moment)));
  },
  tell: (part, run, moment) => 'lit: ' + (upTo(10).filter(i => pieceShare(part, run, String(i + 1), moment) > .5).map(i => i + 1).join(' ') || 'none'),
};

SHOWN['wokwi-7segment'] = part => {
  const digits = few(part.attrs.digits, '1', 4), hasColon = part.attrs.colon === '1', width = 47.4 * digits;
  return {
    size: [width, 72], pins: { ...row('A B C D E F G DP'.split(' ').slice(0, digits > 2 ? 8 : 4).join(' '), 4.8, 68.2), ...(digits > 2 ? {} : row('E F G DP', 43.2, 68.2)), ...row(upTo(digits).map(i => `DIG${i + 1}`).join(' '), 4.8, 3.8), ...(hasColon ? { CLN: [4.8 + 9.6 * digits, 3.8] } : {}) },
    draw(g, drawn, run) {
      const color = colorOf(part.attrs.color, COLORS.red), off = colorOf(part.attrs.offColor, '#3a3f43'), bright = mixed(color, '#ffffff', .18), isCathode = part.attrs.common === 'cathode';
      g.append(rect(0, 0, width, 72, { rx: 2.5, fill: colorOf(part.attrs.background, '#1b1e20'), stroke: '#000000', 'stroke-width': .6 }));
      const shapes = upTo(digits).flatMap(i => Object.entries(SEGMENTS).map(([name, d]) => { const shape = path(d, { transform: `translate(${47.4 * i} 0)` }); g.append(shape); return [{ id: pieceOf(part, String(i + 1)), attrs: part.attrs }, name, shape]; }));
      const dots = hasColon ? [28, 45].map(y => { const dot = circle(47.4 * Math.ceil(digits / 2), y, 2.4); g.append(dot); return dot; }) : [], colon = pinOf(part, 'CLN');
      return moment => {
        for (const [piece, name, shape] of shapes) glow(shape, off, bright, segmentShare(piece, run, name, moment.since, moment.t));
        const wave = dots.length ? run.wave(colon) : null, high = wave ? (moment.t > moment.since ? highShare(wave, moment.since, moment.t) : +(levelAt(wave, moment.t) === 1)) : 0;
        for (const dot of dots) glow(dot, off, bright, wave ? (isCathode ? high : 1 - high) : 0);
      };
    },
  };
};

SHOWN['wokwi-buzzer'] = {
  size: [64, 76], pins: { 1: [27, 84], 2: [37, 84], C: [27, 84], A: [37, 84] },
  draw(g, part, run) {
    const waves = upTo(3).map(i => path(`M${54 + 5 * i} ${24 - 3 * i}Q${60 + 6 * i} 34 ${54 + 5 * i} ${44 + 3 * i}`, { fill: 'none', stroke: '#d98a1b', 'stroke-width': 2.4, 'stroke-linecap': 'round' }));
    g.append(path('M27 60V84M37 60V84', { class: 'lead' }), circle(32, 34, 31, { fill: '#26292c', stroke: '#0f1112' }), circle(32, 34, 24, { fill: '#34383b' }), circle(32, 34, 9, { fill: '#0f1112' }), circle(32, 34, 3.4, { fill: '#4d5357' }), ...waves);
    return moment => { const hertz = toneOf(part, run, moment); for (const wave of waves) wave.setAttribute('opacity', hertz ? 1 : 0); };
  },
  tell(part, run, moment) { const hertz = toneOf(part, run, moment); return hertz ? `${hertz} Hz` : 'silent'; },
};
// What a buzzer sounds at a moment: the changes of its pins in the 20 ms before it, as a frequency; 0 where there are none.
function toneOf(part, run, { t }) {
  const wave = run.wave(pinOf(part, 'A')), other = run.wave(pinOf(part, 'C')), from = Math.max(t - EYE, run.from);
  const count = Math.max(...[wave, other].map(it => (it ? findEdge(it, t) - findEdge(it, from) : 0)));
  return count > 1 ? Math.round(count / 2 / ((t - from) / 16e6)) : 0;
}

function shownEntry(part) {
  const kind = part.as || (part.shown ? part.type : '');
  if (!Object.hasOwn(SHOWN, kind)) return null;
  part.entry ||= typeof SHOWN[kind] === 'function' ? SHOWN[kind](part) : SHOWN[kind];
  return part.entry;
}
