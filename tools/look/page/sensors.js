'use strict';
// Sensors and knobs of Wokwi's editor, which a hand moves during a run: drawn as what they are, with what their controls are set to.
// Further entries of `SHOWN` (shown.js).

const controlTexts = (part, run, t) => (Object.hasOwn(run.controls, part.id) ? run.controls[part.id] : []).map(([name]) => [name, controlAt(run, part.id, name, t, true)]);
const tellControls = (part, run, { t }) => controlTexts(part, run, t).filter(([, text]) => text !== '').map(([name, text]) => `${name} ${text}`).join(', ') || null;

// An entry of a board with pins: `body` draws it, and may answer a function of the part, the run and a moment; `values` are the places
// [x, y] where the values of the first controls are written.
function sensor({ size, pins, values = [], ink = '#ffffff', body }) {
  return {
    size, pins,
    draw(g, part, run) {
      const moved = body(g, part, run), texts = values.map(([x, y]) => { const text = label(x, y, '', { ...middle, 'font-size': 10, fill: ink }); g.append(text); return text; });
      return moment => {
        const now = controlTexts(part, run, moment.t);
        texts.forEach((text, i) => setText(text, now[i] ? now[i][1] : ''));
        if (moved) moved(moment);
      };
    },
    tell: tellControls,
  };
}
const plate = (width, height, fill, edge) => rect(0, 0, width, height, { rx: 2, fill, stroke: edge });
const pinNames = (pins, x, anchor) => Object.entries(pins).map(([name, [, y]]) => label(x, y + 1.6, name, { 'font-size': 4.6, fill: '#ffffff', 'text-anchor': anchor }));

SHOWN['wokwi-dht22'] = sensor({
  size: [57, 116], pins: row('VCC SDA NC GND', 14.1, 114.5), values: [[28.5, 34], [28.5, 62]], ink: '#26292c',
  body(g) {
    g.append(path('M14.1 92V114M23.7 92V114M33.3 92V114M42.9 92V114', { class: 'lead' }), rect(1, 1, 55, 93, { rx: 5, fill: '#e9edee', stroke: '#aab1b5' }), circle(28.5, 10, 4, { fill: '#ffffff', stroke: '#aab1b5' }));
    for (const y of [42, 48, 68, 74, 80, 86]) for (const x of upTo(6)) g.append(rect(6 + 8 * x, y, 5, 2.6, { rx: 1, fill: '#b9c0c4' }));
  },
});
SHOWN['wokwi-hc-sr04'] = sensor({
  size: [170, 94.5], pins: row('VCC TRIG ECHO GND', 71.3, 94.5, 10), values: [[85, 60]],
  body(g) {
    g.append(plate(170, 85, '#1d4f9c', '#12356b'), path('M71.3 85V94M81.3 85V94M91.3 85V94M101.3 85V94', { class: 'lead' }), rect(68, 14, 34, 12, { rx: 5, fill: '#c3c8cb', stroke: '#888f94' }));
    for (const x of [36, 134]) g.append(circle(x, 43, 32, { fill: '#c3c8cb', stroke: '#888f94' }), circle(x, 43, 26, { fill: '#3d4347' }), circle(x, 43, 18, { fill: '#565d62' }), circle(x, 43, 7, { fill: '#3d4347' }));
  },
});
SHOWN['wokwi-mpu6050'] = sensor({
  size: [81.6, 61.2], pins: row('INT AD0 XCL XDA SDA SCL GND VCC', 7.3, 5.8), values: [[20, 52], [41, 52], [62, 52]],
  body(g) {
    g.append(plate(81.6, 61.2, '#22406e', '#132746'), rect(33, 24, 15, 15, { rx: 1, fill: '#23272a' }), circle(36, 27, 1, { fill: '#9aa1a6' }), rect(12, 26, 9, 5, { fill: '#b9c0c4' }), rect(60, 26, 9, 5, { fill: '#b9c0c4' }), path('M72 44H78M76 42L78 44L76 46', { class: 'lead' }));
    words('INT AD0 XCL XDA SDA SCL GND VCC').forEach((name, i) => g.append(label(7.3 + 9.6 * i, 14, name, { 'font-size': 4, ...middle, fill: '#ffffff' })));
  },
});
SHOWN['board-ds18b20'] = sensor({
  size: [40, 62], pins: row('GND DQ VCC', 10.4, 60), values: [[20, 23]],
  body(g) { g.append(path('M10.4 32V60M20 32V60M29.6 32V60', { class: 'lead' }), path('M4 34V14Q4 4 20 4Q36 4 36 14V34Z', { fill: '#2b2f32', stroke: '#0f1112' }), path('M4 28H36', { stroke: '#4d5357' })); },
});
SHOWN['wokwi-hx711'] = sensor({
  size: [112, 70], pins: column('GND DT SCK VCC', 110, 18), values: [[30, 60]], ink: '#26292c',
  body(g) {
    g.append(rect(0, 14, 58, 22, { rx: 3, fill: '#c3c8cb', stroke: '#888f94' }), circle(12, 25, 4, { fill: '#7c8388' }), circle(46, 25, 4, { fill: '#7c8388' }), path('M58 25H68', { stroke: '#b23a30', 'stroke-width': 2 }), rect(68, 6, 42, 58, { rx: 2, fill: '#1d7a4a', stroke: '#115432' }), rect(76, 24, 18, 22, { fill: '#23272a' }), label(85, 58, 'HX711', { ...middle, 'font-size': 6, fill: '#ffffff' }));
  },
});
SHOWN['wokwi-ntc-temperature-sensor'] = sensor({
  size: [135, 72], pins: column('GND VCC OUT', 133, 26.3, 9.6), values: [[84, 40]],
  body(g) { g.append(path('M36 1H134V71H36V58H26V14H36Z', { fill: '#23272a', stroke: '#0f1112' }), path('M30 31L12 31M30 41L12 41', { class: 'lead' }), circle(9, 36, 8, { fill: '#2f8a4a', stroke: '#1b5a2e' }), label(84, 58, '10K NTC', { ...middle, 'font-size': 7, fill: '#c9cdcf' })); },
});
SHOWN['wokwi-photoresistor-sensor'] = sensor({
  size: [172, 61], pins: column('VCC GND DO AO', 170, 16, 9.8), values: [[104, 50]],
  body(g, part, run) {
    g.append(rect(38, 1, 133, 59, { rx: 2, fill: '#1d4f9c', stroke: '#12356b' }), path('M38 25H26M38 37H26', { class: 'lead' }), circle(14, 31, 13, { fill: '#e8d9a8', stroke: '#a8935a' }), path('M6 25H20V31H8V37H22', { fill: 'none', stroke: '#b23a30', 'stroke-width': 1.6 }), rect(84, 14, 22, 20, { fill: '#2a5fd0', stroke: '#12356b' }), circle(95, 24, 5, { fill: '#e9edee' }), ...pinNames(column('VCC GND DO AO', 0, 16, 9.8), 162, 'end'));
    const led = circle(56, 16, 3);
    g.append(led);
    return ({ t }) => led.setAttribute('fill', inputAt(run, pieceOf(part, 'digital'), t) ? '#31574a' : '#7be38a');       // lit where DO is low
  },
});
// A board with an analog and a digital output, whose element is drawn at its left.
const twoOutputs = (width, pins, fill, edge, name, element) => sensor({
  size: [width, 62], pins: column(pins, width - 2, 16.5, 9.8), values: [[width - 52, 34]],
  body(g) { g.append(rect(30, 1, width - 31, 60, { rx: 2, fill, stroke: edge }), ...element(), label(width - 52, 52, name, { ...middle, 'font-size': 6.5, fill: '#ffffff' }), ...pinNames(column(pins, 0, 16.5, 9.8), width - 10, 'end')); },
});
SHOWN['wokwi-gas-sensor'] = twoOutputs(138, 'AOUT DOUT GND VCC', '#1d4f9c', '#12356b', 'gas', () => [circle(34, 31, 27, { fill: '#c3c8cb', stroke: '#888f94' }), circle(34, 31, 19, { fill: '#aab1b5', stroke: '#7c8388', 'stroke-dasharray': '2 2' })]);
SHOWN['wokwi-flame-sensor'] = twoOutputs(150, 'VCC GND DOUT AOUT', '#23272a', '#0f1112', 'flame', () => [path('M30 25H18M30 37H18', { class: 'lead' }), circle(12, 31, 10, { fill: '#15181a', stroke: '#4d5357' })]);
SHOWN['wokwi-big-sound-sensor'] = twoOutputs(150, 'AOUT GND VCC DOUT', '#b23a30', '#7c241d', 'sound', () => [circle(24, 31, 20, { fill: '#c3c8cb', stroke: '#888f94' }), circle(24, 31, 13, { fill: '#23272a' })]);
SHOWN['wokwi-small-sound-sensor'] = twoOutputs(138, 'DOUT VCC GND AOUT', '#b23a30', '#7c241d', 'sound', () => [circle(24, 31, 12, { fill: '#c3c8cb', stroke: '#888f94' }), circle(24, 31, 7, { fill: '#23272a' })]);
SHOWN['wokwi-heart-beat-sensor'] = sensor({
  size: [92, 80], pins: column('GND VCC OUT', 90, 30), values: [[44, 66]],
  body(g) { g.append(plate(88, 80, '#23272a', '#0f1112'), path('M44 50L26 32Q20 22 30 17Q38 15 44 24Q50 15 58 17Q68 22 62 32Z', { fill: '#e2483d' })); },
});
SHOWN['wokwi-pir-motion-sensor'] = {
  size: [90.7, 92.4], pins: row('VCC OUT GND', 30.2, 92.4, 9.8),
  draw(g, part, run) {
    const dome = circle(45.3, 42, 34, { stroke: '#b9c0c4' });
    g.append(plate(90.7, 84, '#2a7a4a', '#17492b'), path('M30.2 84V92M40 84V92M49.8 84V92', { class: 'lead' }), dome, path('M20 20L70 64M20 64L70 20M12 42H78M45.3 9V75', { stroke: '#cfd5d8', 'stroke-width': .8 }), circle(6, 6, 3, { fill: '#dfe4e6' }), circle(84.7, 6, 3, { fill: '#dfe4e6' }));
    return moment => dome.setAttribute('fill', inputAt(run, part.id, moment.t) ? '#ffd9b0' : '#f4f6f7');
  },
  tell: (part, run, { t }) => (inputAt(run, part.id, t) ? 'sees motion' : 'sees none'),
};
SHOWN['wokwi-tilt-switch'] = {
  size: [88, 56], pins: column('GND VCC OUT', 86, 18.5),
  draw(g, part, run) {
    const tube = svg('g', {}, rect(-14, -7, 28, 14, { rx: 5, fill: '#c3c8cb', stroke: '#888f94' }));
    g.append(plate(86, 56, '#1d4f9c', '#12356b'), svg('g', { transform: 'translate(32 28)' }, tube));
    return moment => tube.setAttribute('transform', `rotate(${inputAt(run, part.id, moment.t) ? 60 : 0})`);
  },
  tell: (part, run, { t }) => (inputAt(run, part.id, t) ? 'tilted' : 'upright'),
};
SHOWN['wokwi-ir-receiver'] = {
  size: [61, 88.7], pins: row('GND VCC DAT', 20, 87.7, 10),
  draw(g, part, run) {
    const light = circle(30.5, 24, 15, { stroke: '#0f1112' }), wave = () => run.wave(pinOf(part, '2'));
    g.append(path('M20 62V88M30 62V88M40 62V88', { class: 'lead' }), rect(6, 2, 49, 62, { rx: 4, fill: '#26292c', stroke: '#0f1112' }), light);
    return ({ t }) => { const it = wave(), from = Math.max(t - EYE, run.from), busy = it && findEdge(it, t) > findEdge(it, from); light.setAttribute('fill', busy ? '#a8323a' : '#3d2226'); };
  },
  tell: (part, run, { t }) => { const key = controlAt(run, part.id, 'key', t); return key ? `key ${key}` : null; },
};
const REMOTE_KEYS = words('power menu test plus back previous play next 0 minus c 1 2 3 4 5 6 7 8 9'), KEY_SIGNS = { plus: '+', back: '↩', previous: '◂◂', play: '▶', next: '▸▸', minus: '−' };
SHOWN['wokwi-ir-remote'] = {
  size: [150, 317], pins: {},
  draw(g, part, run) {
    const keys = new Map();
    g.append(rect(0, 0, 150, 317, { rx: 10, fill: '#26292c', stroke: '#0f1112' }), path('M60 4H90', { stroke: '#7c241d', 'stroke-width': 3 }));
    REMOTE_KEYS.forEach((name, i) => {        // the first row has three keys, then a lone plus, and so on as on the usual small remote
      const [line, place] = i < 3 ? [0, i] : i === 3 ? [1, 1] : i === 4 ? [1, 2] : [2 + Math.floor((i - 5) / 3), (i - 5) % 3], x = 31 + 44 * place, y = 30 + 40 * line;
      const key = circle(x, y, 15, { stroke: '#0f1112' });
      keys.set(name, key);
      g.append(key, label(x, y + 3.6, KEY_SIGNS[name] || name.toUpperCase(), { ...middle, 'font-size': name.length > 2 && !KEY_SIGNS[name] ? 7 : 11, fill: '#ffffff' }));
    });
    return ({ t }) => {
      const [, , values] = (run.controls[part.id] || []).find(([name]) => name === 'key') || [0, 0, [[0, '']]], [cycle, key] = values[Math.max(lastBefore(values, t), 0)];
      for (const [name, shape] of keys) shape.setAttribute('fill', name === key && t - cycle < 6 * EYE ? '#e8811c' : name === 'power' ? '#b23a30' : '#4d5357');
    };
  },
  tell: tellControls,
};
SHOWN['wokwi-ky-040'] = {
  size: [116.5, 70.4], pins: column('CLK DT SW VCC GND', 116, 7.9),
  draw(g, part, run) {
    const mark = path('M46 35V16', { stroke: '#26292c', 'stroke-width': 3 }), knob = circle(46, 35, 22, { stroke: '#888f94' });
    g.append(plate(116, 70.4, '#26292c', '#0f1112'), rect(18, 7, 56, 56, { rx: 4, fill: '#9aa1a6' }), knob, mark, ...pinNames(column('CLK DT SW VCC GND', 0, 7.9), 108, 'end'));
    return ({ t }) => { mark.setAttribute('transform', `rotate(${18 * turnsAt(part, run, t)} 46 35)`); knob.setAttribute('fill', inputAt(run, pieceOf(part, 'sw'), t) ? '#8b9196' : '#d9dde0'); };
  },
  tell: (part, run, { t }) => `${turnsAt(part, run, t)} steps${inputAt(run, pieceOf(part, 'sw'), t) ? ', pressed' : ''}`,
};
// How many steps the shaft has gone to the right: each rise of CLK is one, by what DT is then.
function turnsAt(part, run, t) {
  const list = run.inputs[pieceOf(part, 'clk')] || [], dt = pieceOf(part, 'dt');
  let steps = 0;
  for (let i = 1; i < list.length && list[i][0] <= t; i++) if (list[i - 1][1] === 0 && list[i][1] === 1) steps += inputAt(run, dt, list[i][0]) ? -1 : 1;
  return steps;
}
SHOWN['wokwi-analog-joystick'] = {
  size: [102.8, 120], pins: row('VCC VERT HORZ SEL GND', 33, 115.8),
  draw(g, part, run) {
    const stick = circle(51, 50, 22, { stroke: '#0f1112' });
    g.append(plate(102.8, 120, '#23272a', '#0f1112'), circle(51, 50, 42, { fill: '#3d4347', stroke: '#0f1112' }), stick);
    return ({ t }) => {
      const [x, y] = ['x', 'y'].map(side => inputAt(run, pieceOf(part, side), t) / 511.5 - 1);
      stick.setAttribute('transform', `translate(${(-16 * x).toFixed(1)} ${(-16 * y).toFixed(1)})`);
      stick.setAttribute('fill', inputAt(run, pieceOf(part, 'sel'), t) ? '#e8811c' : '#6d7378');
    };
  },
  tell(part, run, { t }) { const at = ['x', 'y'].map(side => (inputAt(run, pieceOf(part, side), t) / 511.5 - 1).toFixed(2).replace('-0.00', '0.00')); return `to the left ${at[0]}, up ${at[1]}${inputAt(run, pieceOf(part, 'sel'), t) ? ', pressed' : ''}`; },
};
