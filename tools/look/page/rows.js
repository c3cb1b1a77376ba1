'use strict';
// The rows of the wave pane: which there are at first, and how they are grouped.

// One name for each wave that is not constant, in the order of declaration.
function movedNames(run) {
  const known = new Set();
  return run.names.filter(name => {
    const index = run.waveOf.get(name);
    if (isOwnDrive(name) || known.has(index) || run.waves[index].t.length < 2) return false;
    known.add(index);
    return true;
  });
}

// The other names of a wave, and its row's text.
const sameWave = (run, name) => run.sharing[run.waveOf.get(name)].filter(other => other !== name);

// Decoders that a run suggests: {kind, pins, ..}. `pins` are the data line first.
function suggestedDecoders(run) {
  const found = [], known = new Set(), moved = name => run.waveOf.has(name) && run.wave(name).t.length > 1;
  const add = decoder => {
    const key = decoder.kind + decoder.pins.map(pin => run.waveOf.get(pin)).join();
    if (!known.has(key)) { known.add(key); found.push(decoder); }
  };
  const uno = run.parts.find(part => part.type === 'wokwi-arduino-uno'), at = pin => pinOf(uno, pin);
  if (!uno) return found;
  const times = (run.serial.times || []).filter(t => t !== null), name = run.serial.formats[0] || USUAL_FORMAT, format = name === USUAL_FORMAT ? {} : { format: name };
  const bit = times.length && moved(at('1')) ? bitTimeOf(run.wave(at('1')), times, formatOf(name).length) : null;
  if (bit) {
    add({ kind: 'uart', pins: [at('1')], bit, ...format });
    if (moved(at('0')) && uartFrames(beginning(run.wave(at('0'))), bit, run.to, name).length) add({ kind: 'uart', pins: [at('0')], bit, ...format });
  }
  if (moved(at('A5')) && moved(at('A4')) && i2cFrames(beginning(run.wave(at('A5'))), beginning(run.wave(at('A4')))).some(frame => frame.kind === 'address')) add({ kind: 'i2c', pins: [at('A4'), at('A5')] });
  for (const part of run.parts) {
    if (part.type === 'wokwi-74hc595' && moved(pinOf(part, 'SHCP')) && moved(pinOf(part, 'DS'))) add({ kind: 'spi', pins: [pinOf(part, 'DS'), pinOf(part, 'SHCP')] });
  }
  if (moved(at('13')) && looksLikeBytes(run.wave(at('13')))) for (const pin of ['11', '12']) if (moved(at(pin))) add({ kind: 'spi', pins: [at(pin), at('13')] });
  return found;
}

// The first changes of a wave, which are enough to see what is on it.
const beginning = ({ t, v, high }, count = 6000) => ({ t: t.slice(0, count), v: v.slice(0, count), high: high.slice(0, count) });

// Whether a clock rises in groups of eight.
function looksLikeBytes(clock) {
  const rises = [], { t, v } = beginning(clock);
  for (let i = 1; i < t.length; i++) if (v[i] === 1 && v[i - 1] === 0) rises.push(t[i]);
  if (rises.length < 8 || (t.length === clock.t.length && rises.length % 8)) return false;
  for (let k = 0; k + 8 <= Math.min(rises.length, 800); k += 8) {
    const gaps = upTo(7).map(i => rises[k + i + 1] - rises[k + i]);
    if (Math.max(...gaps) > 4 * Math.min(...gaps)) return false;
  }
  return true;
}

// Whether the frames of a decoder are known, or can be found at once.
const hasFrames = (run, decoder) => run.cache.has(JSON.stringify(decoder)) || decoder.pins.every(pin => (run.wave(pin) || ALWAYS_LOW).t.length < 100000);

function framesOf(run, decoder) {
  const key = JSON.stringify(decoder), [data, clock, select] = decoder.pins.map(pin => run.wave(pin) || ALWAYS_LOW);
  return run.once(key, () => {
    if (decoder.kind === 'uart') return uartFrames(data, decoder.bit, run.to, decoder.format);
    if (decoder.kind === 'i2c') return i2cFrames(clock, data);
    return spiFrames(clock, data, { sampleFall: decoder.sampleFall === true, select: decoder.pins[2] ? select : null });
  });
}

function decoderTitle(run, decoder) {
  if (decoder.kind === 'uart') return `UART ${grouped(Math.round(16e6 / decoder.bit))} baud${decoder.format ? ' ' + decoder.format : ''}`;
  return decoder.kind === 'i2c' ? 'I2C' : 'SPI';
}

// The rows for chosen names: [{kind: 'group', key, title, count, folded}, {kind: 'frames', key, decoder, name}, {kind: 'wave', key, name, also}].
// Each wave has one row, whatever names of it were chosen; groups are the parts, in the order of the diagram.
function rowsOf(run, chosen, decoders, folded) {
  const groups = new Map(), known = new Set();
  for (const name of chosen) {
    const index = run.waveOf.get(name);
    if (index === undefined || known.has(index)) continue;
    known.add(index);
    const id = name.slice(0, name.indexOf('.'));
    groups.set(id, [...(groups.get(id) || []), name]);
  }
  const rows = [], order = new Map(run.names.map((name, i) => [name, i]));
  for (const { id } of run.parts) {
    const names = groups.get(id);
    if (!names) continue;
    names.sort((a, b) => order.get(a) - order.get(b));
    rows.push({ kind: 'group', key: id, title: id, count: names.length, folded: folded.has(id) });
    if (folded.has(id)) continue;
    for (const name of names) {
      for (const decoder of decoders) {
        if (run.waveOf.get(decoder.pins[0]) === run.waveOf.get(name)) rows.push({ kind: 'frames', key: JSON.stringify(decoder), decoder, name });
      }
      rows.push({ kind: 'wave', key: name, name, also: sameWave(run, name) });
    }
  }
  return rows;
}
