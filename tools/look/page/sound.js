'use strict';
// The sound of a run's buzzers: their pins' levels as samples, which the browser plays while the run is played in real time.
//
//   const sound = makeSound();
//   sound.play(run, t)      from cycle t on, as long as the run goes; sound.stop()
//   sound.element           the box that turns it on; hidden where the run has no buzzer (sound.show(run))

const RATE = 44100, LOUDNESS = .25;
const buzzersOf = run => [...run.parts, ...run.scenery].filter(part => part.as === 'wokwi-buzzer');

// The mean level of a wave over each sample from cycle `from` on: 1 while it is high, 0 else.
function levelSamples(wave, from, to, rate) {
  const step = 16e6 / rate, count = Math.max(Math.floor((to - from) / step), 0), samples = new Float32Array(count);
  let i = Math.max(findEdge(wave, from), 0);
  for (let k = 0; k < count; k++) {
    const begin = from + k * step, end = begin + step;
    let high = 0, at = begin;
    while (at < end) {
      while (i + 1 < wave.t.length && wave.t[i + 1] <= at) i++;
      const next = i + 1 < wave.t.length ? Math.min(wave.t[i + 1], end) : end;
      if (wave.v[i] === 1) high += next - at;
      at = next;
    }
    samples[k] = high / step;
  }
  return samples;
}

// What all buzzers of a run sound together, from a cycle on: a buzzer moves with the difference of its pins, and a level that stays
// is silent.
function buzzerSamples(run, from, to = run.to, rate = RATE) {
  const count = Math.max(Math.floor((to - from) / (16e6 / rate)), 0), all = new Float32Array(count), buzzers = buzzersOf(run), keeps = Math.exp(-2 * Math.PI * 20 / rate);
  for (const part of buzzers) {
    const [a, c] = ['A', 'C'].map(pin => run.wave(pinOf(part, pin))), over = a && levelSamples(a, from, to, rate), under = c && levelSamples(c, from, to, rate);
    let before = (over ? over[0] : 0) - (under ? under[0] : 0), now = 0;
    for (let k = 0; k < count; k++) {       // without what is below 20 Hz
      const drive = (over ? over[k] : 0) - (under ? under[k] : 0);
      now = keeps * (now + drive - before);
      before = drive;
      all[k] += LOUDNESS * now / buzzers.length;
    }
  }
  return all;
}

function makeSound() {
  const box = make('input', { type: 'checkbox' }), sound = { box, context: null, source: null };
  sound.element = make('label', { title: 'buzzers are heard while the run is played in real time', hidden: true }, box, ' sound');
  sound.show = run => { sound.stop(); sound.element.hidden = buzzersOf(run).length === 0; };
  sound.stop = () => { if (sound.source) { sound.source.stop(); sound.source = null; } };
  sound.play = (run, t) => {
    sound.stop();
    if (!box.checked || sound.element.hidden) return;
    const samples = buzzerSamples(run, t);
    if (!samples.length) return;
    sound.context ||= new AudioContext();
    const buffer = sound.context.createBuffer(1, samples.length, RATE), source = sound.context.createBufferSource();
    buffer.copyToChannel(samples, 0);
    source.buffer = buffer;
    source.connect(sound.context.destination);
    source.onended = () => { if (sound.source === source) sound.source = null; };
    source.start();
    sound.context.resume();
    sound.source = source;
  };
  return sound;
}
