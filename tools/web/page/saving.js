'use strict';
// What can be saved: files, and the page of the run, which needs nothing else (docs/LOOK.md).

function saveAs(name, content, type = 'application/octet-stream') {
  const link = make('a', { href: URL.createObjectURL(content instanceof Blob ? content : new Blob([content], { type })), download: name });
  link.click();
  setTimeout(() => URL.revokeObjectURL(link.href), 1000);
}

// The waves of a run as its page carries them, before they are deflated: unpackWaves of wave.js has the form.
function packedWaves(waves) {
  let bytes = new Uint8Array(1 << 16), size = 0;
  const put = n => {
    if (size + 8 > bytes.length) { const more = new Uint8Array(2 * bytes.length); more.set(bytes); bytes = more; }
    while (n > 127) { bytes[size++] = n % 128 + 128; n = Math.floor(n / 128); }
    bytes[size++] = n;
  };
  for (const { t, v } of waves) for (let i = 0; i < t.length; i++) put((t[i] - (i ? t[i - 1] : 0)) * 4 + v[i]);
  return bytes.subarray(0, size);
}

const escaped = text => text.replace(/[&<>"]/g, c => ({ '&': '&amp;', '<': '&lt;', '>': '&gt;', '"': '&quot;' }[c]));

// `template` is the page with its code, in which the places @@TITLE@@, @@STILL@@, @@DATA@@ and @@WAVES@@ are left, and
// @@PLAYS@@, what the policy allows a page that plays chips.
const PLAYS = " 'wasm-unsafe-eval'; worker-src blob:";
async function pageOfRun(template, run, { diagram, chips, modules, script, controls }) {
  const carried = Object.fromEntries(Object.entries(modules).map(([type, made]) => [type, { ...made, module: toBase64(made.module) }]));
  const { bytes, times, formats, others } = run.serial, steps = times && times.map((t, i) => (t === null ? null : t - (i ? times[i - 1] : 0)));
  const data = { title: run.title, cycles: run.cycles, from: run.from, to: run.to, diagram, chips, modules: carried, script, names: run.names, of: run.names.map(name => run.waveOf.get(name)),
    counts: run.waves.map(wave => wave.t.length), serial: toBase64(bytes), times: steps, formats, others, report: run.report, firsts: {}, left: run.left, made: run.made, controls };
  const still = `<h1>${escaped(run.title)}</h1>\n${bytes.length ? `<h2>Sent by the Uno</h2>\n<pre>${escaped(plainText.decode(bytes))}</pre>\n` : ''}<h2>Report, at the end of the run</h2>\n<pre>${escaped(run.report)}</pre>\n`;
  const values = { TITLE: escaped(run.title), STILL: still, DATA: JSON.stringify(data).replace(/</g, '\\u003c'), WAVES: toBase64(await deflate(packedWaves(run.waves), 'deflate')), PLAYS: Object.keys(modules).length ? PLAYS : '' };
  return template.replace(/@@(TITLE|STILL|DATA|WAVES|PLAYS)@@/g, (_, name) => values[name]);
}
