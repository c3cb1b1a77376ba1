'use strict';
// The page of a run that is over: unpacks what the page carries, and shows it.

function bytesOf(text) {
  const binary = atob(text), bytes = new Uint8Array(binary.length);
  for (let i = 0; i < binary.length; i++) bytes[i] = binary.charCodeAt(i);
  return bytes;
}

async function inflated(bytes) {
  const stream = new Blob([bytes]).stream().pipeThrough(new DecompressionStream('deflate'));
  return new Uint8Array(await new Response(stream).arrayBuffer());
}

// The run that page.py wrote; `packed` is the text of its waves.
async function runOfPage(data, packed) {
  const waves = unpackWaves(await inflated(bytesOf(packed)), data.counts);
  let t = 0;
  const times = data.times && data.times.map(step => (step === null ? null : (t += step)));
  const modules = Object.fromEntries(Object.entries(data.modules).map(([type, made]) => [type, { ...made, module: bytesOf(made.module) }]));
  return makeRun({ ...data, modules, waves, serial: bytesOf(data.serial), times });
}

async function openPage() {
  const data = JSON.parse(document.getElementById('data').textContent), packed = document.getElementById('packed');
  const run = await runOfPage(data, packed.textContent);
  packed.remove();
  document.getElementById('still').remove();
  const look = makeLook(document.getElementById('app'), { hash: true });
  look.show(run);
  await playChips(run);
  document.documentElement.dataset.ready = '1';        // for tests
  return look;
}
const opened = openPage();
opened.catch(error => { document.getElementById('still').prepend(`This page needs a newer browser: ${error.message}`); });
