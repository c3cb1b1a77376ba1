'use strict';
// The worker's side: takes the modules once, then runs what it is sent. call.mjs comes before it. A first short run is for nobody: an
// engine compiles a function when it is first called, and better once it has run for a while, and a user would wait for both.

let module = Promise.reject(new Error('the page holds no module'));
module.catch(() => {});             // told by the first run

// The form for a memory of 64 bits where the browser takes it, else the one for 32 bits.
async function compiledFirst(forms) {
  let why = null;
  for (const bytes of forms) {
    try { return await WebAssembly.compile(bytes); } catch (error) { why = error; }
  }
  throw new Error(`this browser does not take the simulator's module (${why ? why.message : 'there is none'})`);
}

onmessage = async ({ data }) => {
  if (data.forms) {
    module = compiledFirst(data.forms);
    module.then(compiled => { if (data.warm) simulate(compiled, data.warm.words, data.warm.files); }).catch(() => {});
    return;
  }
  try {
    const compiled = await module, start = performance.now(), ended = simulateWhole(compiled, data.words, data.files);
    const ports = ['serial', 'wave', 'report', 'complaint'].map(port => ended[port]).filter(Boolean);
    postMessage({ ended, ms: performance.now() - start }, ports.map(bytes => bytes.buffer));
  } catch (error) {
    postMessage({ fault: error instanceof RangeError && /stack/i.test(error.message) ? 'the simulator used up its stack' : String(error.message || error) });
  }
};
