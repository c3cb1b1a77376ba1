'use strict';
// The page's side of the worker: one run at a time, which Stop ends with its worker.

// `warm` is a short run, {words, files}, that a new worker makes for itself.
function makeMachine(source, forms, warm) {
  const machine = { worker: null, running: null };
  const url = URL.createObjectURL(new Blob([source], { type: 'text/javascript' }));
  const settle = (how, value) => { const run = machine.running; machine.running = null; if (run) run[how](value); };
  const begin = () => {
    const worker = machine.worker = new Worker(url);
    worker.onmessage = ({ data }) => { if (data.fault) settle('reject', new Error(data.fault)); else settle('resolve', data); };
    worker.onerror = event => { event.preventDefault(); settle('reject', new Error(event.message || 'the worker ended')); worker.terminate(); begin(); };
    worker.postMessage({ forms, warm });
  };
  machine.run = call => new Promise((resolve, reject) => { machine.stop(); machine.running = { resolve, reject }; machine.worker.postMessage(call); });
  machine.stop = () => {
    if (!machine.running) return;
    machine.worker.terminate();
    settle('reject', null);
    begin();
  };
  begin();
  return machine;
}
