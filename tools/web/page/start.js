'use strict';
// Opens the page; `await opened` in the browser's console is the app.

const carried = { forms: ['wide', 'narrow'].map(id => document.getElementById(id)).filter(Boolean).map(it => it.textContent.trim()).filter(Boolean),
  worker: document.getElementById('worker').textContent, template: document.getElementById('template').textContent.trim() };
globalThis.opened = (async () => {
  const data = JSON.parse(plainText.decode(await inflate(fromBase64(document.getElementById('data').textContent.trim()), 'deflate')));
  document.getElementById('still').remove();
  const app = await openApp(document.getElementById('app'), data, carried);
  document.documentElement.dataset.ready = '1';        // for tests
  return app;
})();
globalThis.opened.catch(error => { document.getElementById('app').append(`This page needs a newer browser: ${error.message}`); });
