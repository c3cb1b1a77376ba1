// As much of a browser's document as drawing a board needs, for node: elements with attributes that are written as XML.
const escaped = text => String(text).replace(/[&<>"]/g, c => ({ '&': '&amp;', '<': '&lt;', '>': '&gt;', '"': '&quot;' })[c]);
class PlainElement {
  constructor(tag) { this.tag = tag; this.attributes = new Map(); this.children = []; }
  setAttribute(name, value) { this.attributes.set(name, String(value)); }
  append(...children) { this.children.push(...children); }
  prepend(...children) { this.children.unshift(...children); }
  addEventListener() {}
  remove() { this.gone = true; }
  set textContent(text) { this.children = [String(text)]; }
  get textContent() { return this.children.map(child => typeof child === 'string' ? child : child.textContent).join(''); }
  cloneNode() {
    const copy = new PlainElement(this.tag);
    copy.attributes = new Map(this.attributes); copy.children = [...this.children];
    return copy;
  }
  get text() {
    const attributes = [...this.attributes].map(([name, value]) => ` ${name}="${escaped(value)}"`).join('');
    const inside = this.children.filter(child => !child.gone).map(child => typeof child === 'string' ? escaped(child) : child.text).join('');
    return inside ? `<${this.tag}${attributes}>${inside}</${this.tag}>` : `<${this.tag}${attributes}/>`;
  }
}
globalThis.document = { createElementNS: (names, tag) => new PlainElement(tag) };
globalThis.XMLSerializer = class { serializeToString(element) { return element.text; } };

// A worker, as a page makes one of a text, for node.
const threads = require('node:worker_threads'), { resolveObjectURL } = require('node:buffer');
const ABOUT_IT = "const { parentPort } = require('node:worker_threads'); globalThis.onmessage = null; globalThis.postMessage = data => parentPort.postMessage(data); parentPort.on('message', data => globalThis.onmessage({ data }));\n";
globalThis.Worker = class {
  constructor(url) {
    this.worker = resolveObjectURL(url).text().then(text => {
      const worker = new threads.Worker(ABOUT_IT + text, { eval: true });
      worker.on('message', data => { if (this.onmessage) this.onmessage({ data }); });
      worker.on('error', error => { if (this.onerror) this.onerror({ message: error.message }); });
      return worker;
    });
  }
  postMessage(data) { this.worker.then(worker => worker.postMessage(data)); }
  terminate() { this.onmessage = this.onerror = null; this.worker.then(worker => worker.terminate()); }
};
