// What the built module answers to good and to bad calls: node test_call.mjs
import assert from 'node:assert/strict';
import fs from 'node:fs';
import path from 'node:path';
import test from 'node:test';
import { fileURLToPath } from 'node:url';
import { NO_LIST, OUT_OF_MEMORY, TOO_LONG, listOf, simulate, simulateWhole } from '../call.mjs';

const root = path.join(path.dirname(fileURLToPath(import.meta.url)), '../../..'), PAGE = 65536;
const bytes = fs.readFileSync(path.join(root, 'target/web/mudflatjar32.wasm')), module = new WebAssembly.Module(bytes);
const text = it => new TextDecoder().decode(it);
const expected = fs.readFileSync(path.join(root, 'examples/counter/expected/run.vcd'), 'utf8');
const files = ['wokwi.toml', 'diagram.json', 'counter.hex'].map(name => [`counter/${name}`, new Uint8Array(fs.readFileSync(path.join(root, 'examples/counter', name)))]);
const words = ['run', 'counter', '--us', '30', '--vcd', 'w.vcd'];
const SMALL = { serial: 100, wave: 20000, report: 100 };

function answer(list, outSize = 1 << 20) {
  const it = new WebAssembly.Instance(module, {}).exports, input = Number(it.room(BigInt(list.length))), out = Number(it.room(BigInt(outSize)));
  new Uint8Array(it.memory.buffer).set(list, input);
  return it.mudflatjar(BigInt(input), BigInt(list.length), SMALL.serial, SMALL.wave, SMALL.report, BigInt(out), BigInt(outSize));
}

function number(at) {               // an unsigned LEB128 number of the module, and where it ends
  let value = 0, shift = 0;
  for (;; shift += 7) {
    const byte = bytes[at++];
    value += (byte & 127) * 2 ** shift;
    if (byte < 128) return [value, at];
  }
}
const leb = n => (n < 128 ? [n] : [(n & 127) | 128, ...leb(n >>> 7)]);

// The module with a memory of at most so many pages beside those that it begins with.
function limited(pages) {
  for (let at = 8; at < bytes.length;) {
    const kind = bytes[at], [size, start] = number(at + 1);
    if (kind === 5) {
      const [least] = number(start + 2), body = [1, 1, ...leb(least), ...leb(least + pages)];
      return new WebAssembly.Module(Uint8Array.from([...bytes.subarray(0, at), 5, ...leb(body.length), ...body, ...bytes.subarray(start + size)]));
    }
    at = start + size;
  }
  throw new Error('it has no memory');
}

test('a good call has its wave', () => {
  const ended = simulate(module, words, files);
  assert.equal(ended.status, 0, text(ended.complaint));
  assert.equal(text(ended.wave), expected);
  assert.deepEqual([ended.waveName, ended.reportName, ended.serial.length, ended.report.length], ['w.vcd', '', 0, 0]);
});

test('of two files of one name the later counts', () => {
  const ended = simulate(module, words, [['counter/diagram.json', new Uint8Array(3)], ...files]);
  assert.equal(text(ended.wave), expected);
  assert.equal(text(simulate(module, words, [...files, ['counter/diagram.json', new Uint8Array(3)]]).complaint), 'counter/diagram.json: refused 40 JsonText\n');
});

test('what is no list is answered with 100', () => {
  const list = listOf(words, files), wild = Uint8Array.from({ length: 200000 }, (_, i) => (i * i * 7) % 251);
  for (const cut of [1, 8, 9, 10, list.length - 1]) assert.equal(answer(list.subarray(0, cut)), NO_LIST, `${cut} bytes`);
  for (const odd of [[120], [119], [102, 0, 0, 0, 0, 0, 0, 0, 0], [119, 1, 0, 0, 0, 0, 0, 0, 0, 255], [119, 255, 255, 255, 255, 255, 255, 255, 255, 65], wild]) assert.equal(answer(Uint8Array.from(odd)), NO_LIST);
  assert.equal(answer(list), 0);
});

test('what the ports hold is longer than its place: 102', () => {
  assert.equal(answer(listOf(words, files), 100), TOO_LONG);
  assert.equal(answer(listOf([], []), 66), TOO_LONG);             // six lengths and the complaint
  assert.equal(answer(listOf([], []), 6 * 8 + 'words not understood\n'.length), 2);
});

test('a port without room ends the run with 6, and with more room it runs', () => {
  const short = simulate(module, words, files, { ...SMALL, wave: 300 });
  assert.deepEqual([short.status, text(short.complaint)], [6, 'write failed\n']);
  assert.ok(expected.startsWith(text(short.wave)));
  assert.equal(text(simulateWhole(module, words, files, { ...SMALL, wave: 300 }).wave), expected);
});

test('memory that cannot grow: 101 or 7, and what was written before it is no other run', () => {
  const seen = new Set();
  for (let pages = 0; pages < 64; pages++) {
    const ended = simulate(limited(pages), words, files, SMALL);
    seen.add(ended.status);
    if (ended.status === 0) { assert.equal(text(ended.wave), expected); break; }
    assert.ok(ended.status === OUT_OF_MEMORY || ended.status === 7, `${pages} pages: status ${ended.status}`);
    if (ended.status === 7) assert.deepEqual([text(ended.complaint), ended.wave.length], ['out of memory\n', 0]);
  }
  assert.deepEqual([...seen].sort((a, b) => a - b), [0, 7, OUT_OF_MEMORY]);
});

test('a wild document is refused within the stack', () => {
  const refused = (name, content) => text(simulate(module, words, [...files, [`counter/${name}`, content]]).complaint);
  const encoded = it => new TextEncoder().encode(it);
  assert.equal(refused('diagram.json', encoded('['.repeat(900000))), 'counter/diagram.json: refused 40 JsonText\n');
  assert.equal(refused('diagram.json', encoded('{"a":'.repeat(100000))), 'counter/diagram.json: refused 40 JsonText\n');
  assert.equal(refused('wokwi.toml', encoded(`a = ${'['.repeat(60000)}`)).replace(/ \d+ .*/s, ''), 'counter/wokwi.toml: refused');
  assert.equal(refused('counter.hex', encoded(':'.repeat(100000))).replace(/ \d+ .*/s, ''), 'counter/counter.hex: refused');
});

test('a wild address traps', () => {
  const it = new WebAssembly.Instance(module, {}).exports;
  assert.throws(() => it.mudflatjar(BigInt(2 ** 32 - 8), 100n, 0, 0, 0, 0n, 0n), WebAssembly.RuntimeError);
});
