#!/usr/bin/env node
// The program on Node, by its module: node mudflatjar.mjs run FOLDER --us N ..
// The words and statuses are those of docs/COMMANDS.md and docs/REFUSALS.md. What a run writes comes at its end.
// The module is in this file, where assemble.py made it, or beside it, or where MUDFLATJAR_WASM says.
import fs from 'node:fs';
import path from 'node:path';
import zlib from 'node:zlib';
import { fileURLToPath } from 'node:url';
import { OUT_OF_MEMORY, simulateWhole } from './call.mjs';

const LONGEST = 16777216 + 1;       // of a longer file the program reads no more than this, and refuses it
const encoder = new TextEncoder(), decoder = new TextDecoder();
const CARRIED = '';

class ReadFailed extends Error {}

function compiled() {
  if (CARRIED && !process.env.MUDFLATJAR_WASM) return new WebAssembly.Module(zlib.inflateSync(Buffer.from(CARRIED, 'base64')));
  const here = path.dirname(fileURLToPath(import.meta.url)), names = ['mudflatjar.wasm', 'mudflatjar32.wasm'];
  const found = process.env.MUDFLATJAR_WASM ? [process.env.MUDFLATJAR_WASM]
    : names.flatMap(name => [path.join(here, name), path.join(here, '../../target/web', name)]).filter(file => fs.existsSync(file));
  let why = 'it is not beside this program; tools/web/build.sh makes it';
  for (const file of found) {
    try {
      return new WebAssembly.Module(fs.readFileSync(file));
    } catch (error) {               // the form for a memory of 64 bits, where Node is too old for it, or no file
      why = `${file}: ${error.message}`;
    }
  }
  process.stderr.write(`mudflatjar: no module that this Node takes: ${why}\n`);
  process.exit(1);
}

// The bytes of a file up to the length that is refused; null where it is missing.
function bytesOf(name) {
  let file;
  try {
    file = fs.openSync(name, 'r');
  } catch (error) {
    if (error.code === 'ENOENT') return null;
    throw new ReadFailed(name);
  }
  try {
    const chunks = [];
    let size = 0;
    while (size < LONGEST) {
      const chunk = Buffer.allocUnsafe(Math.min(1 << 16, LONGEST - size)), count = fs.readSync(file, chunk, 0, chunk.length, null);
      if (!count) break;
      chunks.push(chunk.subarray(0, count));
      size += count;
    }
    return new Uint8Array(Buffer.concat(chunks));
  } catch {
    throw new ReadFailed(name);
  } finally {
    fs.closeSync(file);
  }
}

// Runs the words. The module knows only the files that it is given, and names the first one that it misses before it runs
// anything: so each is read when it is asked for, as the program reads it.
function ended(module, words) {
  const files = [];
  for (;;) {
    const end = simulateWhole(module, words, files), missed = /^([^]*): missing\n$/.exec(end.status === 4 ? decoder.decode(end.complaint) : '');
    if (!missed || files.some(([name]) => name === missed[1])) return end;
    const bytes = bytesOf(missed[1]);
    if (!bytes) return end;
    files.push([missed[1], bytes]);
  }
}

function writeAll(file, bytes) {
  for (let at = 0; at < bytes.length;) {
    try {
      at += fs.writeSync(file, bytes, at);
    } catch (error) {
      if (error.code !== 'EAGAIN') throw error;
      Atomics.wait(new Int32Array(new SharedArrayBuffer(4)), 0, 0, 5);   // a pipe that is full: a moment later it may not be
    }
  }
}

function writeNamed(name, bytes) {
  if (name === '') return;
  if (name === '-') { writeAll(1, bytes); return; }
  const file = fs.openSync(name, 'w');
  try { writeAll(file, bytes); } finally { fs.closeSync(file); }
}

function complain(text) {
  try { writeAll(2, encoder.encode(text)); } catch { /* standard error is closed: the status says it */ }
}

function main(words) {
  const module = compiled();
  let end;
  try {
    end = ended(module, words);
  } catch (error) {
    if (error instanceof ReadFailed) { complain(`${error.message}: read failed\n`); return 5; }
    complain(`mudflatjar: ${error.message}\n`);
    return 70;                      // a trap: of the program's own statuses none says it
  }
  if (end.status === OUT_OF_MEMORY) { complain('out of memory\n'); return 7; }
  try {
    writeAll(1, end.serial);
    writeNamed(end.waveName, end.wave);
    writeNamed(end.reportName, end.report);
  } catch {
    complain('write failed\n');
    return 6;
  }
  complain(decoder.decode(end.complaint));
  return end.status;
}

process.exitCode = main(process.argv.slice(2));
