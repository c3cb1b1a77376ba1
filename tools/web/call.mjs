// Calls the simulator's module: words and files in, a status and what the ports hold out.
// build.sh makes the module; docs/WEB.md has the form of what goes in and comes out.

export const NO_LIST = 100, OUT_OF_MEMORY = 101, TOO_LONG = 102;

// How many bytes the ports can hold. A run whose wave is longer ends with status 6.
export const ROOM = { serial: 1 << 20, wave: 64 << 20, report: 1 << 20 };
const COMPLAINT_ROOM = 4096, LENGTH = 8, PORTS = ['serial', 'waveName', 'wave', 'reportName', 'report', 'complaint'];

const encoder = new TextEncoder(), decoder = new TextDecoder();
const bytesOf = it => (typeof it === 'string' ? encoder.encode(it) : it);

// The list that the module reads: `w` and a block for each word, `f` and two blocks for each file. A block is bytes after
// their length in eight bytes, the lowest first.
export function listOf(words, files) {
  const items = [...words.map(word => ['w', bytesOf(word)]), ...files.map(([name, bytes]) => ['f', bytesOf(name), bytesOf(bytes)])];
  const size = items.reduce((sum, [, ...blocks]) => sum + 1 + blocks.reduce((n, block) => n + LENGTH + block.length, 0), 0);
  const list = new Uint8Array(size), view = new DataView(list.buffer);
  let at = 0;
  for (const [tag, ...blocks] of items) {
    list[at++] = tag.charCodeAt(0);
    for (const block of blocks) {
      view.setBigUint64(at, BigInt(block.length), true);
      list.set(block, at + LENGTH);
      at += LENGTH + block.length;
    }
  }
  return list;
}

// What the module left at `at`: of each port its bytes, and the names under which Wave and Report were opened ('' if not).
function portsAt(buffer, at) {
  const view = new DataView(buffer), ports = {};
  for (const port of PORTS) {
    const size = Number(view.getBigUint64(at, true));
    ports[port] = new Uint8Array(buffer, at + LENGTH, size).slice();
    at += LENGTH + size;
  }
  return { ...ports, waveName: decoder.decode(ports.waveName), reportName: decoder.decode(ports.reportName) };
}

// Does what the program does for `words` over `files`, a list of [name, bytes] in which a later file of a name replaces an
// earlier one: {status, serial, waveName, wave, reportName, report, complaint}. The status is one of the program's, or
// OUT_OF_MEMORY alone. A trap, as where the stack is used up, is thrown.
// Each call has an instance of its own, since a trap leaves an instance's memory half written, and since what `room` gives does
// not go back.
export function simulate(module, words, files, room = ROOM) {
  const it = new WebAssembly.Instance(module, {}).exports, list = listOf(words, files);
  const size = room.serial + room.wave + room.report + COMPLAINT_ROOM + 2 * 255 + PORTS.length * LENGTH;
  const input = Number(it.room(BigInt(list.length))), out = Number(it.room(BigInt(size)));
  if (!input || !out) return { status: OUT_OF_MEMORY };
  new Uint8Array(it.memory.buffer).set(list, input);
  const status = it.mudflatjar(BigInt(input), BigInt(list.length), room.serial, room.wave, room.report, BigInt(out), BigInt(size));
  if (status === NO_LIST || status === TOO_LONG) throw new Error(`the module answers ${status}`);   // not for such a list and room
  return status < NO_LIST ? { status, ...portsAt(it.memory.buffer, out) } : { status };
}

// The same with as much room as the run needs: status 6 comes of a bench in memory only where a port was full, or where an
// output has a name of more than 255 bytes.
export function simulateWhole(module, words, files, room = ROOM) {
  let ended = simulate(module, words, files, room);
  const named = words.every(word => bytesOf(word).length <= 255);
  while (ended.status === 6 && named) {
    room = { serial: 4 * room.serial, wave: 4 * room.wave, report: room.report };
    const again = room.wave < 2 ** 32 ? simulate(module, words, files, room) : { status: OUT_OF_MEMORY };
    if (again.status === OUT_OF_MEMORY) return ended;
    ended = again;
  }
  return ended;
}
