// The page's code that needs no browser: node test_page_code.mjs
import assert from 'node:assert/strict';
import fs from 'node:fs';
import path from 'node:path';
import test from 'node:test';
import { fileURLToPath } from 'node:url';
import { execFileSync } from 'node:child_process';
import { listOf } from '../call.mjs';

const here = path.dirname(fileURLToPath(import.meta.url)), root = path.join(here, '../../..');
const NAMES = ['complaintOf', 'rangeOf', 'withLine', 'unzipped', 'zipped', 'linkOf', 'projectOfLink', 'makeProject', 'projectOfFiles', 'complete', 'withFirmware', 'adviceOf',
  'firmwareOf', 'firmwarePath', 'chipsOf', 'modulesOf', 'callOf', 'packedWaves', 'escaped', 'textOf', 'preparedOf', 'asHex', 'floatText', 'readJson', 'jsonText'];
const textsOf = (folder, names) => names.map(name => fs.readFileSync(path.join(root, folder, name), 'utf8')).join('\n');
const look = textsOf('tools/look/page', ['wave.js', 'run.js']);
const own = textsOf('tools/web/page', ['places.js', 'script.js', 'archive.js', 'json.js', 'formulas.js', 'lower.js', 'moves.js', 'firmware.js', 'project.js', 'prepare.js', 'saving.js']);
const page = new Function(`${look}\n{\n${own}\nreturn { ${NAMES.join(', ')} };\n}`)();
const types = JSON.parse(fs.readFileSync(path.join(root, 'tools/wokwi/types.json'), 'utf8'));
const chips = Object.fromEntries(fs.readdirSync(path.join(root, 'tools/wokwi/chips')).map(name => [name, new Uint8Array(fs.readFileSync(path.join(root, 'tools/wokwi/chips', name)))]));
const kit = { types, chips };
const bytes = text => new TextEncoder().encode(text), text = it => new TextDecoder().decode(it);

test('a list has each word and file as blocks after their length', () => {
  const list = listOf(['run', 'ä'], [['a/b', new Uint8Array([7, 8])]]);
  const block = (...content) => [content.length, 0, 0, 0, 0, 0, 0, 0, ...content];
  assert.deepEqual([...list], [119, ...block(114, 117, 110), 119, ...block(0xc3, 0xa4), 102, ...block(97, 47, 98), ...block(7, 8)]);
  assert.equal(listOf([], []).length, 0);
});

test('complaints are read', () => {
  assert.deepEqual(page.complaintOf('p/diagram.json: refused 44 PinUnknown connection 3\n'),
    { file: 'p/diagram.json', kind: 'refused', number: 44, name: 'PinUnknown', place: { what: 'connection', n: 3 }, text: 'p/diagram.json: refused 44 PinUnknown connection 3' });
  assert.equal(page.complaintOf('p/wokwi.toml: refused 30 TomlText\n').place, null);
  assert.deepEqual(page.complaintOf('p/a.wasm: refused 71 ValidType function 3 instruction 9\n').place, { what: 'function', n: 3 });
  assert.equal(page.complaintOf('p/a: b.hex: missing\n').file, 'p/a: b.hex');
  assert.equal(page.complaintOf('words not understood\n').kind, 'other');
  assert.equal(page.complaintOf(''), null);
});

const DIAGRAM = '{ "version": 1, "author": "a \\" ]}, b",\n  "parts": [ { "type": "x", "attrs": { "text": "], [" } },\n {"id":"two"} , {} ],\n "connections": [ ["a:1", "b:2", "red", ["v10"]], [ ] ] }';
const marked = (whole, place) => { const range = page.rangeOf(whole, place); return range && whole.slice(range.from, range.to); };

test('places of a diagram are found, whatever is in its texts', () => {
  assert.equal(marked(DIAGRAM, { what: 'part', n: 1 }), '{ "type": "x", "attrs": { "text": "], [" } }');
  assert.equal(marked(DIAGRAM, { what: 'part', n: 2 }), '{"id":"two"}');
  assert.equal(marked(DIAGRAM, { what: 'part', n: 3 }), '{}');
  assert.equal(marked(DIAGRAM, { what: 'part', n: 4 }), null);
  assert.equal(marked(DIAGRAM, { what: 'connection', n: 1 }), '["a:1", "b:2", "red", ["v10"]]');
  assert.equal(marked(DIAGRAM, { what: 'connection', n: 2 }), '[ ]');
  assert.equal(marked('{"parts":[1,2],"parts":[3]}', { what: 'part', n: 1 }), '3');
});

test('places in broken texts end', () => {
  for (let cut = 0; cut <= DIAGRAM.length; cut++) for (const what of ['part', 'connection']) page.rangeOf(DIAGRAM.slice(0, cut), { what, n: 2 });
  for (const odd of ['', '[', '{', '{"', '{"parts"', '{"parts":', '{"parts":[', '{"parts":[,', '{"parts":[}', '{"parts":]', '{"parts":[1,,2]}', '\uFEFF{"parts":[5]}']) page.rangeOf(odd, { what: 'part', n: 1 });
  assert.equal(marked('\uFEFF{"parts":[5]}', { what: 'part', n: 1 }), '5');
});

test('places of lines and of chips are found', () => {
  assert.equal(marked('a\nbc\nd', { what: 'line', n: 2 }), 'bc');
  assert.equal(marked('a\nbc\nd', { what: 'line', n: 3 }), 'd');
  assert.equal(marked('a\n', { what: 'line', n: 9 }), '');
  const toml = '[wokwi]\nversion = 1\n\n[[chip]]\nname = "a"\n\n[[chip]]\nname = "b"\n';
  assert.equal(marked(toml, { what: 'chip', n: 1 }), '[[chip]]\nname = "a"');
  assert.equal(marked(toml, { what: 'chip', n: 2 }), '[[chip]]\nname = "b"');
  assert.equal(marked(toml, { what: 'chip', n: 3 }), null);
});

test('lines of a script come in the order of their cycles', () => {
  let script = '# two presses\n10000us press btn1\n20000us release btn1\n';
  script = page.withLine(script, 240000, 'press', 'btn2');
  assert.equal(script, '# two presses\n10000us press btn1\n15000us press btn2\n20000us release btn1\n');
  script = page.withLine(script, 1, 'set', 'pot1', 700);
  assert.equal(script.split('\n')[1], '1cy set pot1 700');
  script = page.withLine(script, 1, 'set', 'pot1', 5);
  assert.equal(script.split('\n').filter(line => line.includes('pot1')).join(), '1cy set pot1 5');
  script = page.withLine(script, 999999999, 'release', 'btn1');
  assert.equal(script.split('\n').at(-2), '999999999cy release btn1');
  assert.equal(page.withLine('', 0, 'press', 'b'), '0us press b\n');
  assert.equal(page.withLine('5us press b\n', 80, 'press', 'b', 'bounce'), '5us press b bounce\n');
  assert.equal(page.withLine('5us set u distance 3\n5us set u2 level -4.5\n', 80, 'set', 'u', 'distance 20'), '5us set u2 level -4.5\n5us set u distance 20\n');
  assert.equal(page.withLine('what is this\n5us press b\n', 160, 'press', 'b'), 'what is this\n5us press b\n10us press b\n');
});

test('an archive that this page writes is one for others and for itself', async () => {
  const files = [['blink/diagram.json', bytes('{}')], ['blink/ä.hex', bytes(':00000001FF\n')], ['blink/empty', new Uint8Array(0)]];
  const archive = new Uint8Array(await page.zipped(files).arrayBuffer());
  assert.deepEqual((await page.unzipped(archive)).map(([name, content]) => [name, text(content)]), files.map(([name, content]) => [name, text(content)]));
  const said = execFileSync('python3', ['-c', 'import io,sys,zipfile\nz=zipfile.ZipFile(io.BytesIO(sys.stdin.buffer.read()))\nassert z.testzip() is None\nprint(*z.namelist())'], { input: archive });
  assert.equal(text(said).trim(), 'blink/diagram.json blink/ä.hex blink/empty');
});

test('archives of others are read, and what is no archive is said to be none', async () => {
  const archive = new Uint8Array(execFileSync('python3', ['-c', 'import io,sys,zipfile\nb=io.BytesIO()\nz=zipfile.ZipFile(b,"w",zipfile.ZIP_DEFLATED)\nz.writestr("p/","")\nz.writestr("p/diagram.json","{}"*900)\nz.close()\nsys.stdout.buffer.write(b.getvalue())']));
  const files = await page.unzipped(archive);
  assert.deepEqual(files.map(([name, content]) => [name, content.length]), [['p/diagram.json', 1800]]);
  await assert.rejects(page.unzipped(bytes('no archive, but long enough to be looked at')), /no ZIP/);
  await assert.rejects(page.unzipped(new Uint8Array(3)), /no ZIP/);
  for (let cut = 1; cut < archive.length - 22; cut += 7) await assert.rejects(page.unzipped(archive.slice(cut)));
});

test('a link holds a project whole', async () => {
  const project = page.makeProject('blink', [['diagram.json', bytes('{"ä": 1}')], ['a.wasm', new Uint8Array([0, 255, 128])]]);
  const link = await page.linkOf(project, 350000), back = await page.projectOfLink(link);
  assert.match(link, /^p=[\w-]+$/);
  assert.equal(back.us, 350000);
  assert.equal(back.project.name, 'blink');
  assert.deepEqual([...back.project.files].map(([name, content]) => [name, [...content]]), [...project.files].map(([name, content]) => [name, [...content]]));
  assert.equal(await page.projectOfLink('t=5us'), null);
  await assert.rejects(page.projectOfLink(link.slice(0, -20)));
});

test('the folder of the diagram is the project', () => {
  const project = page.projectOfFiles([['lab/README.md', bytes('')], ['lab/blink/diagram.json', bytes('{}')], ['lab/blink/build/a.hex', bytes('')], ['lab/blink/.git/x', bytes('')]]);
  assert.equal(project.name, 'blink');
  assert.deepEqual([...project.files.keys()], ['diagram.json', 'build/a.hex']);
  assert.equal(page.projectOfFiles([['a.hex', bytes('')]]).name, 'project');
  assert.equal(page.makeProject('--us', []).name, 'project');
  assert.equal(page.projectOfFiles([]).files.size, 0);
});

test('what a folder lacks is made or said', () => {
  const project = page.projectOfFiles([['sketch.ino.hex', bytes(':00000001FF\n')]]);
  assert.match(page.adviceOf(page.makeProject('p', [])), /Open an example/);
  assert.equal(page.complete(project).length, 2);
  assert.equal(page.firmwareOf(project), 'sketch.ino.hex');
  assert.equal(page.adviceOf(project), null);
  assert.match(page.adviceOf(page.makeProject('p', [['diagram.json', bytes('{}')], ['sketch.ino', bytes('')]])), /Export Compiled Binary/);
  const sketch = page.makeProject('p', [['diagram.json', bytes('{"parts":[{"type":"wokwi-breadboard-half"}]}')], ['sketch.ino', bytes('')]]);
  assert.match(page.adviceOf(sketch), /^There is no firmware, and a page cannot compile: .*Export Compiled Binary, and drop NAME\.ino\.hex here.*$/);
  page.withFirmware(sketch, 'b.hex', bytes(''));
  assert.equal(page.adviceOf(sketch), null);
  assert.match(page.adviceOf(page.makeProject('p', [['diagram.json', bytes('{"parts":7}')]])), /no firmware/);
});

const HEX = ':00000001FF\n', UNO = { type: 'wokwi-arduino-uno', id: 'uno' };
const folder = (parts, connections, more) => page.makeProject('lab', Object.entries({ 'diagram.json': JSON.stringify({ version: 1, parts, connections }), ...more }).map(([name, it]) => [name, typeof it === 'string' ? bytes(it) : it]));
const fileOf = ({ project }, name) => text(project.files.get(name));

test('a project that the simulator takes as it is stays what it is', () => {
  const project = folder([UNO], [], { 'wokwi.toml': "[wokwi]\nfirmware = 'a.hex'\n", 'a.hex': HEX });
  assert.equal(page.preparedOf(project, kit).project, project);
  for (const name of fs.readdirSync(path.join(root, 'examples'))) {
    const at = path.join(root, 'examples', name);
    if (!fs.existsSync(path.join(at, 'wokwi.toml'))) continue;
    const whole = page.makeProject(name, fs.readdirSync(at, { recursive: true }).filter(file => fs.statSync(path.join(at, file)).isFile()).map(file => [file, new Uint8Array(fs.readFileSync(path.join(at, file)))]));
    assert.equal(page.preparedOf(whole, kit).project, whole, name);
  }
  for (const parts of [[UNO, { type: 'wokwi-lex', id: 'a' }], [UNO, UNO], [], [UNO, { type: 'wokwi-potentiometer', id: 'p', attrs: { value: '2000' } }]]) {
    const refused = folder(parts, [['uno:13', 'a:A', '', []]], { 'wokwi.toml': "[wokwi]\nfirmware = 'a.hex'\n", 'a.hex': HEX });
    assert.equal(page.preparedOf(refused, kit).project, refused, 'the simulator says what is wrong, and where');
  }
  for (const wild of ['{', '[]', '{"version": 1, "parts": [3], "connections": []}']) {
    const odd = page.makeProject('p', [['diagram.json', bytes(wild)]]);
    assert.equal(page.preparedOf(odd, kit).project, odd);
  }
});

test('a breadboard becomes wires, and the files of the new project are all that the simulator reads', () => {
  const led = { type: 'wokwi-led', id: 'led1' }, board = { type: 'wokwi-breadboard-mini', id: 'bb' }, servo = { type: 'wokwi-servo', id: 's' }, card = { type: 'wokwi-microsd-card', id: 'sd' };
  const project = folder([board, UNO, card, servo, led], [['led1:A', 'bb:2t.a', '', ['$bb']], ['bb:2t.e', 'uno:13', 'green', []], ['led1:C', 'uno:GND.1', 'black', []], ['sd:SCK', 'uno:12', '', []]], { 'sketch.ino': '', 'sketch.ino.hex': HEX, 'script.txt': '5us press b\n' });
  page.complete(project);
  const before = [...project.files.keys()], ready = page.preparedOf(project, kit);
  assert.deepEqual([...project.files.keys()], before, 'the project itself is as it was');
  assert.deepEqual([...ready.project.files.keys()].sort(), ['diagram.json', 'firmware.hex', 'script.txt', 'servo.json', 'servo.wasm', 'wokwi.toml']);
  const made = JSON.parse(fileOf(ready, 'diagram.json'));
  assert.deepEqual(made.parts.map(part => part.id), ['uno', 's', 'led1']);
  assert.deepEqual(made.connections.map(wire => wire.slice(0, 2).sort()), [['led1:C', 'uno:GND.1'], ['led1:A', 'uno:13']]);
  assert.equal(fileOf(ready, 'wokwi.toml'), "[wokwi]\nversion = 1\nfirmware = 'firmware.hex'\n\n[[chip]]\nname = \"servo\"\nbinary = \"servo.wasm\"\n");
  assert.deepEqual(ready.faults, ['sd (wokwi-microsd-card): is not there']);
  assert.deepEqual(ready.notes, ['s (wokwi-servo) is s (chip-servo)']);
  const place = (what, n) => ready.placeOf({ what, n }, 'diagram.json');
  assert.deepEqual([place('part', 3), place('connection', 1), place('connection', 2), place('part', 9)], [{ what: 'part', n: 5 }, { what: 'connection', n: 3 }, null, null]);
  assert.deepEqual(ready.placeOf({ what: 'line', n: 1 }, 'script.txt'), { what: 'line', n: 1 });
  assert.equal(ready.placeOf({ what: 'chip', n: 1 }, 'wokwi.toml'), null);
});

test('chips that parts become, and chips of the folder that no wokwi.toml names, are in the new project', () => {
  const project = folder([UNO, { type: 'wokwi-dht22', id: 'd' }, { type: 'chip-own', id: 'o' }], [['d:SDA', 'uno:2', '', []], ['o:IN', 'uno:3', '', []]], { 'a.hex': HEX, 'own.chip.wasm': 'module', 'own.chip.json': '{"name": "own", "pins": ["IN", ""]}' });
  page.complete(project);
  const ready = page.preparedOf(project, kit);
  assert.equal(fileOf(ready, 'wokwi.toml'), "[wokwi]\nversion = 1\nfirmware = 'firmware.hex'\n\n[[chip]]\nname = \"own\"\nbinary = \"chip-own.wasm\"\n\n[[chip]]\nname = \"dht22\"\nbinary = \"dht22.wasm\"\n");
  assert.equal(fileOf(ready, 'chip-own.wasm'), 'module');
  assert.deepEqual(ready.project.files.get('dht22.wasm'), chips['dht22.wasm']);
  assert.deepEqual(page.chipsOf(ready.project)['chip-dht22'].sort(), JSON.parse(text(chips['dht22.json'])).pins.sort());
});

test('a chip that a page alone plays has its table in wokwi.toml, also when the project is made of one that was made', () => {
  const servos = Array.from({ length: 9 }, (_, n) => ({ type: 'wokwi-servo', id: `s${n}` })), lcd = { type: 'wokwi-tm1637-7segment', id: 'd' };
  const project = folder([UNO, lcd, ...servos], [['uno:2', 's8:PWM', '', []]], { 'a.hex': HEX });
  page.complete(project);
  const ready = page.preparedOf(project, kit), made = JSON.parse(fileOf(ready, 'diagram.json'));
  assert.deepEqual([made.parts.length, made.drawn.parts.map(part => [part.id, part.type, part.as])], [9, [['s7', 'chip-servo', 'wokwi-servo'], ['s8', 'chip-servo', 'wokwi-servo']]]);
  const pixels = folder([UNO, lcd, ...servos.map(({ id }) => ({ type: 'wokwi-neopixel', id })), { type: 'wokwi-led-ring', id: 'r' }], [], { 'a.hex': HEX });
  page.complete(pixels);
  const whole = page.preparedOf(pixels, kit);
  assert.match(fileOf(whole, 'wokwi.toml'), /\n\[\[shown\]\]\nname = "ws2812-16x1"\nbinary = "ws2812-16x1\.wasm"\n$/);
  assert.deepEqual(JSON.parse(fileOf(whole, 'ws2812-16x1.json')).display, { width: 16, height: 1 });
  assert.deepEqual(Object.keys(page.modulesOf(whole.project)).sort(), ['chip-tm1637', 'chip-ws2812-16x1', 'chip-ws2812-1x1']);
  whole.project.files.set('diagram.json', bytes(fileOf(whole, 'diagram.json').replace('"chip-tm1637"', '"wokwi-servo"')));
  const again = page.preparedOf(whole.project, kit);
  assert.match(fileOf(again, 'wokwi.toml'), /\n\[\[shown\]\]\nname = "ws2812-16x1"\nbinary = "shown-0\.wasm"\n/);
  assert.deepEqual(again.project.files.get('shown-0.wasm'), chips['ws2812.wasm']);
});

test('what a page cannot make a board of is said', () => {
  const said = (...words) => page.preparedOf(folder(...words), kit).complaint;
  assert.match(said([UNO, { type: 'chip-own', id: 'o' }], [], { 'a.hex': HEX, 'own.chip.c': '', 'own.chip.json': '{"pins": []}' }), /^chip own: own\.chip\.c is there and no module of it\. A page cannot compile it: \.\/mudflatjar play lab --keep OUT does/);
  assert.match(said([UNO, { type: 'chip-own', id: 'o' }], [], { 'a.hex': HEX, 'own.chip.wasm': '' }), /own\.chip\.json is missing/);
  assert.match(said([UNO, { type: 'chip-own', id: 'o' }], [], { 'a.hex': HEX, 'own.chip.wasm': '', 'own.chip.json': '{"pins": [1]}' }), /no array `pins` of texts/);
  assert.equal(said([{ type: 'wokwi-pi-pico', id: 'pico' }], [], { 'a.hex': HEX }), 'pico (wokwi-pi-pico): has another microcontroller than the Uno\nthere is no Arduino Uno');
  assert.match(said([UNO], [], { 'a.elf': new Uint8Array([0x7f, 0x45, 0x4c, 0x46, 0]) }), /^a\.elf: it is no ELF file of an AVR$/);
});

test('an ELF file becomes the HEX file that the tools in Python make of it', () => {
  const made = execFileSync('python3', ['-B', '-c', `import sys\nsys.path.insert(0, "tools/wokwi")\nimport test_lower, firmware\nelf = test_lower.Firmware().elf([(0x800100, b"data"), (20, b"\\xff"), (0, bytes(range(20)))])\nsys.stdout.buffer.write(len(elf).to_bytes(4, "little") + elf + firmware.hex_of(firmware.image_of_elf(elf)).encode())`], { cwd: root });
  const size = made.readUInt32LE(0), bytesOf = new Uint8Array(made.subarray(4, 4 + size));
  assert.equal(text(page.asHex(bytesOf)), made.subarray(4 + size).toString());
  assert.throws(() => page.asHex(bytesOf.slice(0, size - 1)), /was cut/);
  assert.throws(() => page.asHex(Uint8Array.from(bytesOf, (byte, i) => (i === 18 ? 62 : byte))), /no ELF file of an AVR/);
  const ready = page.preparedOf(folder([UNO], [], { 'firmware.elf': bytesOf }), kit);
  assert.equal(fileOf(ready, 'firmware.hex'), made.subarray(4 + size).toString());
});

test('numbers are written as Python writes them', () => {
  const cases = { 0: '0.0', 1: '1.0', 0.1: '0.1', 1e-4: '0.0001', 1e-5: '1e-05', 123456.789: '123456.789', 1e15: '1000000000000000.0', 1e16: '1e+16', 1.5e22: '1.5e+22', 1e100: '1e+100', 2.5e-7: '2.5e-07' };
  for (const [x, written] of Object.entries(cases)) { assert.equal(page.floatText(Number(x)), written); assert.equal(page.floatText(-Number(x)), `-${written}`); }
  assert.equal(page.jsonText(page.readJson(' {"b" :[1, 2.50,-0, true,null,"a\\u00e9\\n\\ud800"] , "1":{}, "b2":1E2}')), '{"b": [1, 2.5, 0, true, null, "a\u00e9\\n?"], "1": {}, "b2": 100.0}');
});

test('an archive of more than 64 MiB is not looked at', () => assert.rejects(page.unzipped({ length: (64 << 20) + 1 }), /has more than 64 MiB/));

test('the words of a run name the files as they are passed', () => {
  const project = page.makeProject('button', [['diagram.json', bytes('{}')], ['script.txt', bytes('5us press b\n')]]);
  assert.deepEqual(page.callOf(project, 60).words, ['run', 'button', '--us', '60', '--vcd', 'wave.vcd', '--report', 'report.txt', '--script', 'button/script.txt']);
  assert.deepEqual(page.callOf(project, 60).files.map(([name]) => name), ['button/diagram.json', 'button/script.txt']);
  project.files.set('script.txt', bytes(' \n'));
  assert.ok(!page.callOf(project, 60).words.includes('--script'));
});

test('the pins of chips are read of the example with a chip', () => {
  const folder = path.join(root, 'examples/chip-inverter'), project = page.makeProject('chip-inverter', fs.readdirSync(folder).filter(name => name !== 'expected').map(name => [name, new Uint8Array(fs.readFileSync(path.join(folder, name)))]));
  assert.deepEqual(page.chipsOf(project), { 'chip-inverter': JSON.parse(fs.readFileSync(path.join(folder, 'inverter.json'), 'utf8')).pins });
});

test('a page gets the modules of the chips that print or draw, and of no others', () => {
  const read = name => page.makeProject(name, fs.readdirSync(path.join(root, 'examples', name)).filter(it => it !== 'expected').map(it => [it, new Uint8Array(fs.readFileSync(path.join(root, 'examples', name, it)))]));
  const [[type, { module, display }]] = Object.entries(page.modulesOf(read('chip-display')));
  assert.deepEqual([type, display, module[0], module[1]], ['chip-bars', [32, 64], 0, 97]);
  assert.deepEqual(Object.values(page.modulesOf(read('chip-printf'))).map(it => it.display), [null]);
  assert.deepEqual(page.modulesOf(read('chip-inverter')), {});
  const unused = read('chip-display');
  unused.files.set('diagram.json', bytes('{"parts": []}'));
  assert.deepEqual(page.modulesOf(unused), {});
  const viewers = { 'wokwi-lcd1602': { module: 'AAEC', display: [16, 3], pins: ['RS'] } };
  assert.deepEqual(page.modulesOf(read('lcd-i2c'), viewers), { 'wokwi-lcd1602': { module: new Uint8Array([0, 1, 2]), display: [16, 3], pins: ['RS'] } });
  assert.deepEqual(page.modulesOf(read('chip-inverter'), viewers), {});
  const shown = read('chip-display');
  shown.files.set('wokwi.toml', bytes("[[shown]]\nname = 's'\nbinary = 'bars.wasm'\n"));
  shown.files.set('diagram.json', bytes('{"parts": [], "drawn": {"parts": [{"type": "chip-s"}]}}'));
  assert.deepEqual(Object.keys(page.modulesOf(shown)), ['chip-s'], 'a part that is only drawn');
});

test('packed waves are those that the page of a run reads', t => {
  const file = path.join(root, 'tools/look/page/wave.js');
  if (!fs.existsSync(file)) { t.skip('no tools/look'); return; }
  const { makeWave, unpackWaves } = new Function(`${fs.readFileSync(file, 'utf8')}\nreturn { makeWave, unpackWaves };`)();
  const waves = [makeWave(Uint32Array.from([0, 1, 130, 20000, 159999999]), Uint8Array.from([2, 0, 1, 3, 0])), makeWave(Uint32Array.from([0]), Uint8Array.from([1])),
    makeWave(Uint32Array.from({ length: 40000 }, (_, i) => i * 3), Uint8Array.from({ length: 40000 }, (_, i) => i & 1))];
  const back = unpackWaves(page.packedWaves(waves), waves.map(wave => wave.t.length));
  waves.forEach((wave, i) => { assert.deepEqual([...back[i].t], [...wave.t]); assert.deepEqual([...back[i].v], [...wave.v]); });
});

test('a text in the page of a run is text', () => assert.equal(page.escaped('<a & "b">'), '&lt;a &amp; &quot;b&quot;&gt;'));

test('a script in words of the editor is one that the simulator takes, and the page shows what it moves', () => {
  const sensor = JSON.stringify({ version: 1, parts: [{ type: 'wokwi-arduino-uno', id: 'uno' }, { type: 'wokwi-hc-sr04', id: 'u', attrs: { distance: '30' } }], connections: [] });
  const project = script => page.makeProject('p', [['diagram.json', bytes(sensor)], ['a.hex', bytes(':00000001FF\n')], ['script.txt', bytes(script)]]);
  const { project: made, controls } = page.preparedOf(project('10us set u distance 2.5\n'), kit);
  assert.equal(page.textOf(made, 'script.txt'), '10us set u-control 1\n166cy set u-control 0\n');
  assert.deepEqual(controls, { u: [['distance', 'cm', [[0, '30'], [160, '2.5']]]] });
  assert.deepEqual(page.preparedOf(project('1us set u distance 1\n'), kit), { complaint: 'script line 1: u takes a distance from 2 to 400 cm, and not 1' });
});
