'use strict';
// A project: the files of a folder by their paths in it. It says what a folder of another tool lacks.

const FIRST_FILES = ['diagram.json', 'script.txt', 'wokwi.toml'], SCRIPT = 'script.txt';
const UNO_ALONE = '{\n  "version": 1,\n  "parts": [\n    { "type": "wokwi-arduino-uno", "id": "uno", "top": 0, "left": 0 }\n  ],\n  "connections": []\n}\n';
const isHex = path => /\.hex$/i.test(path), isFirmware = path => /\.(hex|elf)$/i.test(path), isSource = path => /\.(ino|pde|c|cc|cpp|h|hpp|s)$/i.test(path);
const isHidden = path => path.split('/').some(name => name.startsWith('.') || name === '__MACOSX' || name === 'node_modules');

function makeProject(name, files) {
  const project = { name: /^[^-/\0][^/\0]{0,99}$/.test(name) ? name : 'project', files: new Map() };
  for (const [path, bytes] of files) if (path && !isHidden(path)) project.files.set(path, bytes);
  return project;
}

// Of files that were dropped or picked, [[path, bytes], ..], the project: the folder that has the diagram, or all.
function projectOfFiles(files) {
  const kept = files.filter(([path]) => path && !isHidden(path));
  const diagrams = kept.map(([path]) => path).filter(path => path.split('/').pop() === 'diagram.json').sort((a, b) => a.split('/').length - b.split('/').length || (a < b ? -1 : 1));
  const common = kept.length && kept.every(([path]) => path.includes('/') && path.split('/')[0] === kept[0][0].split('/')[0]) ? kept[0][0].split('/')[0] + '/' : '';
  const base = diagrams.length ? diagrams[0].slice(0, -'diagram.json'.length) : common;
  const name = base ? base.split('/').slice(-2)[0] : 'project';
  return makeProject(name, kept.filter(([path]) => path.startsWith(base)).map(([path, bytes]) => [path.slice(base.length), bytes]));
}

const textOf = (project, path) => (project.files.has(path) ? plainText.decode(project.files.get(path)) : '');
const firmwareOf = project => (/^[ \t]*firmware[ \t]*=[ \t]*(['"])(.*?)\1/m.exec(textOf(project, 'wokwi.toml')) || [])[2];

// Gives a project what the simulator needs and the folder can tell: a wokwi.toml for its one HEX file, a diagram of an Uno alone
// for a HEX file without one. An ELF file does as well. Answers what was made, in words.
function complete(project) {
  const hex = [...project.files.keys()].filter(isFirmware).filter(path => !/bootloader/i.test(path)).sort((a, b) => a.length - b.length), made = [];
  if (hex.length && !project.files.has('diagram.json')) {
    project.files.set('diagram.json', utf8.encode(UNO_ALONE));
    made.push('There was no diagram.json, so the board is an Uno alone.');
  }
  if (hex.length && !project.files.has('wokwi.toml')) {
    project.files.set('wokwi.toml', utf8.encode(`[wokwi]\nversion = 1\nfirmware = '${hex[0]}'\n`));
    made.push(`There was no wokwi.toml, so the firmware is ${hex[0]}.`);
  }
  return made;
}

// Puts a HEX file that was handed over alone into a project, as its firmware.
function withFirmware(project, name, bytes) {
  const path = firmwareOf(project) || name;
  project.files.set(path, bytes);
  return [`${name} is the firmware now${path === name ? '' : `, as ${path}`}.`, ...complete(project)];
}

// What a user can do about a project that cannot run yet; null where nothing is known to be amiss.
function adviceOf(project) {
  if (!project.files.size) return 'Open an example, or drop a project\'s folder, its ZIP archive or a HEX file here.';
  if ([...project.files.keys()].some(isFirmware) || project.files.has(firmwareOf(project))) return null;
  return 'There is no firmware, and a page cannot compile: in the Arduino IDE choose Sketch, Export Compiled Binary, and drop NAME.ino.hex here; or drop what ./mudflatjar play FOLDER --keep OUT writes.';
}

// The file of the firmware: the one that wokwi.toml names, else the only one; null where there is none.
function firmwarePath(project) {
  const named = firmwareOf(project), found = [...project.files.keys()].filter(path => isFirmware(path) && !/bootloader/i.test(path));
  return named && project.files.has(named) ? named : found.length === 1 ? found[0] : null;
}

// The chips that wokwi.toml names, in tables [[chip]], or [[shown]] of those that a page alone plays: [{name, binary}, ..].
function chipTables(project, kind = 'chip') {
  return textOf(project, 'wokwi.toml').split(new RegExp(`^[ \\t]*\\[\\[[ \\t]*${kind}[ \\t]*\\]\\].*$`, 'm')).slice(1).map(table => {
    const value = key => (new RegExp(`^[ \\t]*${key}[ \\t]*=[ \\t]*(['"])(.*?)\\1`, 'm').exec(table) || [])[2];
    return { name: value('name'), binary: value('binary') };
  }).filter(({ name, binary }) => name && binary);
}

// The chips, as a look at a run needs them, by 'chip-NAME': {pins, display, module}; those too that a page alone plays, in tables [[shown]].
// The simulator has accepted the files of the others.
function allChips(project) {
  const chips = {};
  for (const { name, binary } of [...chipTables(project), ...chipTables(project, 'shown')]) {
    try {
      const { pins, display } = JSON.parse(textOf(project, binary.replace(/\.wasm$/, '.json')));
      chips['chip-' + name] = { pins, display: display ? [display.width, display.height] : null, module: project.files.get(binary) };
    } catch { /* drawn without its pins' places */ }
  }
  return chips;
}
const chipsOf = project => Object.fromEntries(Object.entries(allChips(project)).map(([type, { pins }]) => [type, pins]));

// Those that can print or draw, since their modules import what does: {'chip-NAME': {module, display}}. A page plays them. `viewers` are
// the chips that show parts of the simulator: {TYPE: {module, display, pins}}, the module as base64.
const SHOWING = ['fd_write', 'framebufferInit'];
function modulesOf(project, viewers = {}) {
  const used = new Set(), modules = {};
  try {
    const { parts, drawn } = JSON.parse(textOf(project, 'diagram.json').replace(/^\uFEFF/, ''));
    for (const part of [...parts, ...((drawn && drawn.parts) || [])]) used.add(part.type);
  } catch { return modules; }
  for (const [type, made] of Object.entries(viewers)) if (used.has(type)) modules[type] = { ...made, module: fromBase64(made.module) };
  for (const [type, { module, display }] of Object.entries(allChips(project))) {
    if (!used.has(type) || !module) continue;
    const text = latin1.decode(module);
    if (SHOWING.some(call => text.includes(call))) modules[type] = { module, display };
  }
  return modules;
}

// The words of a run, and the files under the names that these words ask for.
function callOf(project, us) {
  const words = ['run', project.name, '--us', String(us), '--vcd', 'wave.vcd', '--report', 'report.txt'];
  if (textOf(project, SCRIPT).trim()) words.push('--script', `${project.name}/${SCRIPT}`);
  return { words, files: [...project.files].map(([path, bytes]) => [`${project.name}/${path}`, bytes]) };
}
