'use strict';
// What the simulator is given of a project: the project itself where it takes it as it is, else one that is made of it, as
// tools/wokwi/lower.py makes one of a folder of Wokwi's editor. A page compiles nothing: firmware and chips' modules must be there.
//
//   preparedOf(project, { types, chips })    types: tools/wokwi/types.json; chips: {file of tools/wokwi/chips: bytes}
//     -> { project, notes, faults, placeOf, controls }   notes say what was changed, faults what was left out; controls as run.js has them
//     -> { complaint }                           why there is nothing to run
//   placeOf(place, file) is where a place of a new file was in the project's own; null of what is new in it.

class ProjectFault extends Error {}

function preparedOf(project, kit) {
  const prepared = boardOf(project, kit);
  if (prepared.complaint) return prepared;
  let diagram;
  try { diagram = JSON.parse(textOf(prepared.project, 'diagram.json').replace(/^\uFEFF/, '')); } catch { return prepared; }      // the simulator says what is wrong
  if (!diagram || !Array.isArray(diagram.parts) || !diagram.parts.every(part => part && typeof part.id === 'string')) return prepared;
  try {
    const own = textOf(project, SCRIPT), { text, seen } = expanded(own, diagram, kit.types), controls = controlsOf(diagram, kit.types, seen);
    if (text === own) return { ...prepared, controls };
    return { ...prepared, controls, project: { ...prepared.project, files: new Map([...prepared.project.files, [SCRIPT, utf8.encode(text)]]) } };
  } catch (fault) {
    if (fault instanceof MoveFault) return { complaint: fault.message };
    throw fault;
  }
}

// The project with a board that the simulator takes, and its script as it was.
function boardOf(project, kit) {
  const same = { project, notes: [], faults: [], placeOf: place => place };
  let diagram;
  try { diagram = readJson(textOf(project, 'diagram.json').replace(/^\uFEFF/, '')); } catch { return same; }      // the simulator says what is wrong
  if (shapeFault(diagram) || !isToBeLowered(project, diagram, kit.types)) return same;
  try {
    return loweredProject(project, diagram, kit) || same;
  } catch (fault) {
    if (fault instanceof ProjectFault) return { complaint: fault.message };
    throw fault;
  }
}

function hasOtherFirmware(project) {
  const path = firmwarePath(project);
  return path !== null && (path !== firmwareOf(project) || isElf(project.files.get(path)));
}

function isToBeLowered(project, diagram, types) {
  const known = new Set(chipTables(project).filter(({ binary }) => project.files.has(binary)).map(({ name }) => name));
  return hasOtherFirmware(project) || needsLowering(diagram, types) || [...chipsIn(project, diagram).keys()].some(name => !known.has(name)) || needsThousandths(project, diagram);
}

// Whether a diagram has parts of the editor that the simulator lacks: one that has none, and a fault, the simulator refuses by place.
const isOfEditor = (diagram, { lowered, breadboards, ...others }) => diagram.get('parts').some(part => [lowered, breadboards, others['left out'], others['not there']].some(types => Object.hasOwn(types, part.get('type'))));

// The chips that wokwi.toml names, and those of parts whose source or module is in the folder.
function chipsIn(project, diagram) {
  const chips = new Map(chipTables(project).map(({ name, binary }) => [name, chipOf(project, name, binary)]));
  for (const part of diagram.get('parts')) {
    const name = part.get('type').slice('chip-'.length);
    if (!part.get('type').startsWith('chip-') || chips.has(name) || /[/\0]/.test(name)) continue;
    const chip = chipOf(project, name, null);
    if (chip.module || chip.source) chips.set(name, chip);
  }
  return chips;
}

// A chip's module, source and pin file, as far as they are there.
function chipOf(project, name, binary) {
  const stems = [...(binary ? [binary.replace(/\.[^./]*$/, '')] : []), `${name}.chip`, name], first = ending => stems.map(stem => stem + ending).find(path => project.files.has(path));
  return { name, module: binary && project.files.has(binary) ? binary : first('.wasm'), source: first('.c'), text: first('.json') };
}

function pinsOf(project, { name, module, source, text }) {
  if (!module && source) throw new ProjectFault(`chip ${name}: ${source} is there and no module of it. A page cannot compile it: ./mudflatjar play ${project.name} --keep OUT does; drop the folder OUT here.`);
  if (!module) throw new ProjectFault(`chip ${name}: neither a module nor ${name}.chip.c is there`);
  if (!text) throw new ProjectFault(`chip ${name}: ${name}.chip.json is missing`);
  let pins = null;
  try { ({ pins } = JSON.parse(textOf(project, text).replace(/^\uFEFF/, ''))); } catch { /* said below */ }
  if (!Array.isArray(pins) || !pins.every(pin => typeof pin === 'string')) throw new ProjectFault(`${text} has no array \`pins\` of texts`);
  return pins.filter(Boolean);
}

// ---- Attributes in thousandths (sdk/wokwi-api.h), as tools/wokwi/attributes.py hands them over: a chip whose module asks for such gets
// `distance` "23.5" also as `distance.thousandths` "23500".

const THOUSANDTHS = '.thousandths', DECIMAL = new RegExp(`^${SPACE}[+-]?(?:[0-9]+(?:\\.[0-9]*)?|\\.[0-9]+)(?:[eE][+-]?[0-9]{1,3})?${SPACE}$`);
const isWholeText = text => /^-?[0-9]{1,10}$/.test(text) && Number(text) >= -(2 ** 31) && Number(text) < 2 ** 32;
const asksThousandths = module => { let text = ''; for (let i = 0; i < module.length; i += 0x8000) text += String.fromCharCode(...module.subarray(i, i + 0x8000)); return text.includes(`${THOUSANDTHS}\0`); };
function thousandthsOf(text) {
  const number = DECIMAL.test(text) ? Number(stripped(text)) : NaN, made = isFinite(number) ? Number(rounded(number * 1000)) : NaN;
  return made >= -(2 ** 31) && made < 2 ** 31 ? String(made) : null;
}
const needsThousandths = (project, diagram) => [...chipsIn(project, diagram).values()].some(({ name, module }) => asksThousandths(project.files.get(module) || new Uint8Array(0))
  && diagram.get('parts').some(part => part.get('type') === `chip-${name}` && [...attrsOf(part).values()].some(value => !isWholeText(value) && thousandthsOf(value) !== null)));
function handedOver(attrs, module) {
  const made = new Map(attrs);
  if (asksThousandths(module)) for (const [name, value] of attrs) { const number = isWholeText(value) ? null : thousandthsOf(value); if (number !== null) made.set(name + THOUSANDTHS, number); }
  return made;
}

// wokwi.toml with the firmware and [name, stem of the file] of each chip; `shown` are those that a page alone plays, which the simulator
// ignores.
function settingsText(chips, shown) {
  const tables = (kind, rows) => rows.map(([name, stem]) => `\n[[${kind}]]\nname = ${JSON.stringify(name)}\nbinary = ${JSON.stringify(`${stem}.wasm`)}\n`).join('');
  return `[wokwi]\nversion = 1\nfirmware = 'firmware.hex'\n${tables('chip', chips)}${tables('shown', shown)}`;
}

// The pin file of a chip of ours, with the size of its display and the pins that it has here.
function ownPinFile(bytes, size, pins) {
  const value = readJson(plainText.decode(bytes)), numbers = Object.entries(size).map(([side, n]) => [side, new Numeral(String(n))]);
  if (pins) value.set('pins', pins);
  if (numbers.length) value.set('display', new Map(numbers));
  return utf8.encode(jsonText(value));
}

// What is said of the controls of a chip: a module is as it was built, so they keep their values.
function controlNotes(name, pinFile) {
  const { rules, faults } = chipRules(pinFile);
  return (Object.keys(rules).length ? [`its controls keep their values: only a chip that is built from its source (${name}.chip.c, and no module) has what moves them`] : faults).map(fault => `chip ${name}: ${fault}`);
}

// Null of a diagram that the simulator is to refuse.
function loweredProject(project, diagram, kit) {
  const chips = chipsIn(project, diagram), lowering = new Lowering(diagram, new Map([...chips].map(([name, chip]) => [name, pinsOf(project, chip)])), kit.types);
  for (const part of lowering.parts) {
    const name = part.get('type').slice('chip-'.length), own = lowering.ownChips.get(name), module = !part.get('type').startsWith('chip-') ? null : own ? kit.chips[`${own[0]}.wasm`] : project.files.get(chips.get(name).module);
    if (module) part.set('attrs', handedOver(part.get('attrs'), module));
  }
  const text = lowering.outcome();
  if (lowering.faults.length && !isOfEditor(diagram, kit.types) && !hasOtherFirmware(project)) return null;
  if (!lowering.isBoard) throw new ProjectFault(lowering.faults.join('\n'));
  const path = firmwarePath(project), files = new Map(), stems = [];
  if (path) {
    try { files.set('firmware.hex', asHex(project.files.get(path))); } catch (fault) { throw new ProjectFault(`${path}: ${fault.message}`); }
  }
  for (const [name, chip] of chips) {
    let stem = `chip-${name.replace(/[^A-Za-z0-9_-]/gu, '_')}`;
    while (stems.some(([, other]) => other === stem)) stem += '_';
    files.set(`${stem}.json`, project.files.get(chip.text)).set(`${stem}.wasm`, project.files.get(chip.module));
    lowering.notes.push(...controlNotes(name, JSON.parse(textOf(project, chip.text).replace(/^\uFEFF/, ''))));
    stems.push([name, stem]);
  }
  const shown = [], onBoard = new Set(lowering.parts.map(part => part.get('type')));
  for (const { name, binary } of chipTables(project, 'shown')) {
    const chip = chipOf(project, name, binary), stem = `shown-${shown.length}`;
    pinsOf(project, chip);
    files.set(`${stem}.json`, project.files.get(chip.text)).set(`${stem}.wasm`, project.files.get(chip.module));
    shown.push([name, stem]);
  }
  for (const [name, [own, size, pins]] of lowering.ownChips) {
    files.set(`${name}.wasm`, kit.chips[`${own}.wasm`]).set(`${name}.json`, ownPinFile(kit.chips[`${own}.json`], size, pins));
    (onBoard.has(`chip-${name}`) ? stems : shown).push([name, name]);
  }
  files.set('diagram.json', utf8.encode(text)).set('wokwi.toml', utf8.encode(settingsText(stems, shown)));
  if (project.files.has(SCRIPT)) files.set(SCRIPT, project.files.get(SCRIPT));
  const placeOf = (place, file) => {
    if (file === SCRIPT) return place;
    const n = file === 'diagram.json' && place && lowering.places[place.what] ? lowering.places[place.what][place.n - 1] : 0;
    return n ? { ...place, n } : null;
  };
  return { project: { name: project.name, files }, notes: lowering.notes, faults: lowering.faults, placeOf };
}
