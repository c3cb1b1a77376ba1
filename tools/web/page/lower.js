'use strict';
// Makes of a diagram as Wokwi's editor writes it one whose parts the simulator has, as tools/wokwi/diagram.py does by the same table,
// tools/wokwi/types.json. Both give the same text, the same notes and the same faults, which a test compares.

const CONTROL = 'control';              // the pin of a chip of ours by which a script moves its controls
const MOST_PARTS = 64, MOST_WIRES = 512, MOST_CHIPS = 8, MOST_PIXELS = 65536;
// What a made project keeps of a part, for a page: its type in the editor, the part that it is a piece of, its place in a chain.
const MADE = ['as', 'within', 'slice'];
const isNumeral = it => it instanceof Numeral, ruleOf = (rules, name) => (Object.hasOwn(rules, name) ? rules[name] : undefined);

// A text as Python's repr() writes it, for sentences.
function quoted(text) {
  if (text === undefined) return 'None';
  const mark = text.includes("'") && !text.includes('"') ? '"' : "'", named = { '\\': '\\\\', '\n': '\\n', '\r': '\\r', '\t': '\\t', [mark]: `\\${mark}` };
  const hex = c => { const n = c.codePointAt(0); return n < 256 ? `\\x${n.toString(16).padStart(2, '0')}` : n < 65536 ? `\\u${n.toString(16).padStart(4, '0')}` : `\\U${n.toString(16).padStart(8, '0')}`; };
  return mark + text.replace(/[\\\n\r\t'"]|[\p{C}\p{Z}]/gu, c => named[c] || (c === ' ' || c === '"' || c === "'" ? c : hex(c))) + mark;
}

// Sets that grow together: union-find over texts.
function makeJoined() {
  const above = new Map(), find = it => { while (above.has(it) && above.get(it) !== it) it = above.get(it); return it; };
  return { find, join(one, other) { const to = find(one), from = find(other); if (to !== from) above.set(from, to); } };
}

// What keeps a value from being a diagram; null where nothing does.
function shapeFault(diagram) {
  if (!(diagram instanceof Map) || !isNumeral(diagram.get('version')) || diagram.get('version').value !== 1) return 'it is no object with version 1';
  for (const name of ['parts', 'connections']) if (!Array.isArray(diagram.get(name))) return `it has no array \`${name}\``;
  for (const [i, part] of diagram.get('parts').entries()) {
    if (!(part instanceof Map) || typeof part.get('type') !== 'string' || typeof part.get('id') !== 'string') return `part ${i + 1} lacks its texts \`type\` and \`id\``;
    if (part.has('attrs') && !(part.get('attrs') instanceof Map)) return `the attrs of part ${i + 1} are no object`;
  }
  for (const [i, wire] of diagram.get('connections').entries()) {
    if (!Array.isArray(wire) || wire.length < 2 || !wire.slice(0, 2).every(end => typeof end === 'string' && end.includes(':'))) return `connection ${i + 1} lacks two ends part:pin`;
  }
  return null;
}

// The attributes that are texts or numbers, as texts.
const attrsOf = part => new Map([...(part.get('attrs') || [])].filter(([, value]) => typeof value === 'string' || isNumeral(value)).map(([key, value]) => [key, isNumeral(value) ? value.text : value]));
const caseOf = (rule, attrs) => attrs.get(rule.by) || rule.default;

// Whether the simulator lacks a type of the diagram, or an attribute's form.
function needsLowering(diagram, types) {
  return diagram.get('parts').some(part => {
    const kind = part.get('type'), attrs = attrsOf(part), rule = ruleOf(types.lowered, kind), simulated = ruleOf(types.simulated, kind);
    if (rule && !(rule.cases && ruleOf(rule.cases, caseOf(rule, attrs)) === null)) return true;
    if (!simulated && !kind.startsWith('chip-')) return true;
    const numbers = Object.keys((simulated && simulated.numbers) || {}).filter(key => (part.get('attrs') || new Map()).has(key));
    return !numbers.every(key => /^[0-9]+$/.test(attrs.get(key) ?? '')) || !/^[A-Za-z0-9_-]{1,64}$/.test(part.get('id'));
  });
}

// One diagram on its way. `notes` are what a reader should know, `faults` what could not be done.
class Lowering {
  constructor(diagram, chipPins, types) {
    Object.assign(this, { diagram, chipPins, types, notes: [], faults: [], parts: [], wires: [] });
    this.ownChips = new Map();          // name in the new diagram: [name of the file among the chips that the page has, size of its display, its pins where they are others]
    this.ends = new Map();              // of a node, the ends that are that pin now
    this.pins = new Map();              // of a part, its pins, or null where any name is one
    this.strips = new Map();            // of a breadboard, its columns and the length of its rails
    this.reshaped = new Set();          // parts that are drawn as others, with their pins elsewhere
    this.whole = new Map();             // parts that are drawn as the editor draws them, whatever they have become: the ids that they have then
    this.isOther = false;               // whether a wire is drawn to a pin that the new diagram has no more
    this.controls = new Map();          // of parts that a hand moves by more than a script of the program has: their type, attributes and pieces
    this.scenery = [];                  // what the editor drew and the new diagram has no part for
    this.drawn = [];                    // the editor's wires, as a page draws them
    this.inner = [];                    // wires between the parts that one part has become
    this.unseen = [];                   // those to hidden ones, by which a script moves a chip's controls
    this.level = new Map();             // of each net, one end that is on it
    this.isBoard = true;
    this.nets = makeJoined();
    this.ids = new Set(diagram.get('parts').map(part => part.get('id')));
    this.firsts = [...new Map([...diagram.get('parts')].reverse().map(part => [part.get('id'), part])).values()].reverse();      // without second parts of an id
    this.places = { part: [], connection: [] };     // of each new part and wire, the place of the old one, from 1; 0 of a wire that was none
    this.begin();
    for (const wire of [...this.inner, ...this.unseen]) this.addWire(wire, 0);
    this.connect();
  }

  // ---- Parts

  // {id: [[id, pixels], ..]}: the parts that pass on the same bits, from each that begins a chain of two or more. They become one chip,
  // as if it were a strip.
  chains() {
    const sizes = new Map(), after = new Map(), found = new Map();
    for (const part of this.firsts) {
      const rule = ruleOf(this.types.lowered, part.get('type'));
      if (!rule || !rule.chained) continue;
      try { sizes.set(part.get('id'), sizeOf(rule, attrsOf(part))); } catch (fault) { if (fault instanceof ValueFault) return found; throw fault; }
    }
    const wires = this.diagram.get('connections').map(wire => wire.slice(0, 2)), ends = wires.flat(), count = end => ends.filter(it => it === end).length;
    for (const [first, second] of wires) {
      for (const [one, other] of [[first, second], [second, first]]) {
        const head = one.endsWith(':DOUT') && one.slice(0, -5), next = other.endsWith(':DIN') && other.slice(0, -4);
        if (sizes.has(head) && sizes.has(next) && count(one) === 1 && count(other) === 1) after.set(head, next);
      }
    }
    for (const head of sizes.keys()) {
      if (!after.has(head) || [...after.values()].includes(head)) continue;
      const chain = [head];
      while (after.has(chain.at(-1)) && !chain.includes(after.get(chain.at(-1)))) chain.push(after.get(chain.at(-1)));
      found.set(head, chain.map(name => [name, sizes.get(name).width * sizes.get(name).height]));
    }
    return found;
  }

  // The ids of parts that only show, of which the board has no room for a chip: a page shows them by the levels of their wires.
  viewers(links) {
    const rules = this.firsts.filter(part => !links.has(part.get('id'))).map(part => [part.get('id'), ruleOf(this.types.lowered, part.get('type')) || {}]);
    const alone = new Set(rules.filter(([, rule]) => 'page alone' in rule).map(([name]) => name)), chips = rules.reduce((sum, [name, rule]) => sum + ('chip' in rule && !alone.has(name) ? (rule.as || [{}]).filter(piece => !piece.hidden).length : 0), 0) + this.firsts.filter(part => part.get('type').startsWith('chip-')).length;
    const ends = new Set(this.diagram.get('connections').flatMap(wire => wire.slice(0, 2))), free = rules.filter(([name, rule]) => rule['only shows'] && !alone.has(name) && !ends.has(`${name}:DOUT`)).map(([name]) => name);
    return new Set([...alone, ...(chips > MOST_CHIPS ? free.slice(-(chips - MOST_CHIPS)) : [])]);
  }

  begin() {
    const seen = new Set(), chains = this.chains(), links = new Map([...chains].flatMap(([head, chain]) => chain.slice(1).map(([name]) => [name, head]))), viewers = this.viewers(links);
    this.heads = new Map([...chains.keys()].map(name => [name, this.newId(name, name)]));     // of each first part of a chain, the id in the new diagram
    this.diagram.get('parts').forEach((part, i) => {
      const kind = part.get('type'), name = part.get('id'), attrs = attrsOf(part);
      this.place = i + 1;
      if (seen.has(name)) { this.faults.push(`${name}: a second part has this id`); return; }
      seen.add(name);
      let rule = ruleOf(this.types.lowered, kind);
      if (rule && rule.cases) {
        const which = caseOf(rule, attrs);
        if (!Object.hasOwn(rule.cases, which)) { this.faults.push(`${name} (${kind}): ${rule.by} is ${quoted(which)}, and not one of ${Object.keys(rule.cases).join(', ')}`); return; }
        rule = { ...rule, as: rule.cases[which] };
      }
      const simulated = ruleOf(this.types.simulated, kind), strip = ruleOf(this.types.breadboards, kind), chain = chains.get(name);
      if (links.has(name)) { this.link(part, attrs, rule, chains.get(links.get(name)), this.heads.get(links.get(name))); return; }
      if (chain) rule = { ...rule, display: { width: String(chain.reduce((sum, [, count]) => sum + count, 0)), height: '1' }, slice: sliceOf(this.heads.get(name), 0, chain[0][1]) };
      if (viewers.has(name)) this.view(part, attrs, rule);
      else if (rule && rule.as !== null) this.replace(part, attrs, rule);
      else if (simulated) this.keep(part, attrs, simulated);
      else if (strip) {
        this.strips.set(name, strip);
        this.scenery.push(new Map([...this.placed(part, kind, name), ...Object.entries(strip).map(([key, value]) => [key, new Numeral(String(value))])]));
      } else if (ruleOf(this.types['left out'], kind)) {
        this.leaveOut(name, kind);
        const left = this.types['left out'][kind];
        this.scenery.push(left['drawn as itself'] ? this.placed(part, kind, name).set('as', kind) : this.placed(part, kind, name));
        this.control(part, kind, attrs, left, new Map());
      } else if (kind.startsWith('chip-')) this.keepChip(part, attrs);
      else this.faults.push(`${name} (${kind}): ${ruleOf(this.types['not there'], kind) ?? 'is no type that is known here'}`);
    });
  }

  // `name` with what an id may not have changed, and other than all ids but `old`.
  newId(name, old = null) {
    const base = name.replace(/[^A-Za-z0-9_-]/gu, '_').slice(0, 64) || 'part';
    let made = base;
    for (let count = 2; made !== old && this.ids.has(made); count++) made = `${base.slice(0, 60)}-${count}`;
    this.ids.add(made);
    return made;
  }

  // A part of a kind and a name where the old one is.
  placed(part, kind, name) {
    return new Map([['type', kind], ['id', name], ...['top', 'left', 'rotate', 'hide', ...MADE].filter(key => part.has(key)).map(key => [key, part.get(key)])]);
  }

  put(part, kind, name, attrs) {
    this.parts.push(this.placed(part, kind, name).set('attrs', attrs));
    this.places.part.push(this.place);
  }

  keep(part, attrs, rule) {
    const name = part.get('id'), kept = this.newId(name, name), others = rule['other names'] || {};
    if (kept !== name) this.notes.push(`${name} is called ${kept}: an id has letters, digits, _ and - alone`);
    const pins = rule['pins if'] && attrs.get(rule['pins if'].attribute) === rule['pins if'].is ? rule['pins if'].pins : rule.pins;
    this.pins.set(name, new Set([...pins, ...Object.keys(others)]));
    for (const pin of this.pins.get(name)) this.ends.set(nodeOf(name, pin), [`${kept}:${ruleOf(others, pin) ?? pin}`]);
    this.put(part, part.get('type'), kept, this.fitting(name, attrs, rule));
  }

  // The attributes that the simulator reads, in its form.
  fitting(name, attrs, { numbers = {}, words = {}, addresses = [] }) {
    const fitted = new Map(attrs);
    for (const key of [...Object.keys(numbers), ...Object.keys(words), ...addresses]) if (fitted.get(key) === '') fitted.delete(key);
    for (const [key, most] of Object.entries(numbers)) {
      if (!fitted.has(key)) continue;
      try {
        const value = numberOf(fitted.get(key));
        fitted.set(key, rounded(value));
        if (!(value >= 0 && value <= most)) throw new ValueFault(`is not within 0 and ${most}`);
      } catch (fault) {
        this.valueFault(fault, `${name}: ${key} ${quoted(attrs.get(key))}`);
      }
    }
    for (const [key, known] of Object.entries(words)) if (fitted.has(key) && !known.includes(fitted.get(key))) this.faults.push(`${name}: ${key} ${quoted(attrs.get(key))} is none of ${known.join(', ')}`);
    for (const key of addresses) if (fitted.has(key) && !/^(?:0x[0-9a-fA-F]{1,2}|[0-9]{1,5})$/.test(fitted.get(key))) this.faults.push(`${name}: ${key} ${quoted(attrs.get(key))} is no address`);
    return fitted;
  }

  valueFault(fault, what) {
    if (!(fault instanceof ValueFault)) throw fault;
    this.faults.push(`${what} ${fault.message}`);
  }

  // Keeps of a part with controls what moves.js needs: its type, its attributes and the ids of its pieces.
  control(part, kind, attrs, rule, ids) {
    if (rule.controls) this.controls.set(part.get('id'), new Map([['type', kind], ['attrs', attrs], ['ids', ids]]));
  }

  leaveOut(name, kind) {
    const rule = this.types['left out'][kind];
    this.pins.set(name, null);
    this.reshaped.add(name);
    this.notes.push(`${name} (${kind}) ${rule.why}${rule.controls ? '' : ', and is left out; its wires stay'}`);
    for (const [first, ...others] of rule.joined || []) for (const pin of others) this.nets.join(nodeOf(name, first), nodeOf(name, pin));
  }

  // A part of a chain, which the chip of its first part shows; `head` is that part's id in the new diagram.
  link(part, attrs, rule, chain, head) {
    const name = part.get('id'), kind = part.get('type'), place = chain.findIndex(([it]) => it === name), kept = new Map((rule.as[0].keep || []).filter(key => attrs.has(key)).map(key => [key, attrs.get(key)]));
    this.pins.set(name, null);
    if (place === chain.length - 1) this.ends.set(nodeOf(name, 'DOUT'), [`${head}:DOUT`]);
    const from = chain.slice(0, place).reduce((sum, [, count]) => sum + count, 0);
    this.scenery.push(this.placed(part, kind, name).set('attrs', kept).set('as', kind).set('slice', sliceMap(sliceOf(head, from, chain[place][1]))));
    this.notes.push(`${name} (${kind}) is shown by the chip of ${chain[0][0]}, which is before it in the chain`);
  }

  // A part that only shows, and is no part of the board: a page plays its chip on the levels of its wires.
  view(part, attrs, rule) {
    const name = part.get('id'), kind = part.get('type'), piece = rule.as[0];
    this.pins.set(name, null);
    this.scenery.push(this.placed(part, this.pieceType(part, piece, rule, attrs), name).set('attrs', this.givenTo(part, piece, attrs)).set('as', kind));
    this.notes.push(`${name} (${kind}) is shown by the page alone: ${rule['page alone'] ?? `a board has room for ${MOST_CHIPS} chips`}`);
  }

  keepChip(part, attrs) {
    const name = part.get('id'), chip = part.get('type').slice('chip-'.length);
    if (!this.chipPins.has(chip)) { this.faults.push(`${name} (${part.get('type')}): the folder has no chip ${chip}: neither ${chip}.chip.wasm nor ${chip}.chip.c`); return; }
    const pins = this.chipPins.get(chip), kept = this.newId(name, name);
    this.pins.set(name, new Set(pins));
    for (const pin of pins) this.ends.set(nodeOf(name, pin), [`${kept}:${pin}`]);
    this.put(part, part.get('type'), kept, attrs);
  }

  replace(part, attrs, rule) {
    const name = part.get('id'), kind = part.get('type'), names = new Map(), own = new Set(rule['other pins'] || []), asOne = rule['drawn as one'], asItself = rule['drawn as itself'];
    if (!asOne && !asItself) this.reshaped.add(name);
    if (asOne) {
      this.whole.set(name, name);
      this.scenery.push(this.placed(part, kind, name).set('attrs', new Map(asOne.filter(key => attrs.has(key)).map(key => [key, attrs.get(key)]))).set('as', kind));
    }
    this.pins.set(name, own);
    for (const piece of rule.as) {
      const made = this.heads.get(name) ?? this.newId(name + piece.id, piece.id === '' ? name : null), kept = this.givenTo(part, piece, attrs);
      names.set(piece.id, made);
      const simulated = ruleOf(this.types.simulated, piece.type), fitted = simulated ? this.fitting(name, kept, simulated) : kept;
      for (const [pin, now] of Object.entries(piece.pins)) {
        own.add(pin);
        const node = nodeOf(name, pin);
        if (!this.ends.has(node)) this.ends.set(node, []);
        this.ends.get(node).push(`${made}:${now}`);
      }
      this.put(part, this.pieceType(part, piece, rule, attrs), made, fitted);
      if (piece.hidden) {
        this.parts.at(-1).set('within', name).set('hide', true);
        continue;
      }
      if (asItself) {
        this.parts.at(-1).set('as', kind);
        this.whole.set(name, made);
      }
      if (asOne) this.parts.at(-1).set('within', name);
      if (rule.slice) {
        this.parts.at(-1).set('slice', sliceMap(rule.slice));
        this.ends.delete(nodeOf(name, 'DOUT'));
      }
    }
    for (const both of rule.wires || []) (rule.controls ? this.unseen : this.inner).push([...both.map(end => `${names.get(end.split(':')[0])}:${end.split(':')[1]}`), '', []]);
    this.control(part, kind, attrs, rule, names);
    const pieces = rule.as.filter(piece => !piece.hidden).map(piece => `${names.get(piece.id)} (${piece.type})`).join(', ');
    if (rule.as[0].type !== kind || 'says' in rule) this.notes.push(`${name} (${kind}) is ${pieces}${'says' in rule ? `: it ${rule.says}` : ''}`);
  }

  // The attributes of a piece, from those of its part.
  givenTo(part, piece, attrs) {
    const given = new Map((piece.keep || []).filter(key => attrs.has(key)).map(key => [key, attrs.get(key)]));
    for (const [key, how] of Object.entries(piece.attrs || {})) {
      try { given.set(key, valueOf(how, attrs)); } catch (fault) { this.valueFault(fault, `${part.get('id')} (${part.get('type')}): ${how.from} ${quoted(attrs.get(how.from))}`); }
    }
    return given;
  }

  // The type of a piece; a chip of ours gets a name that no chip of the project has, with the size of its display where the part says that.
  pieceType(part, piece, rule, attrs) {
    if (!('chip' in rule) || !piece.type.startsWith('chip-')) return piece.type;
    let made = rule.chip, size = {};
    if (rule.display) {
      try {
        size = sizeOf(rule, attrs);
        if (!(Math.min(size.width, size.height) >= 1 && (size.width * size.height <= MOST_PIXELS || 'page alone' in rule))) throw new ValueFault(`a display has 1 to ${MOST_PIXELS} pixels`);
      } catch (fault) {
        this.valueFault(fault, `${part.get('id')} (${part.get('type')}): its display:`);
        size = { width: 1, height: 1 };
      }
      made += `-${size.width}x${size.height}`;
    }
    const pins = [...new Set(Object.values(piece.pins)), ...(rule.as.some(it => it.hidden) ? [CONTROL] : [])], own = [rule.chip, size, rule['drawn as itself'] ? pins : null], same = JSON.stringify(own);
    while (this.chipPins.has(made) || (this.ownChips.has(made) && JSON.stringify(this.ownChips.get(made)) !== same)) made += '-';
    this.ownChips.set(made, own);
    return `chip-${made}`;
  }

  // ---- Wires

  addWire(wire, place) { this.wires.push(wire); this.places.connection.push(place); }

  // The strip of a breadboard that a hole is on, or null where there is no such hole.
  hole(name, pin) {
    const { columns, rail: length } = this.strips.get(name), column = /^([1-9][0-9]?)(t\.[a-e]|b\.[f-j])$/.exec(pin), rail = /^([tb][pn])\.([1-9][0-9]?)$/.exec(pin);
    if (column && Number(column[1]) <= columns) return column[1] + column[2][0];
    return rail && Number(rail[2]) <= length ? rail[1] : null;
  }

  // What an end of a wire is on, {name, node}, or null after a fault.
  node(place, end) {
    const at = end.indexOf(':'), name = end.slice(0, at), pin = end.slice(at + 1);
    if (this.strips.has(name)) {
      const strip = this.hole(name, pin);
      if (strip === null) { this.faults.push(`connection ${place}: ${name} has no hole ${pin}`); return null; }
      return { name, node: nodeOf(name, strip) };
    }
    if (!this.pins.has(name)) {
      if (!this.diagram.get('parts').some(part => part.get('id') === name)) this.faults.push(`connection ${place}: there is no part ${name}`);
      return null;                      // of a part that is a fault itself nothing more is said
    }
    const pins = this.pins.get(name);
    if (pins !== null && !pins.has(pin)) {
      const its = [...pins].sort(byLength).join(', ');
      this.faults.push(`connection ${place}: ${name} has no pin ${pin}${pins.size && pins.size <= 16 ? `; it has ${its}` : ''}`);
      return null;
    }
    return { name, pin, node: nodeOf(name, pin) };
  }

  connect() {
    const groups = makeJoined(), order = new Set(), colours = new Map();
    this.diagram.get('connections').forEach((wire, i) => {
      if (wire.slice(0, 2).some(end => end.startsWith('$'))) return;
      const both = wire.slice(0, 2).map(end => this.node(i + 1, end));
      if (both.includes(null)) return;
      for (const { node } of both) order.add(node);
      const ends = both.map(({ node }) => this.ends.get(node) || []);
      if (ends[0].length === 1 && ends[1].length === 1) {
        this.addWire([ends[0][0], ends[1][0], ...this.drawingOf(wire, both)], i + 1);
        groups.join(ends[0][0], ends[1][0]);
      }
      this.draw(wire, both);
      this.nets.join(both[0].node, both[1].node);
      const colour = wire.length > 2 && typeof wire[2] === 'string' ? wire[2] : '';
      for (const { node } of both) if (!colours.has(node)) colours.set(node, colour);
    });
    this.drawPieces(order, colours);
    const nets = new Map();
    for (const node of order) { const net = this.nets.find(node); nets.set(net, [...(nets.get(net) || []), node]); }
    for (const [net, nodes] of nets) {
      const colour = nodes.map(node => colours.get(node)).find(Boolean) || '';
      let first = null;
      for (const end of nodes.flatMap(node => this.ends.get(node) || [])) {
        if (first === null) { first = end; this.level.set(net, end); } else if (groups.find(first) !== groups.find(end)) {
          this.addWire([first, end, colour, []], 0);
          groups.join(first, end);
        }
      }
    }
  }

  // ---- The drawing

  // A wire's colour and steps; those of a wire to a part that is drawn as another lead past its pins.
  drawingOf(wire, both) { return wire.length > 3 && both.some(({ name }) => this.reshaped.has(name)) ? [...wire.slice(2, 3), []] : wire.slice(2); }

  // Keeps how the editor drew a wire. An end in a hole, or on a part that is left out, stays what it is.
  draw(wire, both) {
    const whole = both.map(({ name, pin }) => (this.whole.has(name) ? `${this.whole.get(name)}:${pin}` : null));
    const ends = both.map(({ name, node }, i) => (this.strips.has(name) || this.pins.get(name) === null ? [wire[i]] : whole[i] !== null ? [whole[i]] : this.ends.get(node) || []));
    if (both.some(({ node }, i) => whole[i] !== null && ((this.ends.get(node) || []).length !== 1 || this.ends.get(node)[0] !== whole[i]))) this.isOther = true;
    if (!ends.every(it => it.length)) return;
    const isPlugged = wire.length > 3 && Array.isArray(wire[3]) && wire[3].length === 1 && wire[3][0] === '$bb', [colour, steps] = [...(isPlugged ? wire.slice(2) : this.drawingOf(wire, both)), '', []];
    this.drawn.push([ends[0][0], ends[1][0], colour, steps, both[0].node]);
  }

  // The wires between the parts that one part has become.
  drawPieces(nodes, colours) {
    for (const node of nodes) {
      if (this.whole.has(JSON.parse(node)[0])) continue;
      const [first, ...others] = this.ends.get(node) || [''];
      for (const other of others) this.drawn.push([first, other, colours.get(node), [], node]);
    }
  }

  // What a page draws in place of the new diagram's wires: what is no part of it, and the editor's wires, each with the pin whose
  // level it has, or '' where there is none.
  drawing() {
    const pin = end => end.replace(':', '.'), wires = [...this.drawn.map(([one, other, colour, steps, node]) => [one, other, colour, steps, pin(this.level.get(this.nets.find(node)) || '')]), ...this.inner.map(wire => [...wire, pin(wire[0])])];
    return new Map([['of', new Numeral(String(markOf(this.wires.map(([one, other]) => [wellFormed(one), wellFormed(other)]))))], ['parts', this.scenery], ['connections', wires]]);
  }

  // ---- The outcome

  refuseBoard(fault) { this.faults.push(fault); this.isBoard = false; }

  // The new diagram as a text; what breaks a rule of a whole board is among the faults.
  outcome() {
    const kinds = this.parts.map(part => part.get('type')), unos = kinds.filter(kind => kind === 'wokwi-arduino-uno').length;
    if (unos !== 1) this.refuseBoard(unos ? 'there is more than one Arduino Uno' : 'there is no Arduino Uno');
    for (const [count, most, what] of [[kinds.length, MOST_PARTS, 'parts'], [this.wires.length, MOST_WIRES, 'connections'], [kinds.filter(kind => kind.startsWith('chip-')).length, MOST_CHIPS, 'parts that are chips']]) {
      const ours = what === 'parts that are chips' ? this.parts.filter(part => this.ownChips.has(part.get('type').slice('chip-'.length))).map(part => part.get('id')).join(', ') : '';
      if (count > most) this.refuseBoard(`there are ${count} ${what}, and ${most} is the most${ours && `; chips in place of Wokwi's parts are ${ours}`}`);
    }
    const drawn = this.scenery.length || this.isOther ? this.drawing() : this.diagram.get('drawn');
    const controls = this.controls.size ? this.controls : this.diagram.get('controls');
    return diagramText(this.diagram.has('author') ? this.diagram.get('author') : '', this.parts, this.wires, isThere(controls) ? controls : null, isThere(drawn) ? drawn : null);
  }
}

// The size of the display of a chip that a part becomes.
const sizeOf = (rule, attrs) => Object.fromEntries(Object.entries(rule.display).map(([side, how]) => [side, Number(valueOf(how, attrs))]));
// Which of the pixels of a chain a part has.
const sliceOf = (of, from, count) => ({ of, from, count }), sliceMap = ({ of, from, count }) => new Map([['of', of], ['from', new Numeral(String(from))], ['count', new Numeral(String(count))]]);
// Shorter texts first, then in the order of their code points.
function byLength(one, other) {
  const [a, b] = [[...one], [...other]], at = a.findIndex((c, i) => c !== b[i]);
  return a.length - b.length || (at < 0 ? 0 : a[at].codePointAt(0) - b[at].codePointAt(0));
}
const nodeOf = (name, pin) => JSON.stringify([name, pin]);
// What Python takes for true.
const isThere = it => !(it === undefined || it === null || it === false || it === '' || (isNumeral(it) && it.value === 0) || (Array.isArray(it) && !it.length) || (it instanceof Map && !it.size));

// A diagram as the editor lays it out: a part and a wire a line.
function diagramText(author, parts, wires, controls, drawn) {
  const list = (name, items) => [`  "${name}": [`, ...items.map((it, i) => `    ${jsonText(it)}${i < items.length - 1 ? ',' : ''}`), '  ],'];
  return ['{', '  "version": 1,', `  "author": ${jsonText(author)},`, '  "editor": "wokwi",', ...list('parts', parts), ...list('connections', wires),
    ...[['controls', controls], ['drawn', drawn]].filter(([, value]) => value).map(([name, value]) => `  "${name}": ${jsonText(value)},`), '  "dependencies": {}', '}'].join('\n') + '\n';
}
