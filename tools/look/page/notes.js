'use strict';
// What a run left out, from its report (docs/REPORT.md): [{part, t, text, isEnd}] in the order of time, t the cycle if it is known, else null;
// isEnd of a trap that ended a chip.
// `firsts` has, for a line of the report, the cycle at which shorter runs first had it; `told` is what tools/truth.py says beside, [part, text].

// REGISTERS, OMISSIONS, HALTS and TRAPS are the tables of docs/REPORT.md and docs/CHIPS.md; told.py reads them.

// The trap that ended a chip, or undefined.
const endOf = (run, id) => run.notes.find(note => note.part === id && note.isEnd);

function notesOf(report, firsts, told = []) {
  const notes = told.map(([part, text]) => ({ part, t: null, text }));
  const lines = report.split('\n'), asked = lines.some(line => line.split(' ')[2] === 'omits');
  const known = new Set(Object.values(OMISSIONS).flatMap(Object.keys));
  for (const line of lines) {
    const words = line.split(' ');
    if (asked && words[2] === 'ignored' && known.has(words[3])) continue;   // the lines `omits` say more
    const note = noteOf(line);
    if (note) notes.push({ t: firsts[line] ?? null, ...note });
  }
  const at = note => note.t ?? Infinity;
  return notes.sort((a, b) => at(a) - at(b) || 0);
}

function noteOf(line) {
  const words = line.split(' '), [kind, part] = words;
  if (kind === 'uno' && words[4] === 'halt') {
    const what = HALTS[words[5]] || 'no instruction of the ATmega328P';
    return { part, text: `${part} halted at word address ${words[3]}, on the word ${words[5]}: ${what}. The firmware does nothing more.` };
  }
  if (kind === 'uno' && words[2] === 'ignored') {
    const [unit, name] = REGISTERS[words[3]] || [];
    return { part, text: unit ? `${part} wrote to ${unit} (${name} ${words[3]}), which is not simulated. Nothing happened.` : `${part} wrote to data address ${words[3]}, where no register is. Nothing happened.` };
  }
  if (kind === 'uno' && words[2] === 'omits') {
    const said = (OMISSIONS[words[3]] || {})[words[6]];
    return said ? { part, t: Number(words[5]), text: `${part}: ${said} (${words[6]} was set to ${words[7]}).` } : null;
  }
  if (kind === 'chip' && words[2] === 'trap') {
    const what = TRAPS[words[3]];
    return { part, isEnd: true, t: Number(words[5]), text: `${part} was ended by trap ${words[3]}${what ? ` (${what[0]}): ${what[1]}` : ''}. After this it drives none of its pins.` };
  }
  return null;
}
