'use strict';
// Lines of a script (docs/SCRIPTS.md) for what is done by hand at a cycle.

const MICROSECOND = 16;
const LINE = /^(\d{1,9})(us|cy) +(press|release|set) +(\S+)(?: +(\S+))?(?: +(\S+))? *$/;
// What a line moves: a part, or a control of one.
const movedBy = line => { const [, , , , id, word, value] = LINE.exec(line); return value === undefined ? id : `${id} ${word}`; };

const timeText = cycle => (cycle % MICROSECOND === 0 ? `${cycle / MICROSECOND}us` : `${cycle}cy`);
function cycleOfLine(line) {
  const match = LINE.exec(line);
  return match ? Number(match[1]) * (match[2] === 'us' ? MICROSECOND : 1) : null;
}

// The script with one more line, after all lines up to its cycle. A line that moves the same at the same cycle goes.
function withLine(script, cycle, action, id, value) {
  const line = `${timeText(cycle)} ${action} ${id}${value === undefined ? '' : ` ${value}`}`, lines = script.split('\n');
  while (lines.length && lines[lines.length - 1].trim() === '') lines.pop();
  const kept = lines.filter(other => !(cycleOfLine(other) === cycle && movedBy(other) === movedBy(line)));
  let place = 0;
  kept.forEach((other, i) => { const at = cycleOfLine(other); if (at !== null ? at <= cycle : place === i) place = i + 1; });
  kept.splice(place, 0, line);
  return kept.join('\n') + '\n';
}
