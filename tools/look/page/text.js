'use strict';
// Times, frequencies and elements of a page in words.

const grouped = n => n.toLocaleString('en-US', { maximumFractionDigits: 4 });
const inMicroseconds = cycles => `${grouped(cycles / 16)} µs`;
const inCycles = cycles => `${grouped(cycles)} ${cycles === 1 ? 'cycle' : 'cycles'}`;
function inHertz(cycles) {
  const f = 16e6 / cycles;
  return f >= 1e6 ? `${grouped(f / 1e6)} MHz` : f >= 1e3 ? `${grouped(f / 1e3)} kHz` : `${grouped(f)} Hz`;
}

// A time that was typed, in cycles: 5000us, 5000 µs, 5ms, 0.5s, 80000cy; a number alone is microseconds. Null if it is none.
const UNIT_CYCLES = { us: 16, 'µs': 16, ms: 16e3, s: 16e6, cy: 1 };
function parsedTime(text) {
  const match = /^([\d.,]+)\s*(us|µs|ms|s|cy)?$/.exec(text.trim());
  if (!match) return null;
  const n = Number(match[1].replace(/,/g, ''));
  return isFinite(n) ? Math.round(n * UNIT_CYCLES[match[2] || 'us']) : null;
}

// An element of the page: properties, attributes with a hyphen, listeners as functions (onclick), then text or children.
function make(tag, properties = {}, ...inside) {
  const element = document.createElement(tag);
  for (const [name, value] of Object.entries(properties)) {
    if (name.includes('-') || name === 'role' || name === 'for' || name === 'list') element.setAttribute(name, value); else element[name] = value;
  }
  element.append(...inside);
  return element;
}
function setText(element, text) { if (element.textContent !== text) element.textContent = text; }
