'use strict';
// JSON as Python reads and writes it. A diagram that the page lowers so has the text that tools/wokwi/lower.py gives it: objects are
// maps, which keep the order of their keys, and numbers keep whether they were written as whole ones.

// A number of a text: its value, and how Python's str() writes it.
class Numeral {
  constructor(text) {
    this.value = Number(text);
    this.text = /[.eE]/.test(text) ? floatText(this.value) : text === '-0' ? '0' : text;
  }
}

function floatText(x) {
  if (!isFinite(x)) return x > 0 ? 'Infinity' : '-Infinity';
  const [, sign, head, rest = '', power] = /^(-?)(\d)(?:\.(\d+))?e([+-]\d+)$/.exec(x.toExponential()), digits = head + rest, at = Number(power);
  if (Object.is(x, -0)) return '-0.0';
  if (at < -4 || at >= 16) return `${sign}${head}${rest && '.' + rest}e${at < 0 ? '-' : '+'}${String(Math.abs(at)).padStart(2, '0')}`;
  if (at < 0) return `${sign}0.${'0'.repeat(-at - 1)}${digits}`;
  return `${sign}${digits.slice(0, at + 1).padEnd(at + 1, '0')}.${digits.slice(at + 1) || '0'}`;
}

// The value of a text. JSON.parse has judged it before, so no form is tested here again.
function readJson(text) {
  JSON.parse(text);
  const token = /\s*(?:([{}[\],:])|("(?:[^"\\]|\\.)*")|(-?\d[\d.eE+-]*)|(true|false|null))/gy;
  const next = () => { const [, mark, string, number, word] = token.exec(text); return mark ? { mark } : { value: string ? JSON.parse(string) : number ? new Numeral(number) : JSON.parse(word) }; };
  const root = [], open = [];                 // open: what is not closed yet, each with the key that waits for a value
  let inside = { list: root };
  const put = value => { if (inside.list) inside.list.push(value); else if (inside.key === undefined) inside.key = value; else { inside.map.set(inside.key, value); inside.key = undefined; } };
  do {
    const { mark, value } = next();
    if (mark === '{' || mark === '[') {
      const made = mark === '{' ? new Map() : [];
      put(made);
      open.push(inside);
      inside = mark === '{' ? { map: made } : { list: made };
    } else if (mark === '}' || mark === ']') inside = open.pop();
    else if (!mark) put(value);
  } while (open.length);
  return root[0];
}

// A text on one line. Half a pair of UTF-16 is no text, and becomes a question mark.
const wellFormed = text => text.replace(/[\ud800-\udfff]/gu, '?');
function jsonText(value) {
  if (value instanceof Map) return `{${[...value].map(([key, it]) => `${jsonText(key)}: ${jsonText(it)}`).join(', ')}}`;
  if (Array.isArray(value)) return `[${value.map(jsonText).join(', ')}]`;
  if (value instanceof Numeral) return value.text;
  return JSON.stringify(typeof value === 'string' ? wellFormed(value) : value);
}
