'use strict';
// Where a complaint points: docs/REFUSALS.md has its form. A place in a text is {from, to}, counted in characters.

// {file, kind: 'refused', number, name, place: {what, n}}, {file, kind: 'missing'}, {kind: 'other', text}; null of no complaint.
function complaintOf(text) {
  const line = text.replace(/\n$/, '');
  if (!line) return null;
  const refused = /^(.*): refused (\d+) (\w+)(?: (line|part|connection|chip|import|byte|section|function) (\d+).*)?$/.exec(line);
  if (refused) {
    const [, file, number, name, what, n] = refused;
    return { file, kind: 'refused', number: Number(number), name, place: what ? { what, n: Number(n) } : null, text: line };
  }
  const missing = /^(.*): missing$/.exec(line);
  return missing ? { file: missing[1], kind: 'missing', text: line } : { kind: 'other', text: line };
}

// The part of a text that a place names; null where it is the whole, or is not found.
function rangeOf(text, place) {
  if (!place) return null;
  if (place.what === 'line') return lineRange(text, place.n);
  if (place.what === 'part') return elementRange(text, 'parts', place.n);
  if (place.what === 'connection') return elementRange(text, 'connections', place.n);
  if (place.what === 'chip') return tableRange(text, 'chip', place.n);
  return null;
}

function lineRange(text, n) {
  let from = 0;
  for (let line = 1; line < n; line++) {
    const end = text.indexOf('\n', from);
    if (end < 0) return { from: text.length, to: text.length };       // one line beyond the last: the file ends too early
    from = end + 1;
  }
  const end = text.indexOf('\n', from);
  return { from, to: end < 0 ? text.length : end };
}

// ---- JSON, read only as far as where its values begin and end

const afterSpace = (text, at) => { while (at < text.length && ' \t\r\n'.includes(text[at])) at++; return at; };

function afterString(text, at) {
  for (at++; at < text.length; at++) {
    if (text[at] === '\\') at++;
    else if (text[at] === '"') return at + 1;
  }
  return text.length;
}

function afterValue(text, at) {     // behind the value that begins here
  let depth = 0;
  while (at < text.length) {
    const c = text[at];
    if (c === '"') at = afterString(text, at);
    else if (c === '{' || c === '[') { depth++; at++; continue; }
    else if (c === '}' || c === ']') { depth--; at++; }
    else if (depth && (c === ',' || c === ':' || ' \t\r\n'.includes(c))) { at++; continue; }
    else while (at < text.length && !',:]} \t\r\n'.includes(text[at])) at++;
    if (depth <= 0) return at;
  }
  return at;
}

// The n-th element, from 1, of the array that the whole object has under a name; of two of one name the last.
function elementRange(text, name, n) {
  let at = afterSpace(text, text.charCodeAt(0) === 0xFEFF ? 1 : 0), found = null;
  if (text[at] !== '{') return null;
  at = afterSpace(text, at + 1);
  while (text[at] === '"') {
    const end = afterString(text, at), key = text.slice(at + 1, end - 1);
    at = afterSpace(text, end);
    if (text[at] !== ':') break;
    at = afterSpace(text, at + 1);
    if (key === name && text[at] === '[') found = nthElement(text, at, n);
    at = afterSpace(text, afterValue(text, at));
    if (text[at] !== ',') break;
    at = afterSpace(text, at + 1);
  }
  return found;
}

function nthElement(text, at, n) {
  at = afterSpace(text, at + 1);
  for (let k = 1; at < text.length && text[at] !== ']'; k++) {
    const end = afterValue(text, at);
    if (end === at) return null;
    if (k === n) return { from: at, to: end };
    at = afterSpace(text, end);
    if (text[at] === ',') at = afterSpace(text, at + 1);
  }
  return null;
}

// The n-th table of an array of tables in a TOML text: from its head to the next head.
function tableRange(text, name, n) {
  const heads = [...text.matchAll(/^[ \t]*\[\[?[ \t]*([\w.-]+)[ \t]*\]\]?.*$/gm)], own = heads.filter(head => head[1] === name && head[0].includes('[['));
  if (own.length < n) return null;
  const from = own[n - 1].index, next = heads.find(head => head.index > from);
  return { from, to: (next ? text.slice(0, next.index) : text).trimEnd().length };
}
