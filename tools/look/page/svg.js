'use strict';
// SVG elements with attributes, text and children. No markup is parsed, so a name may have any characters in it.

const SVG_NAMES = 'http://www.w3.org/2000/svg';

function svg(tag, attributes = {}, ...inside) {
  const element = document.createElementNS(SVG_NAMES, tag);
  for (const [name, value] of Object.entries(attributes)) if (value !== undefined && value !== null) element.setAttribute(name, String(value));
  element.append(...inside);
  return element;
}
const rect = (x, y, width, height, more) => svg('rect', { x, y, width, height, ...more });
const circle = (cx, cy, r, more) => svg('circle', { cx, cy, r, ...more });
const path = (d, more) => svg('path', { d, ...more });
const label = (x, y, text, more) => svg('text', { x, y, ...more }, String(text));

const words = text => text.split(' ');
const upTo = n => [...Array(n).keys()];
const clamp = (x, low, high) => Math.min(Math.max(x, low), high);

// Colours: CSS names that diagrams use often and #rgb or #rrggbb become [r, g, b]; any other name is `other`.
const COLORS = { red: '#e8382f', green: '#2bb24c', blue: '#2f7df0', yellow: '#f2c511', orange: '#f08a1d', white: '#f4f4f2', purple: '#8f35bd', violet: '#c08bf0',
  black: '#26292b', gray: '#8a9094', grey: '#8a9094', brown: '#8b5a2b', gold: '#d9a514', limegreen: '#43c22f', lime: '#43c22f', cyan: '#19b7cc', aqua: '#19b7cc',
  magenta: '#e23bb4', fuchsia: '#e23bb4', pink: '#f58fb3', navy: '#28408a', teal: '#128387', silver: '#b9bfc3', maroon: '#8d2230', olive: '#84841e',
  darkgreen: '#1d7a38', darkred: '#9b2320', darkblue: '#28408a', darkorange: '#e0741a', lightblue: '#8cc4f0', lightgreen: '#8ddf8f', turquoise: '#2fc9bd', indigo: '#5536a8' };

function rgb(color, other = '#8a9094') {
  let text = String(color || '').trim().toLowerCase();
  text = COLORS[text] || text;
  if (/^#[0-9a-f]{3}$/.test(text)) text = '#' + [...text.slice(1)].map(c => c + c).join('');
  return (/^#[0-9a-f]{6}$/.test(text) ? text : other).slice(1).match(/../g).map(pair => parseInt(pair, 16));
}
const colorText = parts => '#' + parts.map(n => Math.round(n).toString(16).padStart(2, '0')).join('');
const colorOf = (color, other) => colorText(rgb(color, other));
const mixed = (a, b, share) => { const x = rgb(a), y = rgb(b); return colorText(x.map((v, i) => v + (y[i] - v) * share)); };
