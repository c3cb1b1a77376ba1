'use strict';
// What Wokwi's attributes are as values of the parts and chips here: the formulas of tools/wokwi/formulas.py, with its sentences.

class ValueFault extends Error {}

const SPACE = '[\\t-\\r\\x1c-\\x20\\x85\\xa0\\u1680\\u2000-\\u200a\\u2028\\u2029\\u202f\\u205f\\u3000]*';
const NUMBER = new RegExp(`^${SPACE}([+-]?[0-9]+(?:\\.[0-9]*)?|[+-]?\\.[0-9]+)${SPACE}([kKmM]?)${SPACE}$`);
const TIMES = { '': 1, k: 1e3, K: 1e3, M: 1e6, m: 1e-3 };
const stripped = text => text.replace(new RegExp(`^${SPACE}|${SPACE}$`, 'g'), '');

// A decimal number, perhaps followed by a letter for thousands, millions or thousandths, as frequencies have it.
function numberOf(text) {
  const found = NUMBER.exec(text);
  if (!found || found[1].length > 40) throw new ValueFault('is no number');
  return Number(found[1]) * TIMES[found[2]];
}

// The nearest whole number, of two the even one, as a text.
function rounded(x) {
  const low = Math.floor(x), rest = x - low;
  return BigInt(rest < 0.5 || (rest === 0.5 && low % 2 === 0) ? low : low + 1).toString();
}

function wholeText(value) {
  if (!(value >= -(2 ** 31) && value < 2 ** 32)) throw new ValueFault('is too large');
  return rounded(value);
}

const calculated = value => { if (!isFinite(value)) throw new ValueFault('is beyond what can be calculated'); return value; };
const ratio = (over, under) => { if (under === 0) throw new ValueFault('is beyond what can be calculated'); return over / under; };
const divided = (lower, upper) => wholeText(ratio(1023 * lower, lower + upper));
const given = (attrs, name, initial) => numberOf(attrs.has(name) ? attrs.get(name) : initial);

// A photoresistor of `rl10` kOhm at 10 lux: R = rl10 * (10 / lux) ^ gamma.
function resistance(text, attrs) {
  const lux = Math.max(numberOf(text), 1e-3);
  return given(attrs, 'rl10', '50') * calculated((10 / lux) ** given(attrs, 'gamma', '0.7'));
}

// What lies within -1 and 1, or other ends.
const within = (text, low, high) => Math.min(Math.max(numberOf(text), low), high);

const DATE = /^(\d{4})(-?)(\d\d)\2(\d\d)(?:[T ](\d\d)(?:(:?)(\d\d)(?:\6(\d\d)(?:\.(\d{1,6}))?)?)?(Z|[+-]\d\d:?\d\d)?)?$/;

// Seconds from 1970 on; a run repeats, so `now` is 2000-01-01.
function secondsOf(text) {
  if (text === 'now' || text === '') return '946684800';
  if (/^[0-9]{1,10}$/.test(text)) return wholeText(Number(text));
  const found = DATE.exec(text);
  if (!found) throw new ValueFault('is no time');
  const [, year, , month, day, hour = '0', , minute = '0', second = '0', fraction = '', zone = 'Z'] = found, [over, away] = zone === 'Z' ? [0, 0] : [Number(zone.slice(1, 3)), Number(zone.slice(-2))];
  const at = new Date(0);
  at.setUTCFullYear(Number(year), Number(month) - 1, Number(day));
  if (Number(year) < 1 || at.getUTCMonth() !== Number(month) - 1 || at.getUTCDate() !== Number(day) || hour > 23 || minute > 59 || second > 59 || over > 23 || away > 59) throw new ValueFault('is no time');
  const local = at.getTime() / 1000 + 3600 * Number(hour) + 60 * Number(minute) + Number(second) + Number(`0.${fraction || 0}`);
  const seconds = Math.trunc(local - (zone.startsWith('-') ? -1 : 1) * (3600 * over + 60 * away));
  if (!(seconds >= 0 && seconds < 2 ** 32)) throw new ValueFault('is before 1970 or after 2105');
  return String(seconds);
}

const FORMULAS = {
  address(text) {
    if (!/^(?:0x[0-9a-fA-F]{1,2}|[0-9]{1,5})$/.test(text) || Number(text) > 127) throw new ValueFault('is no address');
    return String(Number(text));
  },
  serpentine: text => (text === 'serpentine' ? '1' : '0'),
  // An NTC of 10 kOhm at 25 degrees Celsius to ground, with 10 kOhm to 5V: R = 10k * exp(beta * (1/T - 1/298.15)).
  ntc(text, attrs) {
    const kelvin = numberOf(text) + 273.15;
    if (kelvin <= 0) throw new ValueFault('is below the least temperature that there is');
    return divided(1, Math.exp(Math.min(700, given(attrs, 'beta', '3950') * (1 / 298.15 - 1 / kelvin))));
  },
  light: (text, attrs) => divided(resistance(text, attrs), 10),
  dark(text, attrs) {
    const ohms = resistance(text, attrs);
    return ratio(5 * ohms, ohms + 10) > given(attrs, 'threshold', '2.5') ? '1' : '0';
  },
  volts: text => wholeText(1023 * within(text, 0, 5) / 5),
  above: (text, attrs) => (numberOf(text) > given(attrs, 'threshold', '2.5') ? '1' : '0'),
  'not above': (text, attrs) => (numberOf(text) > given(attrs, 'threshold', '2.5') ? '0' : '1'),
  // A joystick's side to side, -1 to the left and 1 to the right, as a wiper that is at its end on the left; up and down.
  leftward: text => wholeText(1023 * (1 - within(text, -1, 1)) / 2),
  upward: text => wholeText(1023 * (1 + within(text, -1, 1)) / 2),
  // Of a number in hexadecimal digits the last byte, by which two thermometers on one wire differ.
  rom(text) {
    if (text === '') return '77';
    if (!/^(?:0x)?[0-9a-fA-F]{1,12}$/.test(text)) throw new ValueFault('is no number of hexadecimal digits');
    return String(parseInt(text.replace(/^0x/, '').slice(-2), 16));
  },
  time: secondsOf,
  'half period'(text) {
    const hertz = numberOf(text);
    if (!(hertz >= 0.2 && hertz <= 8e6)) throw new ValueFault('is not within 0.2 and 8M');
    return rounded(5e8 / hertz);
  },
};

// The value by a rule of types.json: a text, or an attribute as it is, times a number, by words or by a formula.
function valueOf(rule, attrs) {
  if (typeof rule === 'string') return rule;
  const own = attrs.has(rule.from) ? attrs.get(rule.from) : rule.default, text = own === '' ? rule.default : stripped(own);
  if (rule.words) {
    if (!Object.hasOwn(rule.words, text)) throw new ValueFault(`is none of ${Object.keys(rule.words).join(', ')}`);
    return rule.words[text];
  }
  return rule.formula ? FORMULAS[rule.formula](text, attrs) : wholeText(numberOf(text) * (rule.times ?? 1));
}
