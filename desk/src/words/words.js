// Refusals, margins and values in the product's words.
import { BY_NAME, NAMES, REFUSAL, data, fill } from '../library/data.js';
import { grouped, metres, share, tenths } from './decimals.js';

const LONGEST = 40;
const cut = (text) => (text.length <= LONGEST ? text : `${text.slice(0, LONGEST)}…`);

// the kinds of text that the product's `forms` tells apart, in its order; a digit and a letter are those of any script
const KINDS = [
  ['empty', /^$/], ['point', /^\p{Nd}+[.]0*$/u], ['fraction', /^\p{Nd}*[.]\p{Nd}+$/u], ['zero', /^0\p{Nd}+$/u], ['digits', /^[0-9]{7,}$/],
  ['sign', /^[-+\u2212]\p{Nd}+$/u], ['letters', /^[\p{Nd}.]+ ?[\p{L}\p{Nl}\p{No}][^\n]*$/u], ['other', /^/],
];

// Whether a number that is no whole number is out of its column's range: it is probably in another unit, so no side of it is cautious.
export function outside(name, [upper, lower]) {
  const { low, high } = BY_NAME[name];
  return upper < BigInt(low) * lower || upper > BigInt(high) * lower;
}

// A text of digits and a point whose number is out of its column's range.
function isOutside(name, text) {
  const [before, behind] = text.split('.');
  return /^[\d.]+$/.test(text) && outside(name, [BigInt(before + behind), 10n ** BigInt(behind.length)]);
}

function wrongForm(name, text) {
  const two = /^(\d{1,3})[.,](\d{3})$/.exec(text);
  if (two && text.includes(',')) {
    return fill(data.refusals.ambiguous, { text, joined: two[1] + two[2], parted: `${two[1]}.${two[2]}` });
  }
  const [form] = KINDS.find(([, one]) => one.test(text)), kind = form === 'fraction' && isOutside(name, text) ? 'outside' : form;
  const whole = kind === 'point' ? cut(text.split('.')[0]) : text.replace(/^0+(?=.)/, '');
  return fill(data.refusals.form[name][kind], { text: cut(text), whole, count: text.length });
}

// What is refused, without its place.
export function refusal(line, lines) {
  const { number, column } = line.refused, name = NAMES[column - 1];
  const own = Object.fromEntries(NAMES.map((one, place) => [one, line.cells[place]]));
  if (number === REFUSAL.form) return wrongForm(name, own[name]);
  if (number === REFUSAL.range) return fill(data.refusals.range[name], { value: own[name] });
  if (number === REFUSAL.parts) return fill(data.refusals[name], own);
  if (number === REFUSAL.repeated) {
    const earlier = lines.find((one) => !one.refused && one.cells[0] === own.station && one.cells[1] === own.season);
    return fill(data.refusals.repeated, { ...own, earlier: `line ${earlier.number}` });
  }
  return data.refusals.own_fault;
}

export function refusedPlace(line) {
  const { column } = line.refused;
  return `line ${line.number}` + (column ? `, ${NAMES[column - 1]} (column ${column})` : '');
}

export const verdict = (line) => data.verdicts[line.row.verdict];

export function margin(one) {
  if (one.side === 'overlaps') return data.margins.overlapping;
  if (one.side === 'below' && one.margin === 0) return data.margins.least;
  return fill(data.margins[one.side], { share: share(one.margin) });
}

export const above = (one) => fill(data.margins.limits[one.limit].above, { share: share(one.margin) });
export const overlapping = (one) => data.margins.limits[one.limit].overlapping;

export function listed(words) {
  return words.length < 2 ? String(words[0] ?? '') : `${words.slice(0, -1).join(', ')} and ${words.at(-1)}`;
}

export const seasonsOf = (numbers) => (numbers.length === 1 ? 'season ' : 'seasons ') + listed(numbers);
export const columnsOf = (names) => listed(names.map((name) =>
  (name === 'xr' ? data.labels.xr.label : data.labels[name].label.toLowerCase())));

// A value of a column with its unit, as the report shows it.
export function value(name, number) {
  const { kind, unit, zero } = data.labels[name];
  if (kind === 'place') return data.places[number];
  if (zero && number === 0) return zero;
  const text = { grouped, tenths, metres: (one) => metres(one, 0) }[kind](number);
  return unit ? `${text}\u00a0${unit}` : text;
}

export const meaning = (name) => `${BY_NAME[name].meaning}${BY_NAME[name].unit ? `, ${BY_NAME[name].unit}` : ''}: ${BY_NAME[name].allowed}`;
