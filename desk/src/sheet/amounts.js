// A cell as `hocsimbur import` reads it: a number with or without a unit, or the size of a wire, made a whole number of the column's unit.
// What is no whole number is rounded only to the cautious side, where the column has one, and only where the person says so.
import { BY_NAME, COLUMN, NAMES, data, fill } from '../library/data.js';
import { outside } from '../words/words.js';
import { SPACES, below, exact, isWhole, shown, times } from './numbers.js';
import { wireKey } from './wires.js';

const { units: UNITS, cycles: CYCLES, in_cycles: IN_CYCLES, sides: SIDES, refusals: say, rounded: note } = data.cells;
export const ALLOWED = data.cells.allowed;
const LONGEST = 40;
const short = (text) => (text.length <= LONGEST ? text : `${text.slice(0, LONGEST)}…`);
const bare = (unit) => unit.toLowerCase().replace(/[\s.·⋅*-]/g, '');
const LETTER = '\\p{L}\\p{Nl}\\p{No}', FORM = new RegExp(`^([+-]?[\\p{Nd}.,][\\p{Nd}.,${SPACES} ]*(?:[eE][+-]?\\p{Nd}{1,2})?)\\s*`
  + `((?![eE][+-]?\\p{Nd})[${LETTER}][^\\n]*|[%‰'"][^\\n]*|)$`, 'u');
const END = new RegExp(`[ ${SPACES}]+$`);

// How many of a column's own unit a unit is; cycles are of the line's own frequency.
export function factor(name, unit, hertz) {
  const written = bare(unit);
  if (CYCLES.includes(written) && IN_CYCLES.includes(name)) return hertz ? [1000, hertz] : null;
  return Object.hasOwn(UNITS[name] ?? {}, written) ? UNITS[name][written] : null;
}

// { number, unit, own, times } of a cell, with its own unit or that of its column's head, and the wire whose size it is; or { wrong }.
function valueOf(text, name, { sign = ',', hertz, unit: head = '' }) {
  const own = say.whole[name], wrong = (template, more) => ({ wrong: fill(template, { text: short(text), own, ...more }) });
  const key = name === 'dia' ? wireKey(text) : '';
  if (key) {
    const dia = data.cells.dia[key];
    return dia === undefined ? wrong(say.no_size) : { number: [BigInt(dia), 1n], wire: { name: key, dia, kcmil: data.wires[key] } };
  }
  const found = FORM.exec(text), number = found ? exact(found[1].replace(END, ''), sign) : null;
  if (number?.wrong) return number;
  if (!number) return wrong(say.no_number);
  const unit = found[2] || head;
  if (!unit) return { number: number.number };
  if (CYCLES.includes(bare(unit)) && IN_CYCLES.includes(name) && !hertz) return wrong(say.cycles);
  const by = factor(name, unit, hertz);
  if (!by) return ALLOWED[name] ? wrong(say.unit, { unit: short(unit), name, allowed: ALLOWED[name] }) : wrong(say.no_number);
  return { number: times(number.number, by), unit, own: found[2], times: by };
}

const isOne = ([upper, lower]) => BigInt(upper) === BigInt(lower);

// The kind of change that made a number of a cell, and what its sentence tells; nothing where its digits stay.
function changeOf(text, name, value) {
  const number = shown(value.number), tokens = { text, number };
  if (value.wire) {
    const { dia, kcmil } = value.wire;
    return { kind: 'wire', tokens: { text, dia, mm: shown([BigInt(dia), 10n]), kcmil } };
  }
  const one = !value.unit || isOne(value.times);
  if (one && !value.own) return number === text ? null : { kind: 'digits', tokens };
  return { kind: one ? 'away' : 'made', tokens: { ...tokens, unit: value.unit, own: BY_NAME[name].unit } };
}

// The cautious side of a column; that of the layer's thickness goes by the layer and the soil.
function sideOf(name, { layer = 0, soil = 0 }) {
  const side = SIDES[name]?.side ?? data.cells.neither;
  return side === data.cells.by_layer ? (layer > soil ? data.cells.down : data.cells.up) : side;
}

// What a cell that is no plain whole number becomes, as `import` has it of a line with this frequency, layer and soil, under a head with
// this unit:
// { digits, change } where it is a whole number of the column's unit; { said, digits, why, side } where it would be rounded to that, with
// `rounded`, the sentence that reports it; { said } where it cannot be taken.
export function becomes(text, name, line) {
  const value = valueOf(text, name, line);
  if (value.wrong) return { said: value.wrong, number: false };
  const { number, unit } = value;
  if (number[0] < 0n) return { said: fill(say.below, { text }), number: true };
  if (isWhole(number)) return { digits: String(below(number)), change: changeOf(text, name, value), wire: value.wire };
  const tokens = { text, number: shown(number), unit: BY_NAME[name].unit, own: say.whole[name] };
  const kind = unit && (value.own || !isOne(value.times)) ? 'with_unit' : 'bare';
  const amount = fill(say[kind], tokens), side = sideOf(name, line), { why, advice } = SIDES[name] ?? {};
  if (outside(name, number)) {
    const { allowed: range } = BY_NAME[name], other = ALLOWED[name] ? fill(say.other_unit, { name, allowed: ALLOWED[name] }) : '';
    return { said: `${amount}${fill(say.outside, { range })}${other}`, number: true };
  }
  if (side === data.cells.neither) return { said: advice ? `${amount}; ${advice}` : amount, number: true };
  const digits = String(below(number) + (side === data.cells.up ? 1n : 0n));
  return {
    said: `${amount}; ${fill(say.cautious, { side, whole: digits })}`, digits, side, why, number: true,
    rounded: (where) => fill(note[kind], { ...tokens, where, side, whole: digits, why }),
  };
}

export const plain = (text) => /^(0|[1-9]\d*)$/.test(text);
const hertzOf = (text) => Number(/^(50|60)(?:\.0*)?\s*(?:hz)?$/.exec(text.toLowerCase())?.[1] ?? 0);

// A whole number of a row's cell, as it is or as `import` reads it; nothing where it is none.
function wholeOf(row, name, sign, hertz, unit) {
  const text = row[COLUMN[name]] ?? '', bare = !text || (plain(text) && !unit);
  const found = bare ? { digits: text } : becomes(text, name, { sign, hertz, unit });
  return found.digits && !found.rounded ? Number(found.digits) : null;
}

// What the text of a row's cell becomes; nothing where it is empty or a whole number already. The thickness of a layer is rounded only
// where layer and soil are known, since its cautious side goes by them. `units` has the units of the heads by column.
export function reading(row, column, sign, units = []) {
  const text = row?.[column] ?? '', name = NAMES[column], unit = units[column] ?? '';
  if (!text || (plain(text) && !unit)) return null;
  const hertz = hertzOf(row[COLUMN.hz] ?? '');
  const [layer, soil] = name === 'thick' ? ['layer', 'soil'].map((one) => wholeOf(row, one, sign, hertz, units[COLUMN[one]]))
    : [0, 0];
  const found = becomes(text, name, { sign, hertz, unit, layer: layer ?? 0, soil: soil ?? 0 });
  if (!found.rounded || (layer !== null && soil !== null)) return found;
  return { said: `${found.said.split('; ')[0]}; ${SIDES[name].advice}`, number: true };
}

// A number under a head with another unit than the column's own, as a cell that has the unit itself; the text where it is none.
export function withUnit(text, name, unit) {
  const by = unit ? factor(name, unit, 60) : null, found = by && !isOne(by) ? FORM.exec(text) : null;
  return found && !found[2] ? `${text} ${unit}` : text;
}

// The sentence of a change with the count of its kind, as `import` reports it.
export const changeWords = ({ kind, tokens }, where, count = 1) => fill(data.cells.changes[kind][count > 1 ? 1 : 0],
  { ...tokens, where, count });

// The note that a wire's own area is not in the sheet.
export function wireNote({ name, dia, kcmil }) {
  return fill(note.note, { name, kcmil, solid: Math.floor((1000 * dia * dia) / 64516) });
}
