// What is measured at a site, and the fewest conductors for a side: asked of the library and said in the command's words.
import { BY_NAME, REFUSAL, data, fill } from '../library/data.js';
import * as core from '../library/core.js';
import { down, exact, grouped, up } from '../words/decimals.js';
import { margin } from '../words/words.js';
import { against } from './judging.js';

const say = data.site, ROD = data.tried.constants.rod_length;
const FAR = 2n ** 32n - 1n; // a reading in mm or mΩ is below it
const MOST = BigInt(Number.MAX_SAFE_INTEGER);

// A decimal in thousandths, between two whole numbers that are one where it is whole; or why it is none.
function thousandths(text) {
  const bare = text.replaceAll('\u2212', '-'), none = (kind) => ({ wrong: fill(say.amounts[kind], { text }) });
  if (/^[+-]?\d{1,3}(,\d{3})+(\.\d*)?$/.test(bare)) return none('thousands');
  if (/^[+-]?\d+,\d+$/.test(bare)) return none('comma');
  const found = /^([+-]?)(?:(\d+)(?:\.(\d*))?|\.(\d+))$/.exec(bare);
  if (bare.length > 40 || !found) return none('no_number');
  const behind = found[3] ?? found[4] ?? '', size = BigInt((found[2] ?? '0') + behind.slice(0, 3).padEnd(3, '0'));
  const more = /[1-9]/.test(behind.slice(3)) ? 1n : 0n;
  return found[1] === '-' ? { lower: -size - more, upper: -size } : { lower: size, upper: size + more };
}

// The lines of a text, each as two cells, without the names that a file of the command has above them.
function pairs(text, names, called, form) {
  const lines = text.split('\n').map((line) => line.trim()).filter(Boolean).map((line) => line.split(/[\s;,]+/));
  if (lines[0]?.join(',').toLowerCase() === names) lines.shift();
  const wrong = lines.findIndex((cells) => cells.length !== 2);
  return wrong < 0 ? { lines } : { wrong: `${called(wrong)}: ${lines[wrong].length} numbers, not two; write ${form}` };
}

export const READINGS = 'metres,ohms'; // the names of the files that `wenner` and `staged` read
export const CURRENTS = 'in_phase,quadrature';

// A text of pairs as such a file.
export const fileText = (text, names) => [names, ...pairs(text, names, String, '').lines.map((cells) => cells.join(','))]
  .map((line) => `${line}\n`).join('');

function refusal({ number, line }, { readings = [], parts = [], side = 0 }) {
  const of = say.refusals[number];
  if (number === REFUSAL.readings) return readings.length ? fill(of[1], { count: readings.length }) : of[0];
  if (number === REFUSAL.distance) return fill(of, { line, value: exact(readings[line - 1][0], 3) });
  if (number === REFUSAL.resistance) return fill(of, { line, value: exact(readings[line - 1][1], 3) });
  if (number === REFUSAL.side) return fill(of, { side: exact(side, 3) });
  if (number === REFUSAL.test) return fill(of, { count: Math.max(0, parts.length - 1) });
  if (number === REFUSAL.part) {
    const place = parts.findIndex((one) => one.some((part) => Math.abs(part) > 1000000));
    const axis = Math.abs(parts[place][0]) > 1000000 ? 0 : 1;
    return fill(of, { where: currentName(place), part: ['in-phase', 'quadrature'][axis], value: exact(parts[place][axis], 3) });
  }
  return number === REFUSAL.no_current ? of : data.refusals.own_fault;
}

const outside = (name, number) => number < BY_NAME[name].low || number > BY_NAME[name].high;
const both = (low, high, unit) => `${exact(low, 3)}${low === high ? '' : ` to ${exact(high, 3)}`} ${unit}`;
const ohmMetres = (pair) => [down(pair.lower, 6, 3), up(pair.upper, 6, 3)];

// The soil of readings that lie between those of two answers.
function between(lower, upper) {
  const pair = (name) => ({ lower: lower[name].lower, upper: upper[name].upper });
  return { least: pair('least'), greatest: pair('greatest'), mean: pair('mean'), soil: upper.soil };
}

function readingOf(cells, place) {
  const found = {};
  for (const [i, what] of ['distance', 'resistance'].entries()) {
    const amount = thousandths(cells[i]), wrong = (words) => ({ wrong: `reading ${place + 1}: ${words}` });
    if (amount.wrong) return wrong(`${what}: ${amount.wrong}`);
    if (amount.lower < 0n || amount.lower >= FAR) return wrong(fill(say.amounts.far, { what, text: cells[i] }));
    found[what] = amount;
  }
  const end = (name) => [Number(found.distance[name]), Number(found.resistance[name])];
  return { lower: end('lower'), upper: end('upper') };
}

// The soil from four-pin readings, a line each, in metres and ohms: its table, notes, and the value for the column; or why there is none.
export function soilOf(text) {
  const { lines, wrong } = pairs(text, READINGS, (place) => `reading ${place + 1}`, 'metres and ohms, as 2.5 7.3');
  const found = (lines ?? []).map(readingOf), bad = wrong ?? found.find((one) => one.wrong)?.wrong;
  if (bad) return { wrong: bad };
  const [lower, upper] = ['lower', 'upper'].map((end) => found.map((one) => one[end]));
  const [low, high] = [lower, upper].map((readings) => ({ readings, answer: core.soil(readings) }));
  for (const { readings, answer } of [low, high]) if (answer.refused) return { wrong: refusal(answer.refused, { readings }) };
  const soil = between(low.answer, high.answer), notes = [];
  const points = lower.map((one, i) => ({ at: one[0], mean: between(core.soil([one]), core.soil([upper[i]])).mean }));
  const rows = points.map(({ mean }, i) => [String(i + 1), both(lower[i][0], upper[i][0], 'm'), both(lower[i][1], upper[i][1], 'Ω'),
    ...ohmMetres(mean)]);
  for (const name of ['least', 'greatest', 'mean']) rows.push([name, '', '', ...ohmMetres(soil[name])]);
  if (soil.greatest.lower > say.soil.times * soil.least.upper) {
    notes.push(fill(say.soil.varied, { times: down(Math.floor((soil.greatest.lower * 10) / soil.least.upper), 1, 1) }));
  }
  if (outside('soil', soil.soil)) notes.push(fill(say.soil.outside, { soil: grouped(soil.soil) }));
  const rounded = lower.filter((one, i) => String(one) !== String(upper[i])).length;
  if (rounded) notes.push(fill(say.soil.rounded[rounded > 1 ? 1 : 0], { count: rounded }));
  return { rows, points, notes, column: fill(say.soil.column, { soil: grouped(soil.soil) }), value: soil.soil,
    fits: !outside('soil', soil.soil) };
}

const currentName = (place) => (place ? `branch ${place}` : 'injected');

function partsOf(cells, place) {
  const found = [];
  for (const cell of cells) {
    const { lower, upper, wrong } = thousandths(cell);
    const words = wrong ?? (lower !== upper ? fill(say.amounts.part, { text: cell })
      : lower > MOST || lower < -MOST ? say.amounts.far_part : '');
    if (words) return { wrong: `${currentName(place)}: ${words}` };
    found.push(Number(lower));
  }
  return found;
}

// The split from a staged test: the injected current and then each branch, a line each, in-phase and quadrature part in amperes.
export function splitOf(text) {
  const { lines, wrong } = pairs(text, CURRENTS, currentName, 'in-phase and quadrature part in A, as 400 -50');
  const parts = (lines ?? []).map(partsOf), bad = wrong ?? parts.find((one) => one.wrong)?.wrong;
  if (bad) return { wrong: bad };
  const answer = core.split(parts);
  if (answer.refused) return { wrong: refusal(answer.refused, { parts }) };
  const shown = (name, one) => [name, down(one[0], 3, 3), down(one[1], 3, 3)], { split } = answer;
  return {
    rows: [...parts.map((one, place) => shown(currentName(place), one)), shown('grid', [answer.in_phase, answer.quadrature])],
    notes: outside('split', split) ? [fill(say.split.outside, { split: grouped(split) })] : [],
    column: fill(say.split.column, { split: grouped(split) }), value: split, fits: !outside('split', split),
  };
}

// The fewest conductors each way, then rods, for a square yard of a side in metres, all else as in a case; and the cells that make it.
export function fewestOf(one, text) {
  const side = thousandths(text.trim());
  const wrong = side.wrong ?? (side.lower !== side.upper ? fill(say.amounts.side, { text: text.trim() }) : '');
  if (wrong) return { wrong: `side: ${wrong}` };
  const wanted = Number(side.lower), rodlen = one.rodlen || ROD;
  if (wanted < 0 || wanted > 0xFFFFFFFF) return { wrong: refusal({ number: 15 }, { side: wanted }) };
  const answer = core.fewest(core.textOf([core.lineOf({ ...one, rodlen })]), wanted);
  if (answer.refused) return { wrong: refusal(answer.refused, { side: wanted }) };
  const { lines, rods, tried } = answer, count = fill(say.fewest.tried[tried > 1 ? 1 : 0], { count: tried });
  if (!answer.found) {
    return { side: wanted, tried, count, words: tried ? fill(say.fewest.none, { tried })
      : fill(say.fewest.untried, { side: exact(wanted, 3) }) };
  }
  const space = wanted / (lines - 1);
  return {
    side: wanted, tried, count,
    words: fill(rods ? say.fewest.rods : say.fewest.no_rods, { lines, spacing: exact(space, 3), rods, tried: count }),
    cells: { across: lines, along: lines, space, rods, rodlen: rods ? rodlen : 0, place: rods ? 1 : 0 },
  };
}

// The yards of a side in mm that were tried, as many as the library says, in its order: conductors rising, with each count rods rising.
function yardsTried(one, side, count) {
  const { space, across } = BY_NAME, made = [], rodlen = one.rodlen || ROD;
  for (let lines = across.low; lines <= across.high; lines++) {
    const apart = side / (lines - 1);
    if (!Number.isInteger(apart) || apart < space.low || apart > space.high) continue;
    made.push(...say.fewest.rod_counts.map((rods) => ({ ...one, across: lines, along: lines, space: apart, rods, rodlen: rods ? rodlen : 0,
      place: rods ? 1 : 0 })));
  }
  return made.slice(0, count);
}

// The same as lines of a table, each with the library's answer: conductors, spacing, rods, verdict and nearest limit.
export function triedTable(one, { side, tried }) {
  const yards = yardsTried(one, side, tried), found = [];
  for (let first = 0; first < yards.length; first += data.lines) {
    const part = yards.slice(first, first + data.lines).map((yard, i) => ({ ...yard, station: i + 1, season: 1 }));
    const text = core.textOf(part.map(core.lineOf)), rows = core.rows(text), margins = core.margins(text);
    found.push(...part.map((yard, i) => ({ yard, verdict: rows[i].verdict, near: against(rows[i], margins[i]).nearest })));
  }
  return found.map(({ yard, verdict, near }) => [String(yard.across), `${exact(yard.space, 3)} m`, String(yard.rods),
    data.verdicts[verdict], `${margin(near)} ${near.limit}`]);
}

export const rodLength = (one) => (one.rodlen ? '' : `${exact(ROD, 3)}\u00a0m`);
