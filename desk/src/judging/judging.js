// The lines of the grid as the library judges them: each asked by itself, so that the refusal of every line is told, then those of a
// station together, so that a season that stands twice is told too. Whole stations are put together into sheets that the library takes.
import { COLUMN, NAMES, REFUSAL, SEASONS, data } from '../library/data.js';
import * as core from '../library/core.js';

const filled = (row) => row.some((cell) => cell !== '');

// A cell as it stands in the text of a sheet: what would part a field or a line in two is no value, and is asked as one that is none.
const field = (cell) => (/^[0-9A-Za-z.+-]{0,12}$/.test(cell) ? cell : '?');

function caseOf(row) {
  return Object.fromEntries(NAMES.map((name, place) => [name, Number(row[place])]));
}

// The lines of each station, in the order in which the stations first appear.
function byStation(lines) {
  const found = new Map();
  for (const line of lines) {
    const own = found.get(line.cells[0]);
    if (own) own.push(line);
    else found.set(line.cells[0], [line]);
  }
  return [...found.values()];
}

// Lines whose station and season stand in an earlier one: the library names the first, which is left out, until it accepts the rest.
function accepted(lines) {
  for (let kept = lines; ;) {
    const asked = kept.length > 1 ? core.rows(core.textOf(kept.map((one) => one.text))) : [];
    if (!asked.refused) return kept;
    const one = kept[asked.refused.line - 2];
    one.refused = { ...asked.refused, line: one.number };
    kept = kept.filter((other) => other !== one);
  }
}

// The accepted lines of a station, which has one for a season: however many lines there are, as many are asked at a time as a sheet takes.
const AT_A_TIME = data.lines - SEASONS.length;
function acceptedOf(own) {
  let kept = [];
  for (let first = 0; first < own.length; first += AT_A_TIME) kept = accepted([...kept, ...own.slice(first, first + AT_A_TIME)]);
  return kept;
}

// Sheets of whole stations: { text, stations } of each.
function sheetsOf(stations) {
  const sheets = [];
  let lines = [], numbers = [];
  const done = () => {
    if (lines.length) sheets.push({ text: core.textOf(lines), stations: numbers });
    [lines, numbers] = [[], []];
  };
  for (const own of stations) {
    if (lines.length + own.length > data.lines) done();
    lines.push(...own.map((one) => one.text));
    numbers.push(Number(own[0].cells[0]));
  }
  done();
  return sheets;
}

// Of each line, by itself: whether its conductor is too small, which the library tells of a station of that line alone. A case has beside
// its columns an area, the conductor's own cross-section in kcmil; with 0 it is a solid round of the diameter.
export function smallWires(cases) {
  const found = [];
  for (let first = 0; first < cases.length; first += data.lines) {
    const part = cases.slice(first, first + data.lines).map((one, i) => ({ ...one, station: i + 1, season: 1 }));
    const answers = core.release(core.textOf(part.map(core.lineOf)), part.map((one) => [one.station, 1, one.area]));
    found.push(...answers.map((one) => one.small_wire > 0));
  }
  return found;
}

function compared(limit, voltage, tolerable, margin) {
  const side = voltage.upper <= tolerable.lower ? 'below' : voltage.lower > tolerable.upper ? 'above' : 'overlaps';
  return { limit, kind: limit === 'touch' ? 'mesh' : 'step', voltage, tolerable, margin, side };
}

export function against(row, margins) {
  const both = [compared('touch', row.mesh, row.tolerable_touch, margins.mesh),
    compared('step', row.step, row.tolerable_step, margins.step)];
  return { compared: both, nearest: both[1].margin > both[0].margin ? both[1] : both[0] };
}

// What was answered of a line's text and its conductor's own area: the same two have the same answers, so that a keystroke asks of one
// line alone.
const known = new Map();
const MOST_KNOWN = 65536;

function askAlone(one) {
  const asked = core.rows(core.textOf([one.text]));
  return asked.refused ? { refused: asked.refused } : { row: asked[0], case: caseOf(one.cells), area: one.area };
}

function answered(all) {
  for (let first = 0; first < all.length; first += data.lines) answeredTogether(all.slice(first, first + data.lines));
}

function answeredTogether(fresh) {
  const text = core.textOf(fresh.map(({ answer }) => core.lineOf(answer.case)));
  const [margins, working, headroom] = [core.margins(text), core.working(text), core.headroom(text)];
  const small = smallWires(fresh.map(({ answer }) => ({ ...answer.case, area: answer.area })));
  fresh.forEach(({ answer }, i) => Object.assign(answer, {
    margins: margins[i], working: working[i], headroom: headroom[i], small: small[i], ...against(answer.row, margins[i]),
  }));
}

// { lines, at, kept, sheets }: what is known of each line that is not blank, the same by its place in the grid, the accepted lines, and
// their sheets.
export function judge(rows, licence = new Map()) {
  const lines = [], fresh = [];
  if (known.size > MOST_KNOWN) known.clear();
  rows.forEach((row, place) => {
    if (!filled(row)) return;
    const area = licence.get(Number(row[COLUMN.station]))?.area ?? 0; // of its station's conductor, where the licence names it
    lines.push({ place, number: lines.length + 2, cells: row, text: row.map(field).join(','), area });
  });
  for (const one of lines) {
    const key = `${one.area} ${one.text}`;
    if (!known.has(key)) known.set(key, askAlone(one));
    one.answer = known.get(key);
    if (one.answer.refused) one.refused = { ...one.answer.refused, line: one.number };
  }
  const stations = byStation(lines.filter((one) => !one.refused)).map(acceptedOf), kept = stations.flat();
  for (const one of kept) if (!one.answer.working) fresh.push(one);
  answered(fresh);
  for (const one of kept) Object.assign(one, one.answer);
  return { lines, at: new Map(lines.map((one) => [one.place, one])), kept, sheets: sheetsOf(stations) };
}

// The column of a refused cell: the library's own, or that of the station where it names only the line.
export const refusedColumn = (line) => (line.refused.column ? line.refused.column - 1 : COLUMN.station);
export const incomplete = (line) => line.refused.number === REFUSAL.form && line.cells[refusedColumn(line)] === '';
