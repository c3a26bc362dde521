// What the library answers of every station: released or held, and the reasons to hold it as data.
// Nothing is decided here. A station of which a line is refused is not asked, for the refused line might be the one that holds it.
import { NAMES, SEASONS, data } from '../library/data.js';
import * as core from '../library/core.js';
import { smallWires } from './judging.js';

export const kcmil = (diameter) => Math.floor((1000 * diameter * diameter) / 64516);
const mask = (seasons) => seasons.reduce((sum, season) => sum + 2 ** (season - 1), 0);

function differing(lines) {
  return NAMES.slice(2).filter((name) => new Set(lines.map((line) => line.case[name])).size > 1);
}

// What the conductor of a line needs and has; solid where only its diameter is known.
export function sizeOfLine({ row, area, case: { dia } }) {
  return { needed: row.kcmil, diameter: dia, own: area || kcmil(dia), solid: !area };
}

function sizeOf(lines) {
  const small = lines.filter((line) => line.small);
  const line = (small.length ? small : lines).reduce((most, one) => {
    const more = one.row.kcmil - most.row.kcmil || most.case.dia - one.case.dia;
    return more > 0 ? one : most;
  });
  return sizeOfLine(line);
}

function reasonsOf(answer, lines, missing, differs) {
  const found = [];
  const with_ = (verdict, side, kind) => lines.filter((line) => line.row.verdict === verdict).forEach((line) => {
    found.push({ kind, season: line.row.season, compared: line.compared.filter((one) => one.side === side) });
  });
  if (answer.unsafe) with_(2, 'above', 'unsafe');
  if (answer.undecided) with_(3, 'overlaps', 'undecided');
  if (answer.missing) found.push({ kind: 'missing', seasons: missing, noLine: !lines.length });
  if (answer.other_yard) found.push({ kind: 'yard', columns: data.yard.filter((name) => differs.includes(name)) });
  if (answer.small_wire) found.push({ kind: 'wire', size: sizeOf(lines) });
  return found;
}

function stationOf(number, lines, licensed, answer) {
  const own = lines.toSorted((one, other) => one.row.season - other.row.season);
  const there = new Set(own.map((line) => line.row.season));
  const missing = licensed.seasons.filter((season) => !there.has(season)), differs = own.length ? differing(own) : [];
  const station = { station: number, ...licensed, lines: own, missing, differs, answer };
  if (own.length) {
    station.worst = own.reduce((most, one) => (one.nearest.margin > most.nearest.margin ? one : most));
    station.size = sizeOf(own);
  }
  if (answer) Object.assign(station, { released: answer.released, fault: answer.fault, reasons: reasonsOf(answer, own, missing, differs) });
  return station;
}

// The refused lines that stand in the way of a decision: by station, and those of which the station cannot be read.
function refusedOf(judged) {
  const byStation = new Map(), unread = [];
  for (const line of judged.lines.filter((one) => one.refused)) {
    const text = line.cells[0];
    if (!/^[1-9]\d{0,4}$/.test(text)) unread.push(line);
    else byStation.set(Number(text), [...(byStation.get(Number(text)) ?? []), line]);
  }
  return { byStation, unread };
}

// What the library answers of some stations, each on the sheet that has its lines; those without a line are asked on the first sheet.
// The same sheet and entries have the same answers, so that a keystroke asks of one sheet alone.
let kept = new Map();
function releases(sheets, open, entryOf) {
  const wanted = new Set(open), answers = new Map(), asked = new Map();
  const placed = new Set(sheets.flatMap((one) => one.stations)), others = open.filter((number) => !placed.has(number));
  sheets.forEach(({ text, stations }, place) => {
    const entries = [...stations.filter((number) => wanted.has(number)), ...(place ? [] : others)].map(entryOf);
    for (let first = 0; first < entries.length; first += data.lines) {
      const part = entries.slice(first, first + data.lines), key = `${part}\n${text}`;
      asked.set(key, kept.get(key) ?? core.release(text, part));
      for (const one of asked.get(key)) answers.set(one.station, one);
    }
  });
  kept = asked;
  return answers;
}

const NO_LICENCE = { name: '', seasons: SEASONS, wire: '', area: 0, byLicence: false, outside: false };

// What a licence grants of a station: without any, all four seasons are asked; a station that it does not name, or without a season, is
// outside it and not asked.
function grantedBy(licence, number) {
  if (!licence.size) return NO_LICENCE;
  const one = licence.get(number) ?? { ...NO_LICENCE, seasons: [] };
  return { ...one, outside: !one.seasons.length };
}

// The stations of the sheet and of the licence; `licence` has name, seasons and wire of each that it names.
export function portfolio(judged, licence) {
  const lines = new Map(), refused = refusedOf(judged);
  for (const line of judged.lines) {
    const number = line.refused ? Number(line.cells[0]) : line.row.station;
    if (line.refused && !refused.byStation.has(number)) continue;
    lines.set(number, [...(lines.get(number) ?? []), ...(line.refused ? [] : [line])]);
  }
  for (const number of licence.keys()) if (!lines.has(number)) lines.set(number, []);
  const granted = (number) => grantedBy(licence, number);
  const open = [...lines.keys()].filter((number) => !refused.byStation.has(number) && !granted(number).outside && !refused.unread.length);
  const entry = (number) => [number, mask(granted(number).seasons), granted(number).area];
  const answers = releases(judged.sheets, open, entry);
  const stations = [...lines].map(([number, own]) => ({
    ...stationOf(number, own, granted(number), answers.get(number)), refused: refused.byStation.get(number) ?? [],
  }));
  return { stations, at: new Map(stations.map((one) => [one.station, one])), unread: refused.unread, licensed: licence.size > 0 };
}

// The greatest fault current at which the wire of every line of a station is large enough: by halving.
export function wireTo(station) {
  const { low, high } = data.names.find((one) => one.name === 'fault');
  let [below, above] = [low - 1, high + 1];
  while (above - below > 1) {
    const fault = Math.floor((below + above) / 2);
    if (smallWires(station.lines.map((line) => ({ ...line.case, area: line.area, fault }))).some(Boolean)) above = fault;
    else below = fault;
  }
  return below;
}
