// A licence: station, name, seasons and, where it is known, wire, read as `hocsimbur release` reads it; one wrong line refuses the whole,
// for a season that is left out could release a station.
import { SEASONS, data, fill } from '../library/data.js';
import { areaOf } from './wires.js';

const say = data.licences, COLUMNS = ['station', 'name', 'seasons'], WIRE = 'wire';

// The columns of a line of names, in its order; nothing where it is none of a licence.
function columnsOf(cells) {
  const names = cells.map((name) => name.toLowerCase());
  while (names.length && !names.at(-1)) names.pop();
  const wanted = names.includes(WIRE) ? [...COLUMNS, WIRE] : COLUMNS;
  return names.length === wanted.length && wanted.every((name) => names.includes(name)) ? names : null;
}

// What is wrong with a name or a wire, without its place; '' where nothing is.
const here = (template) => template.replace('licence {line}, ', '');
const unprintable = (name) => /\p{C}|[^\P{Z} ]/u.test(name);
export const nameRefused = (name) => (unprintable(name) ? here(say.name) : '');
export const wireRefused = (wire) => (areaOf(wire) === null ? fill(here(say.wire), { text: wire }) : '');

export const isLicence = (cells) => columnsOf(cells) !== null;

// { seasons } as people write them ('1 2 4', '1,2,4', '1-4', 'all'), or { wrong }, the sentence and its text.
function seasonsOf(text) {
  if (text.toLowerCase() === 'all') return { seasons: SEASONS };
  const found = [];
  for (const part of text.split(/[\s,;+/]+/)) {
    const span = /^([1-4])(?:[-\u2013]([1-4]))?$/.exec(part), [from, to] = span ? [Number(span[1]), Number(span[2] ?? span[1])] : [1, 0];
    if (!part) return { wrong: say.none };
    if (to < from) return { wrong: say.season, text: part };
    found.push(...SEASONS.filter((season) => season >= from && season <= to));
  }
  return new Set(found).size < found.length ? { wrong: say.twice, text } : { seasons: SEASONS.filter((season) => found.includes(season)) };
}

// { station, of } of a line, or { refused }, a sentence.
function stationOf(names, cells, line, places) {
  const [text, name, seasons, wire] = [...COLUMNS, WIRE].map((column) => cells[names.indexOf(column)] ?? '');
  const digits = /^(\d{1,5})(?:\.0*)?$/.exec(text), station = Number(digits?.[1]);
  if (!digits || station < 1 || station > 65535) return { refused: fill(say.station, { line, text }) };
  if (unprintable(name)) return { refused: fill(say.name, { line }) };
  if (places.has(station)) return { refused: fill(say.again, { line, station, earlier: places.get(station) }) };
  const asked = seasonsOf(seasons), area = areaOf(wire);
  if (asked.wrong) return { refused: fill(asked.wrong, { line, text: asked.text }) };
  if (area === null) return { refused: fill(say.wire, { line, text: wire }) };
  return { station, of: { name, seasons: asked.seasons, wire, area, byLicence: true } };
}

// { licence }, a map from station to name, seasons, wire and its area in kcmil, or { refused }, a sentence.
export function licenceOf(lines) {
  const [head, ...found] = lines.map((cells, i) => ({ cells, line: `line ${i + 1}` })).filter(({ cells }) => cells.some(Boolean));
  const names = columnsOf(head.cells), licence = new Map(), places = new Map();
  for (const { cells, line } of found) {
    if (cells.length < names.length || cells.slice(names.length).some(Boolean)) {
      return { refused: fill(say.cells, { line, count: cells.length, columns: names.length }) };
    }
    const { station, of, refused } = stationOf(names, cells, line, places);
    if (refused) return { refused };
    places.set(station, line);
    licence.set(station, of);
  }
  return licence.size ? { licence } : { refused: say.no_station };
}
