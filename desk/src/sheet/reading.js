// Text from a file or the clipboard as cells: commas, semicolons or tabs, with or without a line of names, as `hocsimbur import` reads it.
import { NAMES, data, fill } from '../library/data.js';
import { carry } from '../library/core.js';
import { grouped } from '../words/decimals.js';
import { listed } from '../words/words.js';
import { calledOf, columnOf, columnsOf, headAt } from './heads.js';
import { SPACES, whole } from './numbers.js';
import { MOST_LINES } from './store.js';

export const PAST = 'values past the last column were left out';

export function parsed(text) {
  const plain = text.replace(/^\ufeff/, '').replace(/\r\n?/g, '\n'), named = /^sep=(.)\n/.exec(plain);
  const filled = plain.split('\n').filter((line) => line.trim());
  const many = (line) => [...',;\t'].some((one) => line.split(one).length > data.heads.few);
  const head = filled.find(many) ?? filled[0] ?? ''; // a title may stand above the names
  const count = (one) => head.split(one).length, most = [...',;\t'].reduce((best, one) => (count(one) > count(best) ? one : best));
  const sign = named?.[1] ?? (count(most) > 2 || head.includes('\t') ? most : '\t'); // a cell alone may hold a comma of its own
  const lines = [[]];
  let cell = '', quoted = false;
  const done = () => { lines.at(-1).push(cell); cell = ''; };
  const all = named ? plain.slice(6) : plain;
  for (let i = 0; i < all.length; i++) {
    const one = all[i];
    if (one === '"' && quoted && all[i + 1] === '"') cell += all[i++];
    else if (one === '"') quoted = !quoted;
    else if (one === sign && !quoted) done();
    else if (one === '\n' && !quoted) { done(); lines.push([]); } else cell += one;
  }
  done();
  const space = new RegExp(`^[ \\t${SPACES}]+|[ \\t${SPACES}]+$`, 'g');
  return { sign, first: named ? 2 : 1, lines: lines.map((line) => line.map((one) => one.replace(space, ''))) };
}

const isNames = (cells) => cells.filter((cell) => NAMES.includes(cell.toLowerCase())
  || data.former.includes(cell.toLowerCase())).length > 1;
// { rows, header, notes, sign } of a text, its cells as they stand; a header of names alone puts each column under its own name.
export function cellsOf(text) {
  const { sign, lines } = parsed(text), kept = lines.filter((line) => line.some(Boolean)), notes = [];
  if (!kept.length) return { rows: [], header: false, notes: [data.refusals.no_lines], sign };
  const names = kept[0].map((name) => name.toLowerCase());
  if (!isNames(kept[0])) return { rows: kept, header: false, notes, sign };
  if (names.includes('ms') || names.includes('lines')) return carried(kept, sign);
  const unknown = names.filter((name) => name && !NAMES.includes(name)), missing = NAMES.filter((name) => !names.includes(name));
  for (const name of unknown) notes.push(fill(data.refusals.unknown_name, { name }));
  const gone = `${listed(missing)} ${missing.length > 1 ? 'are' : 'is'}`;
  if (missing.length) notes.push(fill(data.refusals.missing_name, { names: gone, count: names.length }));
  const place = NAMES.map((name) => names.indexOf(name));
  const rows = kept.slice(1).map((line) => place.map((at) => (at < 0 ? '' : line[at] ?? '')));
  if (!rows.length) notes.push(data.refusals.no_lines);
  return { rows, header: true, notes, sign };
}

// Heads that are names of a sheet, each once, or stand for nothing.
export const isBare = (heads) => heads.every((head, i) => {
  const { name } = columnOf(head);
  const earlier = heads.findIndex((one) => columnOf(one).name === name);
  return !name || (name === head.toLowerCase() && name !== data.heads.station_name && earlier === i);
});

// As `cellsOf`, and { told, refused, units, called }: below a title, and under heads with units, labels or a column with the names of
// stations, which `import` reads too: what it tells of them, what cannot be taken, the units by column and the names by station.
export function sheetOf(text) {
  const { sign, first, lines } = parsed(text), numbered = lines.map((cells, i) => ({ cells, line: first + i }));
  const kept = numbered.filter(({ cells }) => cells.some(Boolean)), at = headAt(kept);
  const none = { rows: [], header: true, told: [], notes: [], refused: [], units: [], called: new Map(), sign };
  if (at < 0 || (at === 0 && isBare(kept[0].cells))) return { ...none, ...cellsOf(text) };
  const { cells: heads, line } = kept[at], found = kept.slice(at + 1), columns = columnsOf(heads, line, kept.slice(0, at));
  const { former, names, told, missing, refused } = columns;
  if (refused.length || (former && missing.length)) return { ...none, refused: [...refused, ...missing] };
  if (former) return { ...none, told, ...formerOf(found, columns, sign) };
  const place = NAMES.map((name) => names.indexOf(name)), rows = found.map(({ cells }) => place.map((one) => cells[one] ?? ''));
  const units = place.map((one) => columns.units[one] ?? ''), width = heads.findLastIndex(Boolean) + 1;
  const notes = [...missing, ...(rows.length ? [] : [data.refusals.no_lines])];
  if (found.some(({ cells }) => cells.slice(width).some(Boolean))) notes.push(PAST);
  return { ...none, rows, told, notes, ...calledOf(found, names, sign), units };
}

// Why so many lines cannot stand in the page; '' where they can. None is left out in silence.
export const tooMany = (count) => (count > MOST_LINES
  ? `${grouped(count)} lines of values, at most ${grouped(MOST_LINES)} are taken; split it into several` : '');

// A sheet of the former 18 names: the library makes today's of it.
function carried(kept, sign) {
  const values = kept.slice(1).map((line) => line.slice(0, kept[0].length).map((cell) => whole(cell, sign)));
  const asked = carry([kept[0].map((name) => name.toLowerCase()), ...values].map((line) => `${line.join(',')}\n`).join(''));
  if (asked.refused) {
    const { number, line, column } = asked.refused;
    return { rows: [], header: true, sign,
      notes: [`a sheet of the former 18 names, and refused: number ${number}, line ${line}, column ${column}`] };
  }
  return { ...cellsOf(asked), notes: ['a sheet of the former 18 names: the library made today’s of it'] };
}

// Of a sheet of the former 18 names below a title or with labels; in which unit its numbers are is not read.
function formerOf(found, { names, units }, sign) {
  if (units.some(Boolean)) {
    return { notes: ['a sheet of the former 18 names with units in its heads: `hocsimbur import` and then `hocsimbur carry` convert it'] };
  }
  const own = names.flatMap((name, i) => (data.former.includes(name) ? [i] : []));
  return carried([own.map((i) => names[i]), ...found.map(({ cells }) => own.map((i) => cells[i] ?? ''))], sign);
}
