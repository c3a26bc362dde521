// Values that are taken over from a drawing into the sheet, as one step that undo takes back.
import { COLUMN, data } from '../library/data.js';
import { change, store, withCells } from '../sheet/store.js';

// The lines that a value of some columns is put into: the yard's go into every line of the station, since its lines must agree on them.
export const linesFor = (names, line, station) => (names.some((name) => data.yard.includes(name)) ? station.lines : [line]);

// Puts the cells that `cellsOf` makes of a line's case into the sheet; nothing where all stood there, else how many lines, in words. Of
// other lines than the chosen one only the yard's columns are set.
export function taken(names, cellsOf, line, station) {
  const own = linesFor(names, line, station);
  const set = own.flatMap((one) => Object.entries(cellsOf(one.case)).filter(([name]) => one === line || data.yard.includes(name))
    .map(([name, text]) => [one.place, COLUMN[name], String(text)]));
  if (set.every(([row, column, text]) => store.now.rows[row][column] === text)) return null;
  change(`${names.join(' and ')} of ${own.length > 1 ? `${own.length} lines` : 'a line'}`, { rows: withCells(set) });
  return { words: own.length > 1 ? `, in ${own.length} lines of station ${station.station}` : '' };
}
