// Cells that are typed, pasted or opened become whole numbers where `import` would make them ones without rounding; each kind of change is
// counted and told with its first example, and each cell that was changed keeps what was done to it until the next change.
import { COLUMN, NAMES } from '../library/data.js';
import { changeWords, plain, reading, wireNote, withUnit } from './amounts.js';
import { lineNumber } from './store.js';

export const cellKey = (row, column) => `${row},${column}`;
export const whereOf = (rows, row, column) => `line ${lineNumber(rows, row)}, ${NAMES[column]}`;

// As `import` goes through a sheet: line by line, the thickness of the layer last, since its side goes by layer and soil.
const inOrder = ([row, column], [other, next]) => row - other || (column === COLUMN.thick) - (next === COLUMN.thick) || column - next;

// { rows, told, made, left }: the rows with what became of the cells at some places, the sentences, by cell what was done to it, and the
// cells that were left as they are. A cell that is left keeps the unit of its head: `units` has them by column.
export function imported(rows, places, sign, units = []) {
  const after = [...rows], own = new Set(), kinds = new Map(), made = new Map(), wires = new Map(), left = [];
  for (const [row, column] of places.toSorted(inOrder)) {
    const found = reading(rows[row], column, sign, units);
    if (!found) continue;
    if (!own.has(row)) after[row] = [...after[row]];
    own.add(row);
    if (!found.digits || found.rounded) {
      left.push([row, column, found.said]);
      after[row][column] = withUnit(rows[row][column], NAMES[column], units[column]);
      continue;
    }
    after[row][column] = found.digits;
    if (!found.change) continue;
    const { kind, tokens: { unit, own: made_ } } = found.change, key = `${kind} ${unit} ${made_}`, where = whereOf(rows, row, column);
    kinds.set(key, { change: found.change, where, count: 0, ...kinds.get(key) });
    kinds.get(key).count++;
    if (found.wire) wires.set(found.wire.name, wireNote(found.wire));
    made.set(cellKey(row, column), changeWords(found.change, where));
  }
  const told = [...[...kinds.values()].map(({ change, where, count }) => changeWords(change, where, count)), ...wires.values()];
  return { rows: after, told, made, left };
}

// The places of the cells that are filled and no whole numbers of their column's unit yet.
export const everyCell = (rows, units = []) => rows.flatMap((row, i) =>
  row.flatMap((text, j) => (text && !(plain(text) && !units[j]) ? [[i, j]] : [])));

// What was left as it is, by its first cell; '' where nothing was.
export function leftWords(rows, left) {
  if (!left.length) return '';
  const [row, column, said] = left[0], more = left.length > 1 ? `; and ${left.length - 1} more` : '';
  return `left as it is: ${whereOf(rows, row, column)}: ${said}${more}`;
}
