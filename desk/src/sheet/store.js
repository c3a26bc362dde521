// The sheet as it is edited: rows of text, the licence, what was done and undone. It lives in the page alone.
import { NAMES } from '../library/data.js';

const blank = () => NAMES.map(() => '');
const MOST_STEPS = 300;
export const MOST_LINES = 10000; // that the page takes
const listeners = [];
export const LICENCE = 'licence.csv'; // the file of a licence that was never saved
const empty = { rows: [], licence: new Map(), name: '', licenceName: LICENCE, made: new Map() };
let past = [], future = [], saved = empty;

export const store = { now: empty, draft: null };
export const listen = (call) => listeners.push(call);
const told = (kind) => listeners.forEach((call) => call(kind));

export const unsavedPart = (part) => store.now[part] !== saved[part] && Boolean(store.now[part].length || store.now[part].size);
export const unsaved = () => unsavedPart('rows') || unsavedPart('licence');
export const touch = () => told('saved'); // something that is shown has changed, beside the sheet
export const canUndo = () => past.length > 0;
export const canRedo = () => future.length > 0;

function trimmed(rows) {
  let end = rows.length;
  while (end && rows[end - 1].every((cell) => cell === '')) end--;
  return rows.slice(0, end);
}

// The line of a sheet that a row becomes when it is saved: blank rows are left out. All lines of some rows are counted at once.
const numbers = new WeakMap();
export function lineNumber(rows, row) {
  if (!numbers.has(rows)) {
    let next = 2;
    numbers.set(rows, rows.map((one) => (one.some(Boolean) ? next++ : next)));
  }
  return numbers.get(rows)[row];
}

// A change: what it is in words, and the new rows, licence or name; `made` has by cell what was done to what was typed there.
export function change(what, next) {
  const { now } = store;
  past = [...past.slice(-MOST_STEPS), { state: now, what }];
  future = [];
  store.draft = null;
  store.now = { ...now, made: new Map(), ...next, rows: trimmed(next.rows ?? now.rows) };
  told('change');
}

export function undo() {
  if (!past.length) return '';
  const { state, what } = past.pop();
  future.push({ state: store.now, what });
  store.now = state;
  told('change');
  return what;
}

export function redo() {
  if (!future.length) return '';
  const { state, what } = future.pop();
  past.push({ state: store.now, what });
  store.now = state;
  told('change');
  return what;
}

// The sheet, the licence or both now stand in files of these names.
export function markSaved({ sheet, licence }) {
  if (sheet) store.now = { ...store.now, name: sheet };
  saved = { rows: sheet ? store.now.rows : saved.rows, licence: licence ? store.now.licence : saved.licence };
  told('saved');
}

// What is being typed, judged before it is taken.
export function draft(row, column, text) {
  store.draft = text === null ? null : { row, column, text };
  told('draft');
}

export function rowsNow() {
  const { now, draft: typed } = store;
  return typed ? withCells([[typed.row, typed.column, typed.text]], now.rows) : now.rows;
}

// The rows with some cells set; rows that are not there yet are added, up to the most that a sheet takes.
export function withCells(cells, rows = store.now.rows) {
  const made = [...rows], own = new Set();
  for (const [row, column, text] of cells) {
    if (row >= MOST_LINES || column >= NAMES.length) continue;
    while (made.length <= row) made.push(blank());
    if (!own.has(row)) made[row] = [...made[row]];
    own.add(row);
    made[row][column] = text;
  }
  return made;
}

// The cells of cases put into the lines they came from.
export function casesAsCells(lines, cases) {
  return lines.flatMap((line, i) => NAMES.map((name, column) => [line.place, column, String(cases[i][name])])
    .filter(([row, column, text]) => store.now.rows[row][column] !== text));
}
