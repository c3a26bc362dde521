// Typing in the sheet as in a spreadsheet: arrows, Enter, Tab, Escape, F2, Delete, fill down, and ranges through the clipboard.
import { BY_NAME, NAMES } from '../library/data.js';
import { byId, h } from './dom.js';
import { cellAt, restore, rowCount } from './grid.js';
import { changeWords, reading } from '../sheet/amounts.js';
import { cellKey, imported, leftWords, whereOf } from '../sheet/importing.js';
import { withNames } from '../sheet/granting.js';
import { sheetOf, tooMany } from '../sheet/reading.js';
import { at, choose, chooseAll, chooseRows, move, range } from './select.js';
import { change, draft, store, withCells } from '../sheet/store.js';

let editor = null, leaving = false, say = () => {};
export const onSay = (call) => { say = call; };
export const editing = () => editor !== null;

function edit(text, over) {
  const td = cellAt(at.row, at.column), { row, column } = at;
  const input = h('input', {
    class: 'editor', value: text, 'aria-label': `${NAMES[column]}, ${BY_NAME[NAMES[column]].meaning}`, inputmode: 'text',
    spellcheck: 'false', autocomplete: 'off',
  });
  td.replaceChildren(input);
  editor = { input, row, column, over, was: store.now.rows[row]?.[column] ?? '' };
  input.focus();
  if (over) draft(row, column, input.value);
  else input.select();
  input.addEventListener('input', () => draft(row, column, input.value.trim()));
  input.addEventListener('blur', () => finish(true));
}

// Ends the typing: the value is taken, as `import` takes it, or what stood there before.
export function finish(take) {
  if (!editor) return;
  const { input, row, column, was } = editor, typed = input.value.trim();
  const { rows, told, made } = imported(withCells([[row, column, typed]]), [[row, column]], ',');
  editor = null;
  if (take && typed !== was && rows[row]?.[column] !== was) {
    change(`${NAMES[column]} of a line`, { rows, made });
  } else draft(row, column, null);
  if (take && typed !== was && told.length) say(told.join('; '));
  restore(row, column);
}

// Whether more can be said of what stands in a cell than that it is refused: what it would become, or why no side is cautious.
const isOpen = (row, column) => { const found = reading(store.now.rows[row], column); return Boolean(found?.number || found?.digits); };

// Writes what the text of a cell becomes, rounded with caution where it must be: only where the person says so.
export function accept(row, column) {
  const { rows } = store.now, found = reading(rows[row], column), where = whereOf(rows, row, column);
  if (!found?.digits) return false;
  const words = found.rounded ? found.rounded(where) : changeWords(found.change, where);
  change(`${NAMES[column]} of a line`, { rows: withCells([[row, column, found.digits]]), made: new Map([[cellKey(row, column), words]]) });
  say(words);
  return true;
}

function inEditor(event) {
  const { key } = event, moves = { Enter: [event.shiftKey ? -1 : 1, 0], Tab: [0, event.shiftKey ? -1 : 1] };
  if (editor.over) Object.assign(moves, { ArrowUp: [-1, 0], ArrowDown: [1, 0], ArrowLeft: [0, -1], ArrowRight: [0, 1] });
  if (key === 'F2') editor.over = false;
  if (key === 'Escape') { event.preventDefault(); event.stopPropagation(); finish(false); choose(at.row, at.column); }
  if (!moves[key]) return;
  event.preventDefault();
  const { row, column } = editor;
  finish(true);
  if (isOpen(row, column)) choose(row, column); // what it would become is shown there first
  else step(...moves[key]);
}

// Past the last column the next line begins.
function step(down, right) {
  if (right && at.column + right >= NAMES.length) return choose(at.row + 1, 0);
  if (right && at.column + right < 0) return at.row ? choose(at.row - 1, NAMES.length - 1) : undefined;
  return move(down, right);
}

function each(call) {
  const { top, bottom, left, right } = range(), cells = [];
  for (let row = top; row <= bottom; row++) for (let column = left; column <= right; column++) cells.push([row, column, call(row, column)]);
  return cells;
}

const erase = () => change('cells cleared', { rows: withCells(each(() => '')) });

function fillDown() {
  const { top, bottom } = range(), from = top === bottom ? top - 1 : top;
  if (from < 0) return;
  change('filled down', { rows: withCells(each((row, column) => store.now.rows[from]?.[column] ?? '')) });
}

// The end of the cells that are filled, or the first after those that are not, as Ctrl and an arrow go.
function jump(down, right) {
  const filled = (row, column) => Boolean(store.now.rows[row]?.[column]);
  let { row, column } = at;
  const next = () => [row + down, column + right], inside = ([r, c]) => r >= 0 && c >= 0 && r < rowCount() && c < NAMES.length;
  const kind = inside(next()) && filled(...next());
  while (inside(next()) && (filled(...next()) === kind)) [row, column] = next();
  if (!kind && inside(next())) [row, column] = next();
  return [row, column];
}

function inGrid(event) {
  const { key, shiftKey } = event, ctrl = event.ctrlKey || event.metaKey;
  const arrows = { ArrowUp: [-1, 0], ArrowDown: [1, 0], ArrowLeft: [0, -1], ArrowRight: [0, 1] };
  if (['Shift', 'Control', 'Alt', 'Meta'].includes(key)) return; // the key itself comes next, as Shift before Tab
  if (key === 'Escape') { leaving = true; say('Tab now leaves the sheet'); return; }
  if (key === 'Tab' && leaving) { leaving = false; return; }
  leaving = false;
  let done = true;
  if (arrows[key] && ctrl) choose(...jump(...arrows[key]), shiftKey);
  else if (arrows[key]) move(...arrows[key], shiftKey);
  else if (key === 'Enter' && !shiftKey && accept(at.row, at.column)) step(1, 0);
  else if (key === 'Enter' || key === 'Tab') step(...(key === 'Enter' ? [shiftKey ? -1 : 1, 0] : [0, shiftKey ? -1 : 1]));
  else if (key === 'Home') choose(ctrl ? 0 : at.row, 0, shiftKey);
  else if (key === 'End') choose(ctrl ? Math.max(0, store.now.rows.length - 1) : at.row, NAMES.length - 1, shiftKey);
  else if (key === 'PageDown' || key === 'PageUp') move(key === 'PageDown' ? 10 : -10, 0, shiftKey);
  else if (key === 'F2') edit(store.now.rows[at.row]?.[at.column] ?? '', false);
  else if (key === 'Delete' || key === 'Backspace') erase();
  else if (ctrl && key.toLowerCase() === 'd') fillDown();
  else if (ctrl && key.toLowerCase() === 'a') chooseAll(store.now.rows.length);
  else if (key === ' ' && shiftKey) chooseRows(at.fromRow, at.row); // the whole line, as a click on its number
  else if (key.length === 1 && !ctrl && !event.altKey) edit(key, true);
  else done = false;
  if (done) event.preventDefault();
}

const inside = () => byId('sheet').contains(document.activeElement) && !editor;

function paste(text) {
  const { rows, header, told, notes, refused, units, called, sign } = sheetOf(text), { top, left } = range(), from = header ? 0 : left;
  const cells = rows.flatMap((row, i) => row.map((cell, j) => [top + i, from + j, cell]));
  const most = refused.join('; ') || tooMany(top + rows.length);
  if (most) { say(`Nothing was pasted: ${most}`, true); return; }
  const words = `${rows.length} line${rows.length > 1 ? 's' : ''} pasted`, after = withCells(cells);
  const found = imported(after, cells.filter(([row, column]) => row < after.length && column < NAMES.length), sign, units);
  const licence = withNames(store.now.licence, found.rows, called);
  if (cells.length) change(words, { rows: found.rows, made: found.made, licence });
  const left_ = leftWords(after, found.left);
  say([words, ...told, ...found.told, ...notes, left_].filter(Boolean).join('; '), notes.length > 0 || Boolean(left_));
  const wide = Math.max(1, ...rows.map((row) => row.length));
  Object.assign(at, { fromRow: top, fromColumn: from });
  choose(top + Math.max(1, rows.length) - 1, from + wide - 1, true);
}

export function wire() {
  const sheet = byId('sheet');
  sheet.addEventListener('keydown', (event) => (editor ? inEditor(event) : inGrid(event)));
  sheet.addEventListener('pointerdown', (event) => {
    const cell = event.target.closest('[data-r]');
    if (!cell || event.target.closest('.editor') || event.button) return;
    event.preventDefault();
    finish(true);
    const row = Number(cell.dataset.r), whole_ = cell.dataset.c === undefined, column = Number(cell.dataset.c ?? 0);
    const again = event.pointerType === 'touch' && row === at.row && column === at.column;
    if (whole_) chooseRows(event.shiftKey ? at.fromRow : row, row);
    else choose(row, column, event.shiftKey);
    if (again && !whole_) return edit(store.now.rows[row]?.[column] ?? '', false); // a second tap edits
    const over = (other) => {
      const to = document.elementFromPoint(other.clientX, other.clientY)?.closest?.('#sheet [data-r]');
      if (!to) return;
      const [r, c] = [Number(to.dataset.r), Number(to.dataset.c)];
      if (whole_) chooseRows(at.fromRow, r);
      else if (to.dataset.c !== undefined && (r !== at.row || c !== at.column)) choose(r, c, true);
    };
    const up = () => { removeEventListener('pointermove', over); removeEventListener('pointerup', up); };
    addEventListener('pointermove', over);
    addEventListener('pointerup', up);
    return undefined;
  });
  sheet.addEventListener('dblclick', (event) => {
    if (event.target.closest('[data-c]') && !editor) edit(store.now.rows[at.row]?.[at.column] ?? '', false);
  });
  const copied = (event) => {
    const { top, bottom, left, right } = range(), lines = [];
    for (let row = top; row <= bottom; row++) lines.push((store.now.rows[row] ?? NAMES.map(() => '')).slice(left, right + 1).join('\t'));
    event.clipboardData.setData('text/plain', lines.join('\n'));
    event.preventDefault();
  };
  document.addEventListener('copy', (event) => { if (inside()) copied(event); });
  document.addEventListener('cut', (event) => { if (inside()) { copied(event); erase(); } });
  document.addEventListener('paste', (event) => {
    if (!inside()) return;
    event.preventDefault();
    paste(event.clipboardData.getData('text/plain'));
  });
}
