// The chosen cell and range of cells, and moving among them.
import { NAMES } from '../library/data.js';
import { byId } from './dom.js';
import { cellAt, drawnRows, reveal, rowCount } from './grid.js';

const WIDTH = NAMES.length;
export const at = { row: 0, column: 0, fromRow: 0, fromColumn: 0 };
let marked = [], moved = () => {};
export const onMove = (call) => { moved = call; };

export function range() {
  return {
    top: Math.min(at.row, at.fromRow), bottom: Math.max(at.row, at.fromRow),
    left: Math.min(at.column, at.fromColumn), right: Math.max(at.column, at.fromColumn),
  };
}

export function paint() {
  marked.forEach((td) => td.classList.remove('in', 'at'));
  marked.forEach((td) => { td.tabIndex = -1; });
  marked = [];
  const { top, bottom, left, right } = range(), single = top === bottom && left === right;
  const [first, last] = drawnRows();
  for (let row = Math.max(top, first); row <= Math.min(bottom, last) && !single; row++) {
    for (let column = left; column <= right; column++) {
      const td = cellAt(row, column);
      if (td) { td.classList.add('in'); marked.push(td); }
    }
  }
  const td = cellAt(at.row, at.column);
  if (!td) return;
  td.classList.add('at');
  td.tabIndex = 0;
  marked.push(td);
}

// What of a cell is hidden under the columns that stay is scrolled into sight.
function sight(td) {
  const pane = byId('pane'), box = td.getBoundingClientRect(), own = pane.getBoundingClientRect();
  const stays = (query) => [...pane.querySelectorAll(query)].filter((one) => getComputedStyle(one).position === 'sticky').map((one) =>
    one.getBoundingClientRect());
  const left = Math.max(own.left, ...stays('thead .c-season, thead .ln').map((one) => one.right));
  const right = Math.min(own.right, ...stays('thead tr:last-child .r-verdict').map((one) => one.left));
  const under = pane.querySelector('thead').getBoundingClientRect().bottom;
  if (!td.matches('.c-station, .c-season')) {
    if (box.left < left) pane.scrollLeft -= left - box.left;
    else if (box.right > right) pane.scrollLeft += box.right - right;
  }
  if (box.top < under) pane.scrollTop -= under - box.top;
  else if (box.bottom > own.bottom - 2) pane.scrollTop += box.bottom - own.bottom + 2;
}

export function choose(row, column, extend = false, focus = true) {
  at.row = Math.max(0, Math.min(rowCount() - 1, row));
  at.column = Math.max(0, Math.min(WIDTH - 1, column));
  if (!extend) Object.assign(at, { fromRow: at.row, fromColumn: at.column });
  reveal(at.row);
  paint();
  const td = cellAt(at.row, at.column);
  if (td) {
    if (focus) td.focus({ preventScroll: true });
    sight(td);
  }
  moved();
}

export function chooseRows(from, to) {
  Object.assign(at, { row: to, fromRow: from, column: 0, fromColumn: WIDTH - 1 });
  paint();
  cellAt(to, 0)?.focus({ preventScroll: true });
  moved();
}

export function chooseAll(rows) {
  Object.assign(at, { row: 0, fromRow: Math.max(0, rows - 1), column: 0, fromColumn: WIDTH - 1 });
  paint();
}

export const move = (down, right, extend) => choose(at.row + down, at.column + right, extend);
