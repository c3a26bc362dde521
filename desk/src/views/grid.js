// The sheet on the screen: 22 columns by subject, then what the library answers of each line. Only what changed is drawn again.
import { GROUPS, NAMES, REFUSAL, data, shortUnit } from '../library/data.js';
import { grouped } from '../words/decimals.js';
import { bar, mark, withWord } from './drawing.js';
import { byId, h, show } from './dom.js';
import { incomplete, refusedColumn } from '../judging/judging.js';
import { changeWords, reading } from '../sheet/amounts.js';
import { cellKey } from '../sheet/importing.js';
import { MOST_LINES } from '../sheet/store.js';
import { sizeWords } from '../judging/sentences.js';
import { sizeOfLine } from '../judging/stations.js';
import { margin, meaning, refusal, refusedPlace, verdict } from '../words/words.js';

const SPARE = 4, LEAST = 14;
const ALL = 60, AROUND = 24; // a sheet up to so many rows is drawn whole, else only the rows in sight and so many on both sides
const RESULTS = [['verdict', 'Verdict', ''], ['near', 'Nearest limit', ''], ['need', 'Wire', 'kcmil'], ['upto', 'Safe up to', 'A']];
const WIDTHS = { // rem: so that a cell that is typed moves no other
  ln: 2.3, station: 3.55, season: 3.25, soil: 2.8, layer: 2.95, thick: 2.75, shock: 2.95, clear: 2.65, wire: 2.7, body: 2.6, fault: 3.35,
  split: 2.4, xr: 1.9,
  across: 3.15, along: 2.9, space: 3.15, depth: 2.95, dia: 3.1, rods: 2.55, rodlen: 3.3, place: 2.75, metal: 2.9, hz: 1.95, verdict: 6.4,
  near: 9.25, need: 5, upto: 4.75,
};
const starts = new Set(GROUPS.map(([, names]) => names[0]));
const lines = new Map(); // drawn rows by place: { tr, head, cells, texts, results, seen }
let shown = { rows: [], judged: null, top: 0, total: 0, made: new Map() }, whole = false, accept = () => {};
export const onAccept = (call) => { accept = call; };

const classOf = (name) => `c-${name}${starts.has(name) ? ' first' : ''}`;
export const cellAt = (row, column) => lines.get(row)?.cells[column];
export const rowCount = () => shown.total;

export function head() {
  const col = ([, width]) => { const made = h('col'); made.style.width = `${width}rem`; return made; };
  const group = ([word, names]) => h('th', { scope: 'colgroup', colspan: names.length, class: `g c-${names[0]}` }, word);
  const under = (unit) => h('small', {}, unit || '\u00a0');
  const name = (one) => h('th', { scope: 'col', class: classOf(one), title: meaning(one) }, one, under(shortUnit(one)));
  const result = ([kind, word, unit]) => h('th', { scope: 'col', class: `r-${kind}` }, word, under(unit));
  const answers = h('th', { colspan: 4, scope: 'colgroup', class: 'g r-verdict' }, 'Answers of the library');
  return [h('colgroup', {}, Object.entries(WIDTHS).map(col)), h('thead', {},
    h('tr', {}, h('th', { class: 'ln', rowspan: 2, scope: 'col' }, 'line'), GROUPS.map(group), answers),
    h('tr', {}, NAMES.map(name), RESULTS.map(result)))];
}

function drawRow(place) {
  const cells = NAMES.map((name, column) =>
    h('td', { role: 'gridcell', tabindex: -1, 'data-r': place, 'data-c': column, class: classOf(name) }));
  const number = h('th', { scope: 'row', class: 'ln', 'data-r': place });
  const results = RESULTS.map(([kind]) => h('td', { role: 'gridcell', class: `r-${kind}` }));
  const tr = h('tr', { class: 'blank', 'aria-rowindex': place + 3 }, number, cells, results);
  lines.set(place, { tr, head: number, cells, texts: cells.map(() => ''), results, seen: '' });
}

// The rows to be drawn, the first and one past the last, by where the pane is scrolled to.
function wanted() {
  const { total } = shown, pane = byId('pane'), height = rowHeight();
  if (whole || total <= ALL) return [0, total];
  const first = Math.floor(pane.scrollTop / height) - AROUND, last = Math.ceil((pane.scrollTop + pane.clientHeight) / height) + AROUND;
  return [Math.max(0, Math.min(first, total - 2 * AROUND)), Math.min(total, Math.max(last, 2 * AROUND))];
}

let height = 0;
function rowHeight() {
  const [one] = lines.values();
  if (one) height = one.tr.getBoundingClientRect().height || height;
  return height || 24;
}

export function drawnRows() {
  const places = [...lines.keys()];
  return [Math.min(...places), Math.max(...places)];
}

// Empty rows in the place of those that are not drawn.
function space(id, rows) {
  const body = byId('sheet').tBodies[0];
  const tr = byId(id) ?? h('tr', { id, class: 'space', 'aria-hidden': 'true' }, h('td', { colspan: NAMES.length + RESULTS.length + 1 }));
  tr.hidden = rows === 0;
  tr.firstChild.style.height = `${rows * rowHeight()}px`;
  if (!tr.parentNode) body[id === 'above' ? 'prepend' : 'append'](tr);
  return tr;
}

// Puts rows in and takes rows out, so that those drawn are the wanted ones, in order.
function placeRows() {
  const [first, last] = wanted(), sheet = byId('sheet');
  for (const [place, { tr }] of lines) {
    if (place >= first && place < last) continue;
    if (tr.contains(document.activeElement)) sheet.focus({ preventScroll: true }); // keys still go to the sheet
    tr.remove();
    lines.delete(place);
  }
  const below = space('below', shown.total - last);
  let next = space('above', first).nextSibling;
  for (let place = first; place < last; place++) {
    if (!lines.has(place)) drawRow(place);
    const { tr } = lines.get(place);
    if (tr === next) next = tr.nextSibling;
    else sheet.tBodies[0].insertBefore(tr, next ?? below);
  }
}

// Draws what came into sight.
export function scrolled() {
  if (!shown.judged || shown.total <= ALL || whole) return false;
  const [first, last] = wanted(), [from, to] = drawnRows();
  if (first >= from && last <= to + 1 && first - from < AROUND && to + 1 - last < AROUND) return false;
  drawRows();
  return true;
}

// Scrolls so far that a row is drawn; what else of it is to be seen is scrolled by who chooses it.
export function reveal(row) {
  if (lines.has(row) || row >= shown.total) return;
  const pane = byId('pane');
  pane.scrollTop = Math.max(0, row * rowHeight() - pane.clientHeight / 2);
  drawRows();
}

// All rows for the printer, and then again those in sight.
export function drawWhole(on) {
  whole = on;
  if (shown.total > ALL) drawRows();
}

// A wire that is too small: what is needed, and what it has.
function tooSmall(line) {
  const size = sizeOfLine(line), text = `${grouped(size.needed)} > ${grouped(size.own)}`;
  return h('b', { class: text.length > 11 ? 'red long' : 'red', title: sizeWords(data.told.wire.slice(1), size) }, text);
}

function results(line, top) {
  const one = line.nearest, { small } = line, said = margin(one), words = one.limit;
  const title = `${one.kind} at ${(1000 + one.margin) / 10} % of tolerable ${one.limit}`;
  return [
    [withWord(verdict(line))],
    [h('span', { class: `nw ${one.side.replace(' ', '-')}`, title: `${said} ${words}` }, h('b', {}, said), ` ${words}`),
      bar(one.margin, top, title)],
    small ? [tooSmall(line)] : [grouped(line.row.kcmil)],
    [h('span', { class: line.headroom < line.case.fault ? 'red' : '' }, line.headroom ? grouped(line.headroom) : 'none')],
  ];
}

function drawResults(drawn, line, all, top) {
  const [first, ...rest] = drawn.results, open = line?.refused && (line.typing || incomplete(line));
  const refused = line?.refused;
  first.colSpan = refused ? 4 : 1;
  first.className = refused ? `r-verdict said${open ? ' open' : ''}` : 'r-verdict';
  rest.forEach((td) => { td.hidden = Boolean(refused); });
  if (!line) return drawn.results.forEach((td) => show(td));
  if (refused) {
    const name = refused.column ? `${NAMES[refused.column - 1]}: ` : '', words = refusal(line, all);
    first.title = `${refusedPlace(line)}: ${words}`;
    return show(first, open ? h('span', { class: 'v' }, line.typing ? 'typing' : 'to fill in') : withWord('held', 'refused'),
      h('span', { class: 'why' }, name + words));
  }
  first.title = '';
  results(line, top).forEach((made, i) => show(drawn.results[i], ...made));
}

function key(line, top) {
  if (!line) return '';
  if (line.refused) return `${line.typing}|${line.number}|${line.text}|${Object.values(line.refused)}|${line.cells}`;
  return `${top}|${line.area}|${line.text}|${line.row.verdict}`;
}

function flag(drawn, line) {
  drawn.cells.forEach((td) => { td.classList.remove('bad', 'todo'); td.removeAttribute('aria-invalid');
    td.removeAttribute('aria-describedby'); });
  if (!line?.refused) return;
  line.cells.forEach((text, column) => { // cells next to the refused one that are no whole numbers either
    if (!line.typing && reading(line.cells, column)) drawn.cells[column].classList.add('todo');
  });
  const marked = [refusedColumn(line), ...(line.refused.number === REFUSAL.repeated ? [1] : [])];
  for (const column of marked) {
    const td = drawn.cells[column];
    td.classList.remove('todo');
    td.classList.add(line.typing || incomplete(line) ? 'todo' : 'bad');
    td.setAttribute('aria-invalid', 'true');
    td.setAttribute('aria-describedby', 'callout');
  }
}

// Draws the rows of the sheet and what is known of them; cells and answers that stay the same are left alone.
export function draw(rows, judged, top, made) {
  shown = { rows, judged, top, made, total: Math.min(MOST_LINES, Math.max(LEAST, rows.length + SPARE)) };
  byId('sheet').setAttribute('aria-rowcount', shown.total + 2); // with the two rows of names
  drawRows();
}

function drawRows() {
  const { rows, judged, top } = shown;
  placeRows();
  lines.forEach((drawn, place) => {
    const row = rows[place], line = judged.at.get(place);
    drawn.cells.forEach((td, column) => {
      const text = row?.[column] ?? '';
      if (text === drawn.texts[column]) return;
      drawn.texts[column] = text;
      if (!td.firstElementChild) td.textContent = text; // the editor stands in a cell that is being typed
    });
    drawn.cells.forEach((td, column) => {
      const words = shown.made.get(cellKey(place, column)) ?? '';
      if (words === (td.title ?? '')) return;
      td.title = words;
      td.classList.toggle('made', words !== '');
    });
    const seen = key(line, top);
    if (seen === drawn.seen) return;
    drawn.seen = seen;
    show(drawn.head, line ? [line.refused ? mark('held') : mark(verdict(line)), String(line.number)] : []);
    drawn.tr.className = line ? (line.refused ? 'refused' : verdict(line)) : 'blank';
    flag(drawn, line);
    drawResults(drawn, line, judged.lines, top);
  });
}

export function restore(row, column) {
  const drawn = lines.get(row);
  if (drawn) drawn.cells[column].textContent = drawn.texts[column];
}

// What is said at a cell: of a refused line the chosen cell's text as `import` reads it, else the refusal; of a cell that was changed what
// was done to it. `at` is the chosen cell, `fresh` whether the last change was just made.
function saidAt(line, all, at, fresh) {
  if (line?.refused && !line.typing) {
    const told = (column) => { const found = reading(line.cells, column); return found?.number || found?.digits ? found : null; };
    const column = at && told(at.column) ? at.column : refusedColumn(line), found = told(column);
    return found ? { row: line.place, column, ...offered(line, column, found) }
      : { row: line.place, column, kind: incomplete(line) ? 'todo' : '', name: NAMES[line.refused.column - 1] ?? `line ${line.number}`,
        words: refusal(line, all), small: `${refusedPlace(line)}; refusal ${line.refused.number}` };
  }
  const key = at && shown.made.has(cellKey(at.row, at.column)) ? cellKey(at.row, at.column)
    : fresh && shown.made.size === 1 ? [...shown.made.keys()][0] : '';
  if (!key || line?.typing) return null;
  const [row, column] = key.split(',').map(Number);
  return { row, column, kind: 'made', name: NAMES[column], words: shown.made.get(key), small: '' };
}

// What the text of a cell would become and why, with a button that writes it; Enter on the cell does the same.
function offered(line, column, found) {
  const said = found.said ?? changeWords(found.change, `line ${line.number}, ${NAMES[column]}`);
  const button = found.digits ? h('button', { type: 'button', onclick: () => accept(line.place, column) }, `Write ${found.digits}`) : '';
  const small = [found.why ?? '', found.digits ? `Enter writes ${found.digits}; another value may be typed` : ''];
  return { kind: 'offer', name: NAMES[column], words: said, small, button };
}

export function callout(line, all, at = null, fresh = false) {
  const box = byId('callout'), said = saidAt(line, all, at, fresh), td = said ? cellAt(said.row, said.column) : null;
  if (!td) { box.hidden = true; return; }
  const pane = byId('pane');
  box.className = `callout ${said.kind}`;
  show(box, h('b', {}, said.name), ` ${said.words}`, [said.small].flat().filter(Boolean).map((one) => h('small', {}, one)),
    said.button ?? '');
  box.hidden = false;
  box.style.left = '0'; // its width is measured where nothing narrows it
  const left = Math.min(td.offsetLeft, pane.scrollLeft + pane.clientWidth - box.offsetWidth - 8), under = td.offsetTop + td.offsetHeight;
  const room = under + box.offsetHeight < pane.scrollTop + pane.clientHeight, over = td.offsetTop - box.offsetHeight - 3;
  // what was done to a cell stands above it, and so not over what is typed next
  const below = said.kind === 'made' ? over < pane.scrollTop + 60 : room || td.offsetTop < box.offsetHeight + 60;
  box.style.left = `${Math.max(0, left)}px`;
  box.style.top = `${below ? under + 3 : over}px`;
}
