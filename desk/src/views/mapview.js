// Two inputs of the chosen line varied: a map of verdicts, each cell an answer of the library; a click or Enter takes both values over.
import { data } from '../library/data.js';
import { MOST_RIGHT, bothCells, cannotBoth, map, nearestOf } from '../judging/map.js';
import { VARIED, isWide } from '../judging/whatif.js';
import { chip, h, redraw, show } from './dom.js';
import { mark } from './drawing.js';
import { linesFor, taken } from './taking.js';
import { margin, value } from '../words/words.js';

const kept = { names: ['rods', 'space'], whole: false };
const LEAST = 20, HEAD = 58; // px: a cell that a sign and a finger fit into, and the column with the values downwards
const MOVES = { ArrowLeft: [-1, 0], ArrowRight: [1, 0], ArrowUp: [0, -1], ArrowDown: [0, 1], Home: [-99, 0], End: [99, 0],
  PageUp: [0, -99], PageDown: [0, 99] };
let say = () => {};
export const onTaken = (call) => { say = call; };

const label = (name) => data.labels[name].label;
const kindOf = (yard) => (yard.refused ? 'held' : data.verdicts[yard.verdict]);
const wordOf = (yard) => (yard.refused ? `refused, number ${yard.refused}` : data.verdicts[yard.verdict]);
const pairWords = (names, pair) => names.map((name, i) => `${label(name)} ${value(name, pair[i])}`).join(', ');

// An input chosen twice changes places with the other.
function choose(place, name, again) {
  const other = kept.names[1 - place], was = kept.names[place];
  kept.names = [0, 1].map((i) => (i === place ? name : name === other ? was : other));
  again();
}

function selects(again) {
  return ['Left to right', 'Top to bottom'].map((word, place) => h('label', {}, `${word} `,
    h('select', { 'data-key': `map ${place}`, onchange: (event) => choose(place, event.target.value, again) },
      VARIED.map((name) => h('option', { value: name, selected: name === kept.names[place] }, label(name))))));
}

function take(line, station, pair) {
  const { names } = kept, was = pairWords(names, names.map((name) => line.case[name]));
  const where = taken(names, (one) => bothCells(names, pair, one), line, station);
  if (where) say(`${pairWords(names, pair)}; was ${was}${where.words}`);
}

// What is said of a yard: both values, the nearest limit and the verdict.
function told(names, yard, one) {
  const near = nearestOf(names, yard, one);
  return [h('b', {}, pairWords(names, yard.pair)), near ? [': ', h('span', { class: near.side.replace(' ', '-') }, margin(near)),
    ` ${near.limit}`] : '', `; ${wordOf(yard)}`];
}

function cell(names, yard) {
  const words = `${pairWords(names, yard.pair)}: ${wordOf(yard)}${yard.now ? ', the present values' : ''}`;
  const kind = `${yard.refused ? 'refused' : kindOf(yard)}${yard.now ? ' now' : ''}`;
  return h('td', { role: 'gridcell', class: kind, tabindex: -1, title: words, 'aria-label': words, 'data-key': `yard ${yard.pair}` },
    mark(kindOf(yard)));
}

// The values over the map are turned, so that a column is no wider than its sign.
function grid(drawn, one) {
  const { names: [right, down], yards } = drawn, wide = drawn.right.length, short = (name, number) => value(name, number)
    .replace(`\u00a0${data.labels[name].unit}`, '');
  const head = (name, number, scope) => h('th', { scope, class: number === one[name] ? 'now' : '' }, h('span', {}, short(name, number)));
  const unit = (name) => label(name) + (data.labels[name].unit ? `, ${data.labels[name].unit}` : '');
  const rows = drawn.down.map((y, i) => h('tr', {}, head(down, y, 'row'), yards.slice(i * wide, (i + 1) * wide).map((yard) =>
    cell(drawn.names, yard))));
  const words = `Verdicts over ${label(right)} and ${label(down)}: arrows move, Enter takes both values over`;
  return h('table', { class: 'map', role: 'grid', 'aria-label': words },
  h('thead', {}, h('tr', {}, h('th', { scope: 'col', class: 'axes' },
    h('span', {}, `→\u00a0${unit(right)}`), h('span', {}, `↓\u00a0${unit(down)}`)),
    drawn.right.map((x) => head(right, x, 'col')))),
  h('tbody', {}, rows));
}

function legend(yards) {
  const count = (kind) => yards.filter((yard) => kindOf(yard) === kind).length;
  const words = { safe: 'safe', unsafe: 'unsafe', undecided: 'undecided', held: 'refused, a rule is broken' };
  const parts = Object.entries(words).map(([kind, word]) => h('span', { class: `v ${kind}` }, mark(kind), `${word} ${count(kind)}`));
  return h('p', { class: 'legend' }, parts, h('span', {}, h('i', { class: 'now', 'aria-hidden': 'true' }), 'framed: the present values'));
}

// Arrows move among the cells, of which one is in the order of Tab; Enter or a click takes one over.
function wire(table, drawn, act, tell) {
  const wide = drawn.right.length, all = [...table.querySelectorAll('td')];
  let at = Math.max(0, drawn.yards.findIndex((yard) => yard.now));
  all[at].tabIndex = 0;
  const go = (next) => {
    all[at].tabIndex = -1;
    at = next;
    all[at].tabIndex = 0;
  };
  table.addEventListener('keydown', (event) => {
    const move = MOVES[event.key], limit = (number, most) => Math.max(0, Math.min(most - 1, number));
    if (event.key === 'Enter' || event.key === ' ') act(drawn.yards[at]);
    else if (move) {
      go(limit(Math.floor(at / wide) + move[1], drawn.down.length) * wide + limit((at % wide) + move[0], wide));
      all[at].focus({ preventScroll: false });
    } else return;
    event.preventDefault();
  });
  const over = (event) => { const place = all.indexOf(event.target.closest('td')); tell(place < 0 ? null : drawn.yards[place]); };
  table.addEventListener('focusin', (event) => { const place = all.indexOf(event.target); if (place >= 0) go(place); over(event); });
  table.addEventListener('focusout', () => tell(null));
  table.addEventListener('pointerover', over);
  table.addEventListener('pointerleave', () => tell(null));
  table.addEventListener('click', (event) => {
    const place = all.indexOf(event.target.closest('td'));
    if (place < 0) return;
    go(place);
    act(drawn.yards[place]);
  });
}

export function draw(box, line, station) {
  const { names, whole } = kept, one = line.case, again = () => redraw(box, () => draw(box, line, station));
  const spans = names.some(isWide) ? [['near', false], ['whole range', true]] : [];
  const ranges = spans.map(([word, on]) => chip(whole === on, word, () => { kept.whole = on; again(); }, { 'data-key': `map ${word}` }));
  const readout = h('p', { class: 'readout', 'aria-hidden': 'true' });
  const top = h('div', { class: 'chips low' }, selects(again),
    ranges.length ? h('span', { role: 'group', 'aria-label': 'Values' }, ranges) : '', readout);
  const why = cannotBoth(names, one);
  if (why) return show(box, top, h('p', { class: 'sub pad' }, `Not varied: ${why}.`));
  const width = box.clientWidth || 500, most = Math.max(8, Math.min(MOST_RIGHT, Math.floor((width - HEAD) / LEAST)));
  const drawn = map(names, one, whole, most), own = linesFor(names, line, station).length;
  const idle = h('span', { class: 'sub' }, `Click a cell to take both values over${own > 1 ? `, in all ${own} lines of the station` : ''}`);
  const tell = (yard) => show(readout, yard ? told(names, yard, one) : idle);
  const table = grid(drawn, one);
  wire(table, drawn, (yard) => take(line, station, yard.pair), tell);
  tell(null);
  show(box, top, table, legend(drawn.yards), h('p', { class: 'under sub' },
    `${drawn.yards.length} yards were asked, each with all else as in this line.`));
  return undefined;
}
