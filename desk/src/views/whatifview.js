// One input of the chosen line varied, drawn from the library's answers; a click takes a value over.
import { data } from '../library/data.js';
import { byId, chip, h, redraw, show } from './dom.js';
import { plot, readout } from './plots.js';
import { linesFor, taken } from './taking.js';
import { value } from '../words/words.js';
import { VARIED, alongWith, cannot, cells, curve, isWide } from '../judging/whatif.js';

const kept = { name: 'fault', whole: false, place: null };
let say = () => {};
export const onTaken = (call) => { say = call; };

// The varied input follows the chosen column of the sheet, where that can be varied.
export function follow(name) {
  if (!VARIED.includes(name) || kept.name === name) return false;
  kept.name = name;
  return true;
}

function take(line, station, number) {
  const { name } = kept, where = taken([name], (one) => cells(name, number, one), line, station);
  if (where) say(`${data.labels[name].label} ${value(name, number)}, was ${value(name, line.case[name])}${where.words}`);
}

// A run of values in words; where it goes on past the drawing only its one edge is told.
function ofRun(drawn, run) {
  const first = run.from === drawn.points[0].value, last = run.to === drawn.points.at(-1).value, of = (number) => value(drawn.name, number);
  if (first && last) return 'all';
  if (first) return `up to ${of(run.to)}`;
  if (last) return `from ${of(run.from)}`;
  return run.from === run.to ? of(run.from) : `${of(run.from)} to ${of(run.to)}`;
}

function said(drawn) {
  const safe = drawn.runs.filter((run) => run.verdict === 1), open = drawn.runs.filter((run) => run.verdict === 3);
  const parts = [safe.length ? ['Safe of the values drawn: ', h('b', {}, safe.map((run) => ofRun(drawn, run)).join('; '))]
    : [h('b', {}, 'No value drawn is safe')]];
  if (open.length) parts.push(['; undecided: ', open.map((run) => ofRun(drawn, run)).join('; ')]);
  const count = drawn.points.length, asked = drawn.every ? `All ${count} values were asked.`
    : `${count} values were asked; between them the lines are drawn straight.`;
  return [...parts, '. ', h('span', { class: 'sub' }, asked)];
}

export function draw(line, station) {
  const one = line.case, { name } = kept,
    set = (more) => () => { Object.assign(kept, more); redraw(byId('whatif'), () => draw(line, station)); };
  const place = kept.place ?? (line.nearest.limit === 'touch' ? 0 : 1), why = cannot(name, one);
  const chips = VARIED.map((other) => chip(other === name, other, set({ name: other }),
    { 'data-key': other, title: data.labels[other].label }));
  const limits = ['touch', 'step'].map((limit, i) => chip(place === i, limit, set({ place: i }), { 'data-key': `l${limit}` }));
  const spans = isWide(name) ? [['near', false], ['whole range', true]] : [];
  const ranges = spans.map(([word, whole]) => chip(kept.whole === whole, word, set({ whole }), { 'data-key': `r${word}` }));
  const told = h('p', { class: 'readout', 'aria-hidden': 'true' });
  const top = [h('div', { class: 'chips', role: 'group', 'aria-label': 'Input that is varied' }, chips),
    h('div', { class: 'chips low' }, h('span', { role: 'group', 'aria-label': 'Limit' }, limits),
      ranges.length ? h('span', { role: 'group', 'aria-label': 'Values' }, ranges) : '', told)];
  const box = byId('whatif');
  if (why) return show(box, ...top, h('p', { class: 'sub pad' }, `Not varied: ${why}.`));
  const drawn = curve(name, one, kept.whole), own = linesFor([name], line, station).length;
  if (!drawn.points.length) return show(box, ...top);
  const idle = [h('span', { class: 'sub' }, `Click a value to take it over${own > 1 ? `, in all ${own} lines of the station` : ''}`)];
  show(told, ...idle);
  const width = Math.max(280, box.clientWidth);
  const tell = (point) => show(told, ...(point ? readout(point, name, place) : idle));
  const picture = plot(drawn, place, width, (number) => take(line, station, number), tell);
  const along = alongWith(name, one);
  show(box, ...top, picture, h('p', { class: 'under' }, said(drawn), along ? ` Asked ${along}.` : '',
    data.yard.includes(name) && own > 1 ? h('span', { class: 'sub' }, ' It is of the yard, on which the seasons must agree.') : ''));
  return undefined;
}
