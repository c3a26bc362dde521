// The site: soil from four-pin readings, split from a staged test, the fewest conductors for a side; each answer goes into the sheet by a
// button.
import { COLUMN, data } from '../library/data.js';
import { CURRENTS as STAGED, READINGS as WENNER, fewestOf, fileText, rodLength, soilOf, splitOf, triedTable } from '../judging/site.js';
import { exact, up } from '../words/decimals.js';
import { change, withCells } from '../sheet/store.js';
import { byId, download, h, redraw, show } from './dom.js';
import { withWord } from './drawing.js';

const WIDTH = 320, FLOOR = 104, TOP = 20, LEFT = 8, RIGHT = 312;
const READINGS = ['reading', 'distance', 'resistance', 'lower Ω·m', 'upper Ω·m'], CURRENTS = ['current', 'in-phase A', 'quadrature A'];
const FILES = { readings: [WENNER, 'four-pin readings'], currents: [STAGED, 'a staged test'] };
const kept = { readings: '', currents: '', side: '' }; // the texts that are in a file, or whose answer is in the sheet
let say = () => {};
export const unsaved = () => Object.keys(kept).some((id) => byId(id).value.trim() && byId(id).value !== kept[id]);
export const onTaken = (call) => { say = call; };

// Apparent resistivity over the distance of the pins, from 0 up.
function plot(points) {
  if (points.length < 2) return '';
  const far = Math.max(...points.map((one) => one.at)), most = Math.max(...points.map((one) => one.mean.upper));
  const x = ({ at }) => LEFT + ((RIGHT - LEFT) * at) / far, y = ({ mean }) => FLOOR - ((FLOOR - TOP) * mean.upper) / most;
  const sorted = points.toSorted((one, other) => one.at - other.at);
  const words = `up to ${up(most, 6, 3)} Ω·m`;
  const title = `apparent resistivity over distance, ${words}`;
  return h('svg', { class: 'plot readings', viewBox: `0 0 ${WIDTH} 122`, role: 'img', 'aria-label': title },
    h('path', { class: 'axis', d: `M${LEFT} ${TOP}V${FLOOR}H${RIGHT}` }),
    h('path', { class: 'curve', d: sorted.map((one, i) => `${i ? 'L' : 'M'}${x(one).toFixed(1)} ${y(one).toFixed(1)}`).join('') }),
    sorted.map((one) => h('circle', { class: 'dot', cx: x(one).toFixed(1), cy: y(one).toFixed(1), r: 3 })),
    h('text', { x: LEFT, y: TOP - 8 }, words), h('text', { x: RIGHT, y: FLOOR + 15, 'text-anchor': 'end' }, `${exact(far, 3)} m`));
}

const table = (heads, rows) => h('table', { class: 'data' },
  h('thead', {}, h('tr', {}, heads.map((word, i) => h('th', { scope: 'col', class: i ? 'num' : '' }, word)))),
  h('tbody', {}, rows.map(([name, ...cells]) => h('tr', {}, h('th', { scope: 'row' }, name),
    cells.map((cell) => h('td', { class: 'num' }, cell))))));

const notes = (list) => list.map((one) => h('p', { class: 'sub' }, one));
const wrong = (words) => h('p', { class: 'red' }, words);

// The button that puts cells into lines; without a line it says what is missing.
function taking(places, cells, words, key) {
  if (!places.length) return h('p', { class: 'sub' }, 'Choose a line to put it into.');
  const set = places.flatMap((place) => Object.entries(cells).map(([name, value]) => [place, COLUMN[name], String(value)]));
  const act = () => {
    if (key === 'yard') kept.side = byId('side').value;
    change(words, { rows: withCells(set) });
    say(words);
  };
  return h('button', { type: 'button', 'data-key': key, onclick: act }, words);
}

// What is typed, saved as a file that the command reads.
function saving(id) {
  const [names] = FILES[id], file = `${id}.csv`;
  const act = () => {
    const text = byId(id).value;
    download(file, fileText(text, names));
    kept[id] = text;
    say(`${file} saved by the browser as a download`);
  };
  return h('button', { type: 'button', 'data-key': `save ${id}`, onclick: act }, `Save ${file}`);
}

// A file of readings or of currents: taken into its text, and what it is in words; '' where its names are others.
export function opened(names, text) {
  const [id, [, words]] = Object.entries(FILES).find(([, [own]]) => own === names) ?? ['', ['', '']];
  if (!id) return '';
  byId(id).value = text.trim().split(/\r?\n/).slice(1).map((line) => line.replaceAll(',', ' ')).join('\n');
  kept[id] = byId(id).value;
  return `${words}, in the Site view`;
}

function measured(id, found, heads, name, line) {
  const text = byId(id).value.trim();
  if (!text) return '';
  if (found.wrong) return wrong(found.wrong);
  const into = line ? `Put ${found.value} into ${name} of line ${line.number}` : '';
  const put = found.fits ? taking(line ? [line.place] : [], { [name]: found.value }, into, name) : '';
  return [h('p', {}, h('b', {}, found.column)), put, ' ', saving(id), notes(found.notes), table(heads, found.rows),
    name === 'soil' ? plot(found.points) : ''];
}

function yards(line, station) {
  const text = byId('side').value.trim();
  if (!text) return '';
  if (!line?.case) return h('p', { class: 'sub' }, 'Choose a line that is accepted: all but the yard is taken from it.');
  const found = fewestOf(line.case, text), length = rodLength(line.case);
  if (found.wrong) return wrong(found.wrong);
  const lines = station.lines, where = lines.length > 1 ? `the ${lines.length} lines of station ${station.station}` : `line ${line.number}`;
  return [h('p', {}, h('b', {}, found.words), ` for season ${line.row.season} of station ${station.station}`),
    length ? h('p', { class: 'sub' }, `The line has no rods: rods of ${length} were tried.`) : '',
    found.cells ? taking(lines.map((one) => one.place), found.cells, `Put this yard into ${where}`, 'yard') : '',
    triedList(line.case, found, () => draw(line, station))];
}

// Every yard that was tried, in the order of the search; asked only where the list is open.
const listing = { open: false };
function triedList(one, found, again) {
  if (!found.tried) return '';
  const toggle = (event) => { if (event.target.open !== listing.open) { listing.open = event.target.open; again(); } };
  const heads = data.site.fewest.head;
  const row = ([lines, space, rods, verdict, near]) => h('tr', { class: verdict }, h('th', { scope: 'row' }, lines),
    h('td', { class: 'num' }, space), h('td', { class: 'num' }, rods), h('td', {}, withWord(verdict)), h('td', {}, near));
  return h('details', { class: 'tried', open: listing.open, ontoggle: toggle },
    h('summary', { 'data-key': 'tried' }, `The ${found.count} tried`),
    listing.open ? h('div', { class: 'scroll', tabindex: 0, role: 'region', 'aria-label': 'Yards tried' }, h('table', { class: 'data' },
      h('thead', {}, h('tr', {}, heads.map((word, i) => h('th', { scope: 'col', class: i === 1 || i === 2 ? 'num' : '' }, word)))),
      h('tbody', {}, triedTable(one, found).map(row)))) : '');
}

// The three answers, for the chosen line and its station.
export function draw(line, station) {
  redraw(byId('site'), () => {
    show(byId('readings-said'), measured('readings', soilOf(byId('readings').value), READINGS, 'soil', line));
    show(byId('currents-said'), measured('currents', splitOf(byId('currents').value), CURRENTS, 'split', line));
    show(byId('side-said'), yards(line, station));
  });
}

// What is typed is answered at once; those who listen hear the answer and not the whole table.
export function wire(again) {
  for (const id of ['readings', 'currents', 'side']) {
    byId(id).addEventListener('input', () => {
      again();
      byId('live').textContent = byId(`${id}-said`).querySelector('b, .red')?.textContent ?? '';
    });
  }
}
