// All that is known of the chosen line: against its limits, both ends of every result, plan, working; and its station's decision.
import { NAMES, SEASONS, data } from '../library/data.js';
import { changes } from '../judging/advice.js';
import { down, grouped, up } from '../words/decimals.js';
import { byId, h, markup, redraw, show } from './dom.js';
import { badge, bar, mark, seasonMark, withWord } from './drawing.js';
import { plan } from './plan.js';
import { asides, cautions, decision } from '../judging/sentences.js';
import { tick } from '../sheet/granting.js';
import { casesAsCells, change, store, withCells } from '../sheet/store.js';
import { draw as drawWhatIf } from './varied.js';
import { above, listed, margin, meaning, overlapping, refusal, refusedPlace, verdict } from '../words/words.js';

const captionOf = (title, aside) => h('caption', {}, h('h3', {}, title), h('span', { class: 'sub' }, ` ${aside}`));
const table = (kind, title, heads, rows) => h('table', { class: `data ${kind}` }, captionOf(title, 'each between two proved ends'),
  h('thead', {}, h('tr', {}, heads.map((word, i) => h('th', { scope: 'col', class: i ? 'num' : '' }, word)))), h('tbody', {}, rows));

function limits(line, top) {
  const icons = { above: 'unsafe', below: 'safe', 'overlaps': 'undecided' };
  const rows = line.compared.map((one) => {
    const voltage = up(one.voltage.upper, 3, 1), limit = down(one.tolerable.lower, 3, 1), said = margin(one);
    const title = `${one.kind} voltage ${voltage} V against the tolerable ${one.limit} voltage ${limit} V, ${said}`;
    const name = h('th', { scope: 'row' }, `${one.kind[0].toUpperCase()}${one.kind.slice(1)}`);
    return h('tr', { class: one.side.replace(' ', '-') }, name, h('td', { class: 'bc' }, bar(one.margin, top, title)),
      h('td', { class: 'num' }, voltage), h('td', { class: 'num' }, limit), h('td', { class: 'bw' }, mark(icons[one.side]), said));
  });
  const heads = [['', ''], ['Share of limit', ''], ['Voltage, V', 'num'], ['Limit, V', 'num'], ['Against limit', 'bw']];
  return h('table', { class: 'bars' }, captionOf('Against its limits', 'voltages rounded up, limits down'),
    h('thead', {}, h('tr', {}, heads.map(([word, kind]) => h('th', { scope: 'col', class: kind }, word)))),
    h('tbody', {}, rows));
}

function pairRow(one, line) {
  const pair = line[one.part][one.pair];
  return h('tr', {}, h('th', { scope: 'row' }, markup(one.name), one.unit ? h('span', { class: 'u' }, ` ${one.unit}`) : ''),
    h('td', { class: 'num' }, down(pair.lower, one.scale, one.places)), h('td', { class: 'num' }, up(pair.upper, one.scale, one.places)));
}

function results(line) {
  const single = (word, unit, text) => h('tr', {}, h('th', { scope: 'row' }, word, h('span', { class: 'u' }, ` ${unit}`)),
    h('td', { class: 'num', colspan: 2 }, text));
  return table('res', 'Results', ['Quantity', 'lower end', 'upper end'], [...data.results.map((one) => pairRow(one, line)),
    single('Wire needed', 'kcmil', grouped(line.row.kcmil)),
    single('Safe up to fault current', 'A', line.headroom ? grouped(line.headroom) : 'none')]);
}

function working(line) {
  return [table('wrk', 'Working', ['Symbol', 'lower end', 'upper end'], data.workings.map((one) => pairRow(one, line))),
    h('p', { class: 'formulas' }, markup(data.formulas))];
}

function seasons(station) {
  const each = SEASONS.map((season) => {
    const asked = station.seasons.includes(season), act = (event) => tick(station.station, season, event.target.checked);
    const box = h('input', { type: 'checkbox', checked: asked, 'data-key': `season ${season}`, 'aria-label': `season ${season}`,
      onchange: act });
    return h('label', { title: `season ${season} ${asked ? 'is' : 'is not'} in the licence` }, box, String(season),
      seasonMark(station, season));
  });
  return h('div', { class: 'ticks', role: 'group', 'aria-label': 'Seasons of the licence' }, h('span', { class: 'sub' }, 'Licence: season'),
    each);
}

// Lines for missing seasons, as copies of the chosen line: the soil is left open, for it is to be measured.
function addSeasons(line, station, missing) {
  const from = store.now.rows.length, soil = NAMES.indexOf('soil');
  const text = (season, cell, column) => (column === 1 ? String(season) : column === soil ? '' : cell);
  const made = missing.flatMap((season, i) =>
    store.now.rows[line.place].map((cell, column) => [from + i, column, text(season, cell, column)]));
  change(`${missing.length > 1 ? 'lines' : 'a line'} for ${listed(missing)}`, { rows: withCells(made) });
}

function advice(line, station) {
  const list = changes(station);
  if (!list.length) return '';
  const item = (one) => {
    const act = one.cases ? () => change(`${one.kind} of station ${station.station}`,
      { rows: withCells(casesAsCells(station.lines, one.cases)) })
      : one.seasons ? () => addSeasons(line, station, one.seasons) : null;
    const words = [h('b', {}, `${one.kind}: `), one.words, one.then ? h('small', {}, one.then) : ''];
    if (!act) return h('li', {}, h('p', { class: 'no' }, words));
    const verb = h('span', { class: 'verb' }, one.seasons ? 'Add' : 'Apply');
    return h('li', {}, h('button', { type: 'button', class: 'do', 'data-key': one.kind, onclick: act }, h('span', {}, words), verb));
  };
  return h('section', { class: 'next' }, h('h3', {}, 'What would make it safe'),
    h('span', { class: 'sub' }, ' least changes, each by itself'),
    h('ul', {}, list.map(item)));
}

function stationPart(line, station, unread) {
  const [first, rest] = decision(station, unread), known = station.released !== undefined;
  const name = h('h3', {}, `Station ${station.station}`, station.name ? ` ${station.name}` : '');
  return h('section', { class: 'decided' }, h('header', {}, name, badge(station)),
    h('p', { class: `decision ${known ? (station.released ? 'rel' : 'hold') : 'open'}` }, h('b', {}, first), ` ${rest}`), seasons(station),
    known && station.lines.length ? h('ul', { class: 'asides' }, asides(station).map((one) => h('li', {}, one)),
      cautions(station).map((one) => h('li', {}, mark('caution'), h('b', {}, ' Caution: '), one))) : '');
}

function title(line, station) {
  const aside = h('span', { class: 'sub' }, ` season ${line.cells[1] || '–'}, line ${line.number}`);
  const who = [h('span', { class: 'no' }, `${line.cells[0] || '–'} `), station?.name ?? '', aside];
  if (line.refused) return [h('h2', {}, who), withWord('held', 'refused')];
  const reasons = line.compared.filter((one) => one.side !== 'below').map((one) => (one.side === 'above' ? above(one) : overlapping(one)));
  const words = reasons.length ? listed(reasons) : `nearest is ${line.nearest.limit}, ${margin(line.nearest)}`;
  return [h('h2', {}, who), withWord(verdict(line)), h('span', { class: 'gist' }, words)];
}

function refused(line, lines) {
  const name = NAMES[line.refused.column - 1];
  const metals = name === 'metal' ? `. ${Object.entries(data.metals).map(([number, metal]) => `${number} ${metal}`).join('; ')}` : '';
  return h('div', { class: 'refusal' }, h('p', {}, h('b', {}, refusedPlace(line)), `: ${refusal(line, lines)}`),
    name ? h('p', { class: 'sub' }, `${name}: ${meaning(name)}`, metals) : '',
    h('p', { class: 'sub' }, 'The other lines are judged all the same; this station is decided when its lines are accepted.'));
}

// The columns with their meaning and range, for the sheet that is still empty.
export function guide() {
  const allowed = (one) => one.allowed + (one.unit ? `\u00a0${one.unit}` : '');
  const row = (one) => h('tr', {}, h('th', { scope: 'row' }, one.name), h('td', {}, one.meaning), h('td', {}, allowed(one)));
  show(byId('guide'), h('table', {}, h('tbody', {}, data.names.map(row))));
}

export function draw(line, judged, portfolio, top, cell) {
  redraw(byId('detail'), () => parts(line, judged, portfolio, top), cell);
}

function parts(line, judged, portfolio, top) {
  const pane = byId('detail');
  pane.dataset.state = line ? (line.refused ? 'refused' : 'line') : judged.lines.length ? 'none' : 'empty';
  if (!line) return;
  const station = portfolio.at.get(line.refused ? Number(line.cells[0]) : line.row.station);
  show(byId('title'), title(line, station));
  if (line.refused) {
    show(byId('refused'), refused(line, judged.lines));
    show(byId('station'), station ? stationPart(line, station, portfolio.unread) : '');
    return;
  }
  show(byId('limits'), limits(line, top), results(line));
  show(byId('plan'), plan(line));
  show(byId('working'), working(line));
  show(byId('station'), stationPart(line, station, portfolio.unread), advice(line, station));
  drawWhatIf(line, station);
}
