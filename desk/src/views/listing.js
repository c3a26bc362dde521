// All stations with their decisions, held ones first, as on the first page of the report.
import { SEASONS } from '../library/data.js';
import { grouped, share } from '../words/decimals.js';
import { arrange, byId, h, redraw, show } from './dom.js';
import { badge, bar, seasonMark } from './drawing.js';
import { decision, greatest, now, told } from '../judging/sentences.js';
import { notes, totals as counted } from '../judging/totals.js';
import { nameField, wireField, wireNames } from './granted.js';
import { grant, refusedAt, tick } from '../sheet/granting.js';
import { margin } from '../words/words.js';

const FAULT = 'Greatest fault current still safe', WIRE = 'Wire needed of own, kcmil', COLUMNS = 10;
const KEY = 'A season that is ticked is in the licence; a station without a tick is not in it. A station is '
  + 'released only if every ticked season has a line, every line of it is safe, the lines agree on the yard, and the wire is '
  + 'large enough. A station with a refused line is not asked.';

function seasonCell(station, season) {
  const box = h('input', {
    type: 'checkbox', checked: station.seasons.includes(season), 'data-key': `${station.station}-${season}`,
    'aria-label': `Season ${season} of station ${station.station} is in the licence`,
    onchange: (event) => tick(station.station, season, event.target.checked),
  });
  return h('td', { class: 's' }, h('label', {}, h('span', { class: 'sn', 'aria-hidden': 'true' }, String(season)), box,
    seasonMark(station, season)));
}

function nearCell(station, top) {
  if (!station.lines.length) return h('td', { class: 'near sub' }, 'no line, nothing to compare');
  const { worst } = station, one = worst.nearest,
    others = station.lines.filter((line) => line !== worst).map((line) => line.nearest.margin);
  const title = `nearest limit, ${one.kind} voltage at ${share(1000 + one.margin)} of tolerable ${one.limit} in season ${worst.row.season}`;
  const words = ` ${one.limit}, season ${worst.row.season}`;
  return h('td', { class: `near ${one.side.replace(' ', '-')}` }, bar(one.margin, top, title, others),
    h('span', { class: 'words' }, h('b', {}, margin(one)), words));
}

function faultCell(station) {
  const unsafe = station.lines.some((line) => line.row.verdict !== 1), known = station.released !== undefined && station.lines.length;
  return h('td', { class: 'num', 'data-l': FAULT },
    known ? [h('b', { class: unsafe ? 'red' : '' }, greatest(station)), h('small', {}, now(station))] : '');
}

function wireCell(station) {
  const small = station.lines.some((line) => line.small), colour = { class: small ? 'red' : '' };
  const sizes = station.lines.length ? [h('b', colour, grouped(station.size.needed)), ` of ${grouped(station.size.own)} `,
    h('span', { class: small ? 'red' : 'sub' }, small ? 'too small' : 'enough')] : '';
  return h('td', { class: 'num', 'data-l': WIRE }, sizes, h('div', {}, wireField(station)));
}

// A station outside the licence comes into it with the seasons that have a line.
function addTo(station) {
  const seasons = station.lines.map((line) => line.row.season), act = () => grant(station.station, { seasons });
  const button = { type: 'button', 'data-key': `add ${station.station}`, onclick: act };
  return seasons.length ? h('div', {}, h('button', button, 'Add to the licence')) : '';
}

function why(station, unread) {
  if (station.released) return '';
  if (station.outside) return [decision(station, unread)[1], addTo(station)];
  if (station.released === undefined) return decision(station, unread)[1];
  const first = (text) => text[0].toUpperCase() + text.slice(1);
  return station.reasons.map(told).map(([head, detail], i) =>
    [i ? '; ' : '', h('b', {}, i ? head : first(head)), detail ? `: ${detail}` : '']);
}

function row(station, top, unread, choose, chosen) {
  const here = chosen === station.station, number = h('span', { class: 'no' }, String(station.station));
  const link = { type: 'button', class: 'link', 'data-key': station.station, 'aria-current': here ? 'true' : null,
    'aria-label': `Station ${station.station} ${station.name}`, onclick: () => choose(station.worst) };
  return h('tr', { class: here ? 'chosen' : '' }, h('th', { scope: 'row' }, station.lines.length ? h('button', link, number) : number, ' ',
    nameField(station)),
    h('td', { class: 'dec' }, badge(station)), SEASONS.map((season) => seasonCell(station, season)), nearCell(station, top),
    faultCell(station),
    wireCell(station), h('td', { class: 'why' }, why(station, unread)));
}

// The counts, in the report's sentence, with the stations that were not asked and the lines that are refused.
export function totals(portfolio, judged) {
  if (!judged.lines.length) return [];
  const said = counted(portfolio), refused = judged.lines.length - judged.kept.length;
  const counts = [h('b', {}, said.stations), ' ', h('b', { class: 'green' }, said.released), ', ', h('b', { class: 'red' }, said.held),
    said.open ? `, ${said.open} not asked` : '', `. ${said.lines}; ${said.missing}`];
  return [...(portfolio.stations.every((one) => one.outside) ? [] : counts),
    refused ? h('b', { class: 'red' }, ` ${refused} line${refused > 1 ? 's are' : ' is'} refused.`) : ''];
}

function head() {
  const tall = (word, kind = '') => h('th', { scope: 'col', rowspan: 2, class: kind }, word);
  return h('thead', {}, h('tr', {}, tall('Station'), tall('Decision'), h('th', { scope: 'colgroup', colspan: 4, class: 's2' }, 'Season'),
    tall('Nearest limit'), tall(FAULT, 'num'), tall(WIRE, 'num'), tall('Reasons to hold')),
  h('tr', {}, SEASONS.map((season) => h('th', { scope: 'col', class: 's' }, String(season)))));
}

const GROUPS = [['Held', (one) => one.released === false], ['Not asked', (one) => one.released === undefined && !one.outside],
  ['Released', (one) => one.released], ['Not in the licence', (one) => one.outside]];

// Rows by station, and the parts of the table: of a station that is as it was its row is left alone.
let rows = new Map(), parts = null;

function keyOf(station, top, unread, here) {
  const { name, seasons, wire, area, outside, answer } = station;
  const refused = ['name', 'wire'].map((field) => refusedAt(station.station, field));
  return JSON.stringify([top, here, unread.map((line) => line.number), name, seasons, wire, area, outside, answer, refused,
    station.lines.map((line) => [line.place, line.text]), station.refused.map((line) => [line.number, line.cells[1]])]);
}

function tableParts() {
  const bodies = GROUPS.map(() => h('tbody', {}, h('tr', { class: 'grp' }, h('th', { colspan: COLUMNS, scope: 'rowgroup' }))));
  return { bodies, table: h('table', { class: 'pf' }), heads: [h('caption', { class: 'vh' }, 'Decision for each station'), head()],
    names: wireNames(), key: h('p', { class: 'key' }) };
}

// The table; `choose` is called with the line of a chosen station that is nearest its limit.
function fill(portfolio, top, choose, chosen) {
  parts ??= tableParts();
  const now = new Map(portfolio.stations.map((station) => {
    const key = keyOf(station, top, portfolio.unread, chosen === station.station), had = rows.get(station.station);
    return [station.station, had?.key === key ? had : { key, tr: row(station, top, portfolio.unread, choose, chosen) }];
  }));
  rows = now;
  const filled = GROUPS.flatMap(([word, test], i) => {
    const list = portfolio.stations.filter(test), body = parts.bodies[i], [group] = body.rows;
    group.firstChild.textContent = `${word} (${list.length})`;
    arrange(body, [group, ...list.map((one) => now.get(one.station).tr)]);
    return list.length ? [body] : [];
  });
  arrange(parts.table, [...parts.heads, ...filled]);
  show(parts.key, notes(portfolio).map((one) => `${one} `), KEY);
  arrange(byId('stations'), [parts.table, parts.names, parts.key]);
}

export function draw(portfolio, top, choose, chosen) {
  const box = byId('stations'), none = () => h('p', { class: 'key' }, 'No station yet: type or paste lines first.');
  redraw(box, () => (portfolio.stations.length ? fill(portfolio, top, choose, chosen) : show(box, none())));
}
