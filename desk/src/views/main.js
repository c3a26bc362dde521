// The page: what is typed goes to the library, what it answers goes to the screen.
import { NAMES, data } from '../library/data.js';
import { start, version } from '../library/core.js';
import * as detail from './detail.js';
import { byId, h, show } from './dom.js';
import { scaleOf } from './drawing.js';
import * as files from './files.js';
import * as grid from './grid.js';
import { judge } from '../judging/judging.js';
import * as keys from './keys.js';
import * as listing from './listing.js';
import { at, choose, onMove, paint, range } from './select.js';
import { portfolio as asked } from '../judging/stations.js';
import { sha256 } from '../sheet/digest.js';
import * as site from './siteview.js';
import { anyRefused } from '../sheet/granting.js';
import { reading } from '../sheet/amounts.js';
import * as store from '../sheet/store.js';
import { sheetText, word } from '../sheet/writing.js';
import * as varied from './varied.js';
import { follow } from './whatifview.js';
import { margin, meaning, refusal, refusedPlace, verdict } from '../words/words.js';

const VIEWS = ['lines', 'stations', 'site'];
let judged, portfolio, top, queued = 0, view = 'lines', quiet = 0, moves = 0; // moves of the chosen cell since the last change

// A word on what was done; what was refused or left out stays until the next one.
function say(words, stays = false) {
  byId('said').textContent = words;
  byId('said').className = stays ? 'red' : '';
  clearTimeout(quiet);
  if (!stays) quiet = setTimeout(() => { byId('said').textContent = ''; }, 9000);
}

const chosen = () => judged.at.get(at.row);

// For those who listen: what is now answered of the chosen line.
function tellLine() {
  const line = chosen();
  const open = line?.refused ? reading(line.cells, at.column) : null;
  const words = !line ? '' : open?.number ? `${open.said}${open.digits ? `; Enter writes ${open.digits}` : ''}`
    : line.refused ? `${refusedPlace(line)}: ${refusal(line, judged.lines)}`
    : `line ${line.number} ${verdict(line)}, ${line.nearest.limit} ${margin(line.nearest)}`;
  if (byId('live').textContent !== words) byId('live').textContent = words;
}

// The rest of the page follows in the next frame; the answers of the lines do not wait for it.
function later() {
  if (!queued) queued = requestAnimationFrame(() => { queued = 0; lower(); });
}

function lower() {
  if (chosen()?.typing) return; // what is typed is no value yet: the rest stays as it was
  portfolio = asked(judged, store.store.now.licence);
  show(byId('totals'), listing.totals(portfolio, judged));
  document.body.classList.toggle('empty', !judged.lines.length);
  if (view === 'stations' || matchMedia('print').matches) listing.draw(portfolio, top, pick, chosen()?.row?.station);
  if (view === 'site') drawSite();
  detail.draw(chosen(), judged, portfolio, top, () => grid.cellAt(at.row, at.column));
  grid.callout(chosen(), judged.lines, at, moves < 2);
  byId('hint').textContent = hint();
}

function drawSite() {
  const line = chosen();
  site.draw(line, portfolio.at.get(line?.row?.station));
}

// What the chosen column means, and the metal that a number stands for.
function hint() {
  const name = NAMES[at.column], metal = name === 'metal' && data.metals[store.rowsNow()[at.row]?.[at.column]];
  return `${name}: ${metal ? `${metal}; ` : ''}${meaning(name)}`;
}

function upper() {
  const rows = store.rowsNow(), { draft, now } = store.store;
  judged = judge(rows, now.licence);
  top = scaleOf(judged.kept);
  const typed = draft && judged.at.get(draft.row);
  if (typed?.refused) typed.typing = true;
  grid.draw(rows, judged, top, now.made);
  byId('name').textContent = (now.name || 'new sheet') + (store.unsaved() || anyRefused() ? ' (not saved)' : '');
  byId('undo').disabled = !store.canUndo();
  byId('redo').disabled = !store.canRedo();
}

// What a print is of: the sheet and its SHA-256, the library and the date; and the command that makes the formal report.
function printedHead() {
  const { now } = store.store, name = now.name || files.UNNAMED, licence = now.licence.size ? ` --licence ${word(now.licenceName)}` : '';
  const today = new Date().toLocaleDateString('en-GB', { day: 'numeric', month: 'long', year: 'numeric' });
  return [
    `${name}${store.unsaved() ? ' (not saved)' : ''}, SHA-256 ${sha256(sheetText(now.rows))}`,
    `Hocsimbur ${version()}, ${today}`,
    `This is a print of the desk page. The formal report: hocsimbur report ${word(name)}${licence} -o report.html`,
  ];
}

const pick = (line) => choose(line.place, at.column, false, false);

function setView(next) {
  view = next;
  for (const one of VIEWS) {
    document.body.classList.toggle(`in-${one}`, one === view);
    byId(`view-${one}`).setAttribute('aria-selected', String(one === view));
    byId(`view-${one}`).tabIndex = one === view ? 0 : -1;
    byId(`panel-${one}`).hidden = one !== view;
  }
  if (view === 'lines') { upper(); paint(); } // which rows are in sight is not known of a sheet that is hidden
  later();
}

// Among the views arrows, Home and End move; the one that is seen is in the order of Tab.
function arrows(event) {
  const place = VIEWS.indexOf(view), last = VIEWS.length - 1;
  const next = { ArrowLeft: place ? place - 1 : last, ArrowRight: place < last ? place + 1 : 0, Home: 0, End: last }[event.key];
  if (next === undefined) return;
  event.preventDefault();
  setView(VIEWS[next]);
  byId(`view-${view}`).focus();
}

function addSeason() {
  const { rows } = store.store.now, line = chosen();
  if (!line) return;
  const taken = new Set(judged.lines.filter((one) => one.cells[0] === line.cells[0]).map((one) => one.cells[1]));
  const season = ['1', '2', '3', '4'].find((one) => !taken.has(one)) ?? '';
  const copy = line.cells.map((cell, column) => (column === 1 ? season : cell));
  const more = [...rows.slice(0, line.place + 1), copy, ...rows.slice(line.place + 1)];
  store.change('a line added', { rows: more.slice(0, store.MOST_LINES) });
  choose(line.place + 1, NAMES.indexOf('soil'));
  say(season ? `season ${season} of station ${line.cells[0]}, a copy: set its soil` : 'a copy; all four seasons have a line already');
}

function removeLines() {
  const { top: first, bottom } = range(), { rows } = store.store.now;
  store.change(bottom > first ? `${bottom - first + 1} lines removed` : 'a line removed',
    { rows: rows.filter((_, i) => i < first || i > bottom) });
  choose(Math.min(first, Math.max(0, store.store.now.rows.length - 1)), at.column);
}

const step = (call, word) => () => { keys.finish(true); const what = call(); if (what) say(`${word}: ${what}`); };

function wire() {
  const acts = {
    new: files.fresh, open: () => byId('file').click(), save: files.save, sample: files.sample, begin: files.sample,
    browse: () => byId('file').click(),
    undo: step(store.undo, 'undone'), redo: step(store.redo, 'done again'), print: () => print(), season: addSeason, remove: removeLines,
    licence: files.saveLicence,
    ...Object.fromEntries(VIEWS.map((one) => [`view-${one}`, () => setView(one)])), type: () => choose(0, 0),
  };
  for (const [id, act] of Object.entries(acts)) byId(id).addEventListener('click', act);
  byId('view-lines').parentNode.addEventListener('keydown', arrows);
  addEventListener('keydown', (event) => {
    if (!(event.ctrlKey || event.metaKey) || event.altKey) return;
    const act = { s: 'save', o: 'open', p: '', z: event.shiftKey ? 'redo' : 'undo', y: 'redo' }[event.key.toLowerCase()];
    if (!act || (keys.editing() && act !== 'save') || (act.endsWith('do') && event.target.closest('#site, input.own'))) return;
    event.preventDefault();
    keys.finish(true); // what is typed is saved too
    byId(act).click();
  });
  addEventListener('afterprint', () => grid.drawWhole(false));
  addEventListener('beforeprint', () => {
    grid.drawWhole(true);
    listing.draw(portfolio, top, pick);
    show(byId('printed'), printedHead().map((line) => h('span', {}, line)));
  });
  let width = innerWidth;
  addEventListener('resize', () => { if (innerWidth !== width) { width = innerWidth; later(); } });
  byId('pane').addEventListener('scroll', () => {
    byId('callout').hidden = true;
    if (grid.scrolled()) paint();
  }, { passive: true });
  byId('sheet').addEventListener('pointerover', (event) => {
    const td = event.target.closest('td.bad, td.todo');
    if (td) grid.callout(judged.at.get(Number(td.dataset.r)), judged.lines, { row: Number(td.dataset.r), column: Number(td.dataset.c) });
  });
}

async function begin() {
  await start();
  byId('version').textContent = `Hocsimbur ${version()}`;
  byId('sheet').prepend(...grid.head());
  detail.guide();
  for (const one of [keys, files]) { one.onSay(say); one.wire(); }
  varied.onTaken(say);
  site.onTaken(say);
  site.wire(drawSite);
  files.onOpened(() => { byId('pane').scrollTo(0, 0); choose(0, 0, false, view === 'lines'); });
  grid.onAccept((row, column) => { keys.accept(row, column); choose(row, column); });
  store.listen((kind) => {
    if (kind === 'change') moves = 0;
    upper();
    if (kind === 'change') { paint(); tellLine(); }
    later();
  });
  upper();
  wire();
  onMove(() => { moves++; follow(NAMES[at.column]); later(); });
  choose(0, 0, false, false);
  lower();
  document.body.dataset.ready = String(Math.round(performance.now()));
}

begin();
