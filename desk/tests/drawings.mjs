// What the page draws, under node with the elements of document.mjs: marks and bars, the plan, curves and the map, all of a line and of the
// stations, the site. Numbers are compared with what the library answers, rounded outward.
//
//     EXPECTED=.. node --test desk/tests/drawings.mjs     after `make desk`
import assert from 'node:assert/strict';
import test from './tested.mjs';
import { Element } from './document.mjs';

const core = await import('../src/library/core.js');
const { COLUMN, NAMES, data, samples } = await import('../src/library/data.js');
const { down, up } = await import('../src/words/decimals.js');
const { cellsOf, parsed } = await import('../src/sheet/reading.js');
const { licenceOf } = await import('../src/sheet/licence.js');
const granting = await import('../src/sheet/granting.js');
const store = await import('../src/sheet/store.js');
const { judge } = await import('../src/judging/judging.js');
const { portfolio } = await import('../src/judging/stations.js');
const sentences = await import('../src/judging/sentences.js');
const { changes } = await import('../src/judging/advice.js');
const { curve } = await import('../src/judging/whatif.js');
const dom = await import('../src/views/dom.js');
const drawing = await import('../src/views/drawing.js');
const { plan } = await import('../src/views/plan.js');
const { plot, readout } = await import('../src/views/plots.js');
const granted = await import('../src/views/granted.js');
const listing = await import('../src/views/listing.js');
const detail = await import('../src/views/detail.js');
const varied = await import('../src/views/varied.js');
const siteview = await import('../src/views/siteview.js');
await core.start();

const plain = (text) => text.replaceAll('\u00a0', ' ');
const said = (one) => plain(one.textContent);
const byId = (id) => document.getElementById(id);
const SOUND = '7,1,400,2500,102,500,500,500,70,3180,600,10,11,11,7000,500,100,4,3000,1,1,60'.split(',');
const line = (...changed) => changed.reduce((row, [name, text]) => row.with(COLUMN[name], text), SOUND);
const { rows } = cellsOf(samples.sheet), { licence } = licenceOf(parsed(samples.licence).lines);
const judged = judge(rows, licence), asked = portfolio(judged, licence), top = drawing.scaleOf(judged.kept);
const drawn = (place) => detail.draw(judged.at.get(place), judged, asked, top, () => null);
const cellsOfRow = (tr) => tr.children.map(said);

test('elements have their attributes, words and calls; nothing that is empty is drawn', () => {
  let called = 0;
  const made = dom.h('p', { class: 'a', title: 'b', hidden: true, 'aria-x': false, lang: null, onclick: () => { called++; } }, 'x', ['y', null, '', false], 0);
  made.send('click');
  assert.deepEqual([made.textContent, made.className, made.getAttribute('hidden'), made.getAttribute('aria-x'), made.getAttribute('lang'), called],
    ['xy0', 'a', '', null, null, 1]);
  const chip = dom.chip(true, 'near', () => {}, { 'data-key': 'k' });
  assert.deepEqual([chip.tagName, chip.getAttribute('aria-pressed'), chip.dataset.key, chip.textContent], ['BUTTON', 'true', 'k', 'near']);
  const parent = dom.h('ul', {}, dom.h('li', {}, '1'), dom.h('li', {}, '2'), dom.h('li', {}, '3')), [one, two, three] = parent.children;
  dom.arrange(parent, [three, one, dom.h('li', {}, '4')]);
  assert.deepEqual([parent.textContent, parent.children[0] === three, parent.children.includes(two)], ['314', true, false]);
});

test('marks, badges and seasons have a word each', () => {
  const words = (station) => drawing.badge(station).textContent;
  assert.deepEqual([words({ released: true }), words({ released: false }), words({})], ['RELEASED', 'HELD', 'NOT ASKED']);
  assert.deepEqual([drawing.badge({ released: true }).className, drawing.badge({ released: false }).className], ['badge released', 'badge held']);
  const station = { lines: [{ row: { season: 1, verdict: 2 } }], refused: [{ cells: ['7', '2'] }], seasons: [1, 2, 3] };
  const seasons = [1, 2, 3, 4].map((season) => drawing.seasonMark(station, season).map((one) => one.textContent).join(''));
  assert.deepEqual(seasons, ['unsafe', 'refused', 'no line', 'not asked']);
  assert.equal(drawing.withWord('held', 'refused').className, 'v held');
});

test('a bar is as long as its share, cut at the scale, and the scale goes in steps', () => {
  const at = (margin) => drawing.scaleOf([{ nearest: { margin } }]);
  assert.deepEqual([-900, 0, 100, 250, 251, 499, 501, 3000].map(at), [1250, 1250, 1250, 1250, 1500, 1500, 1750, 2000]);
  const width = (margin, kind) => drawing.bar(margin, 1500, 't').withClass(kind).map((one) => Number(one.getAttribute('width')))[0] ?? 0;
  assert.deepEqual([[-400, 'fill'], [-400, 'over'], [300, 'fill'], [300, 'over'], [900, 'over']].map(([margin, kind]) => width(margin, kind)),
    [600, 0, 1000, 300, 500]);
  assert.deepEqual([drawing.bar(900, 1500, 't').withClass('cut').length, drawing.bar(300, 1500, 't').withClass('cut').length], [1, 0]);
  const bar = drawing.bar(0, 1250, 'words', [-500, -100]);
  assert.deepEqual([bar.getAttribute('role'), bar.getAttribute('aria-label'), bar.withClass('tick').map((one) => one.getAttribute('x')).join()],
    ['img', 'words', '495,895']);
});

test('a plan has the conductors and rods of its line, and says them', () => {
  const of = (...changed) => plan(judge([line(...changed)]).lines[0]);
  const made = of(['rods', '20']), wires = made.withClass('wire')[0].getAttribute('d');
  assert.deepEqual([made.withTag('circle').length, wires.match(/V/g).length, wires.match(/H/g).length], [20, 11, 11]);
  assert.match(said(made), /11 conductors across × 11 along, 0\.5 m deep, 1,540 m of conductor and 60 m of rods; 20 rods of 3 m at the perimeter\./);
  const few = of(['rods', '1'], ['place', '2'], ['across', '20'], ['along', '5']), path = few.withClass('wire')[0].getAttribute('d');
  assert.match(said(few), /1 rod of 3 m inside\. Rods are drawn evenly spread\.$/);
  assert.match(said(few), /across 133 m/);
  assert.match(said(few), /along 28 m/);
  assert.match(said(few), /spacing 7 m/);
  assert.deepEqual([path.match(/V/g).length, path.match(/H/g).length], [20, 5]);
  const long = of(['across', '5'], ['along', '20']).withClass('wire')[0].getAttribute('d'); // lies on its side
  assert.deepEqual([long.match(/V/g).length, long.match(/H/g).length], [20, 5]);
  assert.match(said(of(['rods', '2'])), /; 2 rods of 3 m at the perimeter\./);
  assert.match(said(of(['rods', '0'], ['rodlen', '0'], ['place', '0'])), /; no rods\.$/);
  const xs = of(['rods', '4']).withTag('circle').map((one) => `${one.getAttribute('cx')},${one.getAttribute('cy')}`);
  assert.equal(new Set(xs).size, 4);
});

test('a curve is told at each value, moved along by keys, and a value is taken over', () => {
  const [one] = judge([line()]).lines, of = curve('rods', one.case, false), taken = [], told = [];
  const box = plot(of, 0, 500, (value) => taken.push(value), (point) => told.push(point?.value ?? null)), svg = box.withClass('plot')[0];
  const key = (name) => { svg.send('keydown', { key: name }); return Number(svg.getAttribute('aria-valuenow')); };
  assert.deepEqual([svg.getAttribute('aria-valuenow'), svg.getAttribute('aria-valuemin'), svg.getAttribute('aria-valuemax')], ['4', '0', '200']);
  assert.deepEqual(['ArrowRight', 'ArrowUp', 'ArrowLeft', 'ArrowDown', 'PageUp', 'PageDown', 'End', 'Home', 'ArrowLeft'].map(key),
    [5, 6, 5, 4, 14, 4, 200, 0, 0]);
  key('End'), key('Enter'), key('Home'), key('Enter'), key('Escape');
  assert.deepEqual([taken, told.at(-1)], [[200, 0], null]);
  svg.send('click', { clientX: 499 });
  svg.send('pointermove', { clientX: 499 });
  assert.deepEqual([taken.at(-1), told.at(-1)], [200, 200]);
  const [row] = core.rows(core.textOf([core.lineOf({ ...one.case, rods: 200 })]));
  const text = plain(readout(of.points.at(-1), 'rods', 0).map((part) => part.textContent ?? part).join(''));
  assert.ok(text.startsWith(`200 mesh ${up(row.mesh.upper, 3, 1)} V, tolerable touch ${down(row.tolerable_touch.lower, 3, 1)} V: `), text);
  assert.equal(plain(svg.getAttribute('aria-valuetext')), text);
  const words = svg.withTag('text').map(said);
  for (const wanted of ['now 4', 'tolerable touch', 'mesh', 'V', 'Rods', 'safe']) assert.ok(words.includes(wanted), `${wanted} in ${words}`);
  const [safe] = of.runs.filter((run) => run.verdict === 1), band = svg.withClass('band', 'safe')[0];
  assert.ok(safe && Number(band.getAttribute('x')) > 0);
  assert.equal(svg.withClass('voltage')[0].classList.contains('over'), of.points[0].compared[0].side === 'above');
  assert.ok(svg.withClass('voltage', 'over').length > 0 && svg.withClass('voltage').some((path) => !path.classList.contains('over')));
});

test('all that is known of a line: limits rounded outward, both ends of each result, its station and what to change', () => {
  for (const place of [0, 5, 15, 20]) {
    drawn(place);
    const { row, working, headroom, compared } = judged.at.get(place), station = asked.at.get(row.station);
    const [bars, results] = byId('limits').children, part = { row, working };
    const wanted = compared.map((one) => [up(one.voltage.upper, 3, 1), down(one.tolerable.lower, 3, 1)]);
    assert.deepEqual(bars.withTag('tbody')[0].children.map((tr) => cellsOfRow(tr).slice(2, 4)), wanted);
    const ends = (list) => list.map(({ part: of, pair, scale, places }) =>
      [down(part[of][pair].lower, scale, places), up(part[of][pair].upper, scale, places)]);
    const shown = (table) => table.withTag('tbody')[0].children.map((tr) => cellsOfRow(tr).slice(1));
    assert.deepEqual(shown(results), [...ends(data.results), [row.kcmil.toLocaleString('en')], [headroom ? headroom.toLocaleString('en') : 'none']]);
    assert.deepEqual(shown(byId('working').children[0]), ends(data.workings));
    assert.equal(said(byId('station').withClass('decision')[0]), plain(sentences.decision(station, []).join(' ')));
    assert.deepEqual(byId('station').withClass('asides').flatMap((list) => list.children.map(said)),
      [...sentences.asides(station), ...sentences.cautions(station).map((one) => ` Caution: ${one}`)].map(plain));
    assert.equal(byId('station').withTag('li').length - byId('station').withClass('asides')[0].children.length, changes(station).length);
    assert.equal(byId('detail').dataset.state, 'line');
    assert.match(said(byId('title')), new RegExp(`^${row.station} .* season ${row.season}, line ${place + 2}${data.verdicts[row.verdict]}`));
    assert.deepEqual(byId('station').withTag('input').map((box) => Boolean(box.checked)), [1, 2, 3, 4].map((season) => station.seasons.includes(season)));
  }
});

test('a change is applied to every line of its station, and lines are added for missing seasons with the soil left open', () => {
  store.change('sample', { rows, licence });
  drawn(5);
  const before = store.store.now.rows, { station } = judged.at.get(5).row, own = asked.at.get(station), [first] = changes(own);
  byId('station').withClass('do')[0].send('click');
  const after = store.store.now.rows;
  for (const [i, one] of own.lines.entries()) {
    assert.deepEqual(after[one.place], NAMES.map((name) => String(first.cases[i][name])));
  }
  assert.deepEqual(after.filter((_, i) => !own.lines.some((one) => one.place === i)), before.filter((_, i) => !own.lines.some((one) => one.place === i)));
  store.undo();
  const gone = asked.stations.find((one) => one.released === false && one.missing.length && one.lines.length);
  drawn(gone.lines[0].place);
  byId('station').withClass('do').find((one) => one.dataset.key === 'missing').send('click');
  const added = store.store.now.rows.slice(before.length);
  assert.deepEqual(added.map((row) => [row[0], row[1], row[2], row[3]]), gone.missing.map((season) => [String(gone.station), String(season), '',
    before[gone.lines[0].place][3]]));
});

test('a line that no fault current leaves safe says so, and lines for several missing seasons stand below each other', () => {
  const bad = [line(['soil', '5000'], ['layer', '0'], ['thick', '0'], ['across', '2'], ['along', '2'], ['space', '30000'], ['shock', '3000'])];
  store.change('bad', { rows: bad, licence: new Map() });
  const found = judge(bad), all = portfolio(found, new Map());
  assert.equal(found.lines[0].headroom, 0);
  detail.draw(found.at.get(0), found, all, top, () => null);
  assert.equal(said(byId('limits').children[1].withTag('tbody')[0].children.at(-1)), 'Safe up to fault current Anone');
  byId('station').withClass('do').find((one) => one.dataset.key === 'missing').send('click');
  assert.deepEqual(store.store.now.rows.map((row) => [row[0], row[1], row[2]]), [['7', '1', '5000'], ['7', '2', ''], ['7', '3', ''], ['7', '4', '']]);
});

test('a refused line is told in words, with the metals where that is the column', () => {
  const bad = judge([line(['metal', '99'])]), all = portfolio(bad, new Map());
  detail.draw(bad.at.get(0), bad, all, top, () => null);
  assert.equal(byId('detail').dataset.state, 'refused');
  assert.match(said(byId('refused')), /^line 2, metal \(column 21\): .*1 .*; 2 /);
  assert.match(said(byId('station')), /Not asked: line 2 of this station is refused\./);
  detail.draw(undefined, bad, all, top, () => null);
  assert.equal(byId('detail').dataset.state, 'none');
  detail.draw(undefined, judge([]), portfolio(judge([]), new Map()), top, () => null);
  assert.equal(byId('detail').dataset.state, 'empty');
});

test('one input varied is told in words, and a value goes into the lines that must agree on it', () => {
  store.change('sample', { rows, licence });
  const [one] = judged.lines.filter((other) => other.place === 5), station = asked.at.get(one.row.station);
  varied.draw(one, station);
  const chip = (key) => byId('whatif').querySelectorAll('.chip').find((other) => other.dataset.key === key);
  chip('fault').send('click');
  assert.match(said(byId('whatif').withClass('under')[0]), /^Safe of the values drawn: up to 3,476 A\. \d+ values were asked/);
  chip('rods').send('click');
  assert.match(said(byId('whatif').withClass('under')[0]), /^Safe of the values drawn: from 52\. All 201 values were asked\. It is of the yard/);
  assert.match(said(byId('whatif').withClass('readout')[0]), /Click a value to take it over, in all 2 lines of the station/);
  const svg = byId('whatif').withClass('plot')[0];
  svg.send('keydown', { key: 'End' }), svg.send('keydown', { key: 'Enter' });
  assert.deepEqual(station.lines.map(({ place }) => store.store.now.rows[place][COLUMN.rods]), ['200', '200']);
  store.undo();
  chip('soil').send('click');
  byId('whatif').withClass('plot')[0].send('keydown', { key: 'Home' }), byId('whatif').withClass('plot')[0].send('keydown', { key: 'Enter' });
  const soils = station.lines.map(({ place }) => store.store.now.rows[place][COLUMN.soil]);
  assert.notEqual(soils[station.lines.indexOf(one)], rows[5][COLUMN.soil]);
  assert.equal(soils[1 - station.lines.indexOf(one)], rows[station.lines[1 - station.lines.indexOf(one)].place][COLUMN.soil]);
  store.undo();
});

test('the map has a sign and words for each yard, keys move in it, and both values are taken over', () => {
  store.change('sample', { rows, licence });
  const one = judged.at.get(5), station = asked.at.get(one.row.station);
  varied.draw(one, station);
  byId('varied').querySelectorAll('.chip').find((other) => other.dataset.key === 'two inputs').send('click');
  const table = byId('whatif').withClass('map')[0], cells = table.withTag('td'), now = cells.filter((td) => td.classList.contains('now'));
  assert.deepEqual([now.length, now[0].dataset.key, now[0].tabIndex], [1, `yard ${one.case.rods},${one.case.space}`, 0]);
  for (const td of cells) {
    const words = td.getAttribute('aria-label'), kind = ['safe', 'unsafe', 'undecided', 'refused'].find((name) => td.classList.contains(name));
    assert.match(words, new RegExp(`: ${kind}`));
  }
  const counts = ['safe', 'unsafe'].map((kind) => cells.filter((td) => td.classList.contains(kind)).length);
  assert.match(said(byId('whatif').withClass('legend')[0]), new RegExp(`^safe ${counts[0]}unsafe ${counts[1]}undecided 0refused, a rule is broken 0`));
  const wide = table.withTag('thead')[0].withTag('th').length - 1, at = () => cells.findIndex((td) => td.tabIndex === 0), from = at();
  const key = (name) => { table.send('keydown', { key: name }); return at(); };
  assert.deepEqual([key('ArrowRight'), key('ArrowDown'), key('ArrowLeft'), key('ArrowUp')], [from + 1, from + wide + 1, from + wide, from]);
  assert.deepEqual([key('Home'), key('PageUp'), key('End'), key('PageDown')], [from - (from % wide), 0, wide - 1, cells.length - 1]);
  table.send('keydown', { key: 'Enter' });
  const [rods, space] = cells.at(-1).dataset.key.slice(5).split(',');
  assert.deepEqual(station.lines.map(({ place }) => [store.store.now.rows[place][COLUMN.rods], store.store.now.rows[place][COLUMN.space]]),
    [[rods, space], [rods, space]]);
  store.undo();
  byId('varied').querySelectorAll('.chip').find((other) => other.dataset.key === 'one input').send('click');
});

test('the list of stations: held first, each with its decision, nearest limit, current, wire and reasons', () => {
  store.change('sample', { rows, licence });
  let chosen = null;
  listing.draw(asked, top, (one) => { chosen = one; }, 104);
  const groups = byId('stations').withClass('grp').map(said);
  const count = (test_) => asked.stations.filter(test_).length;
  assert.deepEqual(groups, [`Held (${count((one) => one.released === false)})`, `Released (${count((one) => one.released)})`]);
  const trs = byId('stations').withTag('tbody').flatMap((body) => body.children.slice(1));
  const by = new Map(trs.map((tr) => [tr.withClass('no')[0].textContent, tr]));
  assert.equal(trs.length, asked.stations.length);
  for (const station of asked.stations.filter((one) => one.lines.length)) {
    const tr = by.get(String(station.station)), { worst, size } = station;
    assert.equal(said(tr.withClass('badge')[0]), station.released ? 'RELEASED' : 'HELD');
    assert.match(said(tr.withClass('near')[0]), new RegExp(`${worst.nearest.limit}, season ${worst.row.season}$`));
    assert.equal(said(tr.withClass('num')[0]), plain(sentences.greatest(station) + sentences.now(station)));
    assert.ok(said(tr.withClass('num')[1]).startsWith(`${size.needed.toLocaleString('en')} of ${size.own.toLocaleString('en')} `
      + `${station.lines.some((one) => one.small) ? 'too small' : 'enough'}`));
    assert.deepEqual(tr.withTag('input').filter((box) => box.getAttribute('type') === 'checkbox').map((box) => Boolean(box.checked)),
      [1, 2, 3, 4].map((season) => station.seasons.includes(season)));
    assert.equal(tr.classList.contains('chosen'), station.station === 104);
    if (!station.released) assert.match(said(tr.withClass('why')[0]), new RegExp(`^[A-Z]`));
  }
  by.get('110').withClass('link')[0].send('click');
  assert.equal(chosen, asked.at.get(110).worst);
  const held = asked.stations.filter((one) => one.released === false).map((one) => String(one.station));
  assert.deepEqual(trs.slice(0, held.length).map((tr) => tr.withClass('no')[0].textContent), held);
  const box = by.get('104').withTag('input').find((one) => one.getAttribute('aria-label') === 'Season 3 of station 104 is in the licence');
  const was = licence.get(104).seasons.includes(3);
  box.checked = !was, box.send('change');
  assert.equal(store.store.now.licence.get(104).seasons.includes(3), !was);
  store.undo();
});

test('counts above the sheet, with what is refused and not asked', () => {
  const more = judge([...rows, line(['station', '104'], ['soil', 'x'])], licence), all = portfolio(more, licence);
  const text = plain(new Element('p').textContent + listing.totals(all, more).map((one) => one.textContent ?? one).join(''));
  assert.match(text, /^13 stations: \d released, \d held, 1 not asked\. .* 1 line is refused\.$/);
  const two = judge([line(['soil', 'x']), line(['soil', 'y'], ['season', '2'])]);
  assert.match(listing.totals(portfolio(two, new Map()), two).map((one) => one.textContent ?? one).join(''), / 2 lines are refused\.$/);
  assert.deepEqual(listing.totals(portfolio(judge([]), new Map()), judge([])), []);
});

test('a name and a wire are typed at their station, and what is refused is said at the field', () => {
  store.change('sample', { rows, licence });
  const field = (kind) => granted[`${kind}Field`](portfolio(judge(rows, store.store.now.licence), store.store.now.licence).at.get(104));
  const typed = (kind, text) => { const [input] = field(kind); input.value = text; input.send('change'); };
  typed('wire', '4/0'), typed('name', 'Elm');
  assert.deepEqual([store.store.now.licence.get(104).wire, store.store.now.licence.get(104).area, store.store.now.licence.get(104).name], ['4/0', 211, 'Elm']);
  typed('wire', '95');
  const [input, , told] = field('wire');
  assert.deepEqual([input.value, input.getAttribute('aria-invalid'), told.getAttribute('role'), input.getAttribute('aria-describedby')],
    ['95', 'true', 'alert', told.getAttribute('id')]);
  assert.match(said(told), /^wire: '95' /);
  input.send('keydown', { key: 'Escape' });
  assert.deepEqual([input.value, granting.anyRefused(), field('wire')[0].value], ['4/0', false, '4/0']);
  assert.equal(field('name')[0].getAttribute('aria-label'), 'Name of station 104');
  const names = granted.wireNames().withTag('option').map((one) => one.value ?? one.getAttribute('value'));
  assert.ok(names.includes('#4') && names.includes('4/0') && names.includes('250 kcmil') && !names.includes('4'), `${names}`);
});

test('what is measured goes into the chosen line, and a yard into every line of its station', () => {
  store.change('sample', { rows, licence });
  const one = judged.at.get(1), station = asked.at.get(one.row.station), set = (id, text) => { byId(id).value = text; };
  set('readings', '1 10.4\n2 4.55\n5 1.62\n10 0.71'), set('currents', '1000 0\n400 0'), set('side', '60');
  siteview.draw(one, station);
  assert.equal(said(byId('readings-said').withTag('b')[0]), 'column soil: 55 Ω·m');
  assert.equal(byId('readings-said').withTag('tbody')[0].children.length, 4 + 3);
  assert.equal(byId('readings-said').withTag('circle').length, 4);
  const xs = byId('readings-said').withTag('circle').map((dot) => Number(dot.getAttribute('cx')));
  assert.deepEqual(xs, [38.4, 68.8, 160, 312]);
  const ys = byId('readings-said').withTag('circle').map((dot) => Number(dot.getAttribute('cy')));
  assert.ok(ys[0] < ys[1] && ys[1] < ys[2] && ys[2] < ys[3]); // the higher resistivity is drawn higher
  const click = (id, key) => byId(id).withTag('button').find((button) => button.dataset.key === key).send('click');
  click('readings-said', 'soil');
  assert.deepEqual([0, 1, 2].map((place) => store.store.now.rows[place][COLUMN.soil]), [rows[0][2], '55', rows[2][2]]);
  assert.equal(siteview.unsaved(), true);
  click('currents-said', 'split');
  assert.equal(store.store.now.rows[1][COLUMN.split], '600');
  click('side-said', 'yard');
  const across = said(byId('side-said').withTag('b')[0]).split(' ')[0];
  assert.deepEqual(station.lines.map(({ place }) => [store.store.now.rows[place][COLUMN.across], store.store.now.rows[place][COLUMN.along]]),
    station.lines.map(() => [across, across]));
  assert.equal(said(byId('side-said').withTag('summary')[0]).startsWith('The '), true);
  set('side', '60x'), set('readings', ''), set('currents', '');
  siteview.draw(one, station);
  assert.equal(said(byId('side-said').withClass('red')[0]), "side: '60x' is no number");
  assert.equal(said(byId('readings-said')), '');
  set('side', '60'), set('readings', '1 10'), siteview.draw(undefined, undefined);
  assert.match(said(byId('side-said')), /^Choose a line that is accepted/);
  assert.match(said(byId('readings-said')), /Choose a line to put it into/);
  set('side', ''), set('readings', '');
});
