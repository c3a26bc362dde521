// The page's smaller pieces under node, without a browser: steps and files, text that is read, values, curves and what hangs on them.
//
//     EXPECTED=.. node --test desk/tests/pieces.mjs     after `make desk`; EXPECTED is what desk/tests/expected.py wrote
import assert from 'node:assert/strict';
import fs from 'node:fs';
import test from './tested.mjs';
import './document.mjs';

const expected = JSON.parse(fs.readFileSync(process.env.EXPECTED, 'utf8'));
const core = await import('../src/library/core.js');
const { BY_NAME, GROUPS, NAMES, SEASONS, data, shortUnit } = await import('../src/library/data.js');
const decimals = await import('../src/words/decimals.js');
const words = await import('../src/words/words.js');
const { cellsOf, parsed } = await import('../src/sheet/reading.js');
const { licenceOf } = await import('../src/sheet/licence.js');
const granting = await import('../src/sheet/granting.js');
const { shown, whole } = await import('../src/sheet/numbers.js');
const { areaOf } = await import('../src/sheet/wires.js');
const store = await import('../src/sheet/store.js');
const { importing, amounts } = { importing: await import('../src/sheet/importing.js'), amounts: await import('../src/sheet/amounts.js') };
const { incomplete, judge, refusedColumn } = await import('../src/judging/judging.js');
const { kcmil, portfolio, wireTo } = await import('../src/judging/stations.js');
const { changes } = await import('../src/judging/advice.js');
const { kinds } = await import('../src/judging/candidates.js');
const sentences = await import('../src/judging/sentences.js');
const whatif = await import('../src/judging/whatif.js');
const { soilOf } = await import('../src/judging/site.js');
const mapped = await import('../src/judging/map.js');
const { sheetText } = await import('../src/sheet/writing.js');
await core.start();

const SOUND = '7,1,400,2500,102,500,500,500,70,3180,600,10,11,11,7000,500,100,4,3000,1,1,60'.split(',');
const line = (...changed) => changed.reduce((row, [name, text]) => row.with(NAMES.indexOf(name), text), SOUND);
const caseOf = (row) => Object.fromEntries(NAMES.map((name, place) => [name, Number(row[place])]));

test('the columns by subject are the table of names in its order, each with a short unit', () => {
  assert.deepEqual(GROUPS.flatMap(([, names]) => names), NAMES);
  assert.deepEqual(GROUPS.map(([word, names]) => [word, names.length]), [['Line', 2], ['Ground', 3], ['Times, body', 4], ['Fault', 3],
    ['Grid', 5], ['Rods', 3], ['System', 2]]);
  assert.deepEqual([shortUnit('split'), shortUnit('dia'), shortUnit('soil'), shortUnit('station')], ['‰', '0.1 mm', 'Ω·m', '']);
  assert.deepEqual(SEASONS, [1, 2, 3, 4]);
});

test('a share turns to whole percent at 1,000 %, rounded up', () => {
  assert.deepEqual([9999, 10000, 10001, 10010, 0, 5].map(decimals.share), ['999.9', '1,000', '1,001', '1,001', '0.0', '0.5']
    .map((text) => `${text}\u00a0%`));
  assert.deepEqual([7000, 7050, 7005, 12345, 500].map((one) => decimals.metres(one, 0)), ['7', '7.05', '7.005', '12.345', '0.5']);
  assert.deepEqual([decimals.metres(7000), decimals.metres(7500), decimals.metres(7125)], ['7.00', '7.50', '7.125']);
});

test('values are shown with their unit as the report has them', () => {
  const shown = [['soil', 1234], ['layer', 0], ['thick', 102], ['split', 605], ['xr', 10], ['space', 7050], ['dia', 134], ['rods', 0],
    ['rodlen', 0], ['rodlen', 3000], ['place', 2], ['hz', 60]].map(([name, number]) => words.value(name, number).replace('\u00a0', ' '));
  assert.deepEqual(shown, ['1,234 Ω·m', 'bare', '102 mm', '60.5 %', '10', '7.05 m', '13.4 mm', '0', 'none', '3 m', 'inside', '60 Hz']);
});

test('a number below 0 stays as it is written, and decimals that do not end are cut', () => {
  assert.deepEqual(['-5.0', '-0', '5.0', '5.5'].map((text) => whole(text)), ['-5.0', '0', '5', '5.5']);
  assert.deepEqual([[1n, 3n], [200n, 3n], [1n, 8n], [-7n, 2n], [7n, 1n]].map(shown).slice(0, 3), ['0.333333…', '66.666666…', '0.125']);
});

test('undo and redo go back and forth by one step, and a change ends what could be done again', () => {
  const soil = () => store.store.now.rows[0]?.[2] ?? '';
  const set = (text) => store.change(`soil ${text}`, { rows: store.withCells([[0, 2, text]]) });
  store.change('new', { rows: [], licence: new Map() });
  for (const text of ['1', '2', '3']) set(text);
  assert.deepEqual([store.undo(), soil(), store.undo(), soil()], ['soil 3', '2', 'soil 2', '1']);
  assert.deepEqual([store.redo(), soil(), store.canRedo()], ['soil 2', '2', true]);
  set('9');
  assert.deepEqual([store.canRedo(), store.redo(), soil()], [false, '', '9']);
  assert.deepEqual([store.undo(), soil(), store.redo(), soil()], ['soil 9', '2', 'soil 9', '9']);
  for (let i = 0; i < 400; i++) set(String(i));
  assert.deepEqual([store.undo(), soil(), store.undo(), soil()], ['soil 399', '398', 'soil 398', '397']);
  let steps = 0;
  while (store.undo()) steps++;
  assert.ok(steps >= 298 && steps <= 300, `${steps} steps are kept`);
});

test('cells are put into rows, blank rows at the end are no rows, and none past the most that a sheet takes', () => {
  store.change('new', { rows: [] });
  const rows = store.withCells([[2, 1, 'x'], [0, 0, 'y'], [0, 22, 'z'], [10000, 0, 'w']]);
  assert.deepEqual([rows.length, rows[2][1], rows[0][0], rows[0].length], [3, 'x', 'y', 22]);
  assert.equal(store.withCells([[9999, 0, 'w']]).length, 10000);
  store.change('a blank row', { rows: [Array(22).fill('')] });
  assert.deepEqual(store.store.now.rows, []);
  store.change('rows', { rows: [...rows, Array(22).fill('')] });
  assert.equal(store.store.now.rows.length, 3);
  assert.deepEqual([0, 1, 2].map((row) => store.lineNumber(rows, row)), [2, 3, 3]);
  store.draft(0, 2, '55');
  assert.deepEqual([store.rowsNow()[0][2], store.store.now.rows[0][2]], ['55', '']);
  store.draft(0, 2, null);
  assert.equal(store.rowsNow()[0][2], '');
  const put = store.casesAsCells([{ place: 0 }, { place: 2 }], [caseOf(line()), caseOf(line(['soil', '55']))]);
  assert.deepEqual(put.filter(([, column]) => column === 2), [[0, 2, '400'], [2, 2, '55']]);
});

test('a sheet that is saved does not save its licence with it', () => {
  const licence = licenceOf(parsed('station,name,seasons\n7,,1\n').lines).licence;
  store.change('both', { rows: [SOUND], licence });
  assert.deepEqual([store.unsavedPart('rows'), store.unsavedPart('licence')], [true, true]);
  store.markSaved({ sheet: 'a.csv' });
  assert.deepEqual([store.store.now.name, store.unsavedPart('rows'), store.unsavedPart('licence'), store.unsaved()], ['a.csv', false, true, true]);
  store.markSaved({ licence: true });
  assert.equal(store.unsaved(), false);
  store.change('new', { rows: [], licence: new Map() });
  assert.equal(store.unsaved(), false); // nothing to lose
});

test('a wire may be any whole cross-section in kcmil', () => {
  assert.deepEqual(['1234 kcmil', '7kcmil', '2000 kcmil', '2001 kcmil', '', '95 mm2', '4/0'].map(areaOf), [1234, 7, 2000, null, 0, 184, 211]);
});

test('a reading below 0 is refused, however near to 0 it is', () => {
  assert.match(soilOf('-0.0004 7').wrong, /^reading 1: distance/);
  assert.match(soilOf('2 7\n2 -0.0004').wrong, /^reading 2: resistance/);
  assert.equal(soilOf('2.0004 7').wrong, undefined);
});

test('a station stands once in a licence, however its number is written', () => {
  const refused = (...lines) => licenceOf(parsed(['station,name,seasons', ...lines, ''].join('\n')).lines).refused ?? '';
  assert.match(refused('7,a,1', '8,b,1', '7.0,c,2'), /line 4, .*7.*line 2/);
  assert.equal(refused('7,a,1', '70,b,1'), '');
});

test('texts of several kinds are read: sep=, old line ends, quotes, a header of two names', () => {
  assert.deepEqual(parsed('sep=;\n1,5;2\n').lines[0], ['1,5', '2']);
  assert.deepEqual(parsed('1\t2\r3\t4\r\n5\t6').lines, [['1', '2'], ['3', '4'], ['5', '6']]);
  assert.deepEqual(parsed('a,b,"c ""d"", e"\n"","",""').lines, [['a', 'b', 'c "d", e'], ['', '', '']]);
  assert.deepEqual(parsed('1;2;3,5').sign, ';');
  assert.deepEqual(parsed('\ufeff1\t 2 ').lines, [['1', '2']]);
  const { rows, header, notes } = cellsOf('Soil\tseason\n130\t2\n');
  assert.deepEqual([header, rows[0][1], rows[0][2], rows[0][0]], [true, '2', '130', '']);
  assert.match(notes[0], /station, layer, .* and hz are/);
  assert.match(cellsOf(`${NAMES.filter((name) => name !== 'hz')}\n${SOUND.slice(0, -1)}\n`).notes[0], /\bhz is\b/);
  assert.equal(cellsOf('soil\n130\n').header, false);
});

test('names of stations go into the licence, and what is asked stays', () => {
  const rows = [line(), line(['station', '8'])], all = [1, 2, 3, 4];
  const called = new Map([[7, 'North'], [8, ''], [9, 'a\u200bb'], [70000, 'far']]);
  const of = (licence) => [...granting.withNames(licence, rows, called)].map(([station, { name, seasons }]) => [station, name, seasons]);
  assert.deepEqual(of(new Map()), [[7, 'North', all], [8, '', all]]);
  const own = new Map([[8, { name: 'Elm', seasons: [2], wire: '4/0', area: 211, byLicence: true }]]);
  assert.deepEqual(of(own), [[8, 'Elm', [2]], [7, 'North', []]]);
  assert.equal(granting.withNames(own, rows, new Map([[7, '']])), own);
});

test('blank rows are no lines: numbers go on after them, and a place stays what it is', () => {
  const blank = Array(22).fill(''), rows = [line(), blank, line(['season', '2']), blank, line(['season', 'x']), line(['season', '2'])];
  const judged = judge(rows);
  assert.deepEqual(judged.lines.map((one) => [one.place, one.number]), [[0, 2], [2, 3], [4, 4], [5, 5]]);
  assert.deepEqual(judged.lines.map((one) => one.refused?.line), [undefined, undefined, 4, 5]);
  assert.deepEqual([refusedColumn(judged.at.get(4)), refusedColumn(judged.at.get(5)), incomplete(judged.at.get(4))], [1, 0, false]);
  assert.ok(incomplete(judge([line(['season', ''])]).lines[0]));
  assert.ok(!incomplete(judge([line(['layer', '0'])]).lines[0]));
  assert.equal(sheetText(rows).trim().split('\n').length, 5);
});

test('another licence of the same sheet has other answers, and a station that was not asked has nothing to change', () => {
  const rows = [line(['soil', '20'], ['fault', '500']), line(['season', '2'], ['soil', '20'], ['fault', '500'])], judged = judge(rows);
  const of = (text) => portfolio(judged, licenceOf(parsed(`station,name,seasons\n${text}\n`).lines).licence).at.get(7);
  assert.deepEqual(['7,,1', '7,,1 2', '7,,1 2 3', '7,,2'].map((text) => of(text).released), [true, true, false, true]);
  assert.deepEqual(of('7,,1 2 3').missing, [3]);
  const outside = of('8,,1');
  assert.deepEqual([outside.released, changes(outside), outside.answer], [undefined, [], undefined]);
});

test('the greatest fault current for a wire is the last at which the library finds it large enough', () => {
  const high = BY_NAME.fault.high;
  for (const [dia, most] of [[100, null], [300, high], [50, null]]) {
    const rows = [line(['dia', String(dia)])], judged = judge(rows), station = portfolio(judged, new Map()).at.get(7), to = wireTo(station);
    const small = (fault) => core.release(core.textOf([core.lineOf({ ...station.lines[0].case, fault })]), [[7, 1, 0]])[0].small_wire > 0;
    assert.ok(!small(to) && (to === high || small(to + 1)), `${dia}: ${to}`);
    if (most) assert.equal(to, most);
  }
  assert.deepEqual([100, 134, 254].map(kcmil), [155, 278, 1000]);
});

test('a caution is told of one to three rods at the perimeter, and of a wire that strands could not make', () => {
  const cautions = (...changed) => {
    const asked = portfolio(judge([line(...changed)]), new Map());
    return sentences.cautions(asked.at.get(7)).map((said) => said.slice(0, 12));
  };
  assert.deepEqual([1, 2, 3, 4, 5].map((rods) => cautions(['rods', String(rods)], ['dia', '300']).length), [1, 1, 1, 0, 0]);
  const [needed] = judge([line()]).lines.map((one) => one.row.kcmil);
  for (let dia = 50; dia <= 300; dia++) {
    const said = cautions(['dia', String(dia)], ['rods', '9']).length, own = kcmil(dia);
    assert.equal(said, own >= needed && 4 * needed > 3 * own ? 1 : 0, `${dia} of ${needed}`);
  }
});

test('every value of a curve is the answer of the library, and its runs meet at whole numbers next to each other', () => {
  const cases = expected.portfolios.slice(0, 40).flatMap(({ rows }) => rows.slice(0, 1)).map(caseOf);
  let edges = 0, all = 0;
  for (const [i, one] of cases.entries()) {
    const name = whatif.VARIED[i % whatif.VARIED.length], whole = i % 2 === 0;
    if (whatif.cannot(name, one)) continue;
    const drawn = whatif.curve(name, one, whole), { low, high } = BY_NAME[name], wide = whatif.isWide(name) && !whole;
    const [from, to] = wide ? [Math.max(low, Math.floor(one[name] / 4)), Math.min(high, Math.max(low + 1, Math.ceil(one[name] * 2.5)))] : [low, high];
    const values = drawn.points.map((point) => point.value);
    assert.ok(values.every((value, at) => Number.isInteger(value) && (!at || value > values[at - 1])), name);
    assert.deepEqual([values.find((value) => value > 0), values.at(-1), drawn.now], [Math.max(1, from), to, one[name]], name);
    if (one[name] >= from) assert.ok(values.includes(one[name]));
    for (const point of drawn.points.filter((_, at) => at % 7 === 0)) {
      const [row] = core.rows(core.textOf([core.lineOf({ ...one, ...whatif.cells(name, point.value, one), station: 1, season: 1 })]));
      assert.equal(point.verdict, row.verdict, `${name} ${point.value}`);
    }
    const changed = values.slice(1).filter((_, at) => drawn.points[at].verdict !== drawn.points[at + 1].verdict).length;
    assert.equal(drawn.runs.length, changed + 1);
    assert.deepEqual([drawn.runs[0].from, drawn.runs.at(-1).to], [values[0], values.at(-1)]);
    for (const [at, run] of drawn.runs.entries()) if (at) assert.ok(run.from - drawn.runs[at - 1].to === 1 || drawn.runs[at - 1].to === 0, name);
    edges += changed;
    assert.equal(drawn.every, values.filter((value) => value >= from).length === to - from + 1, name);
    all += drawn.every;
  }
  assert.ok(edges > 10 && all > 5, `${edges} edges, ${all} curves with every value`);
});

test('the edge of the curve of the fault current is the greatest that is safe', () => {
  let found = 0;
  const small = '7,1,400,0,0,500,500,500,70,200,1000,10,5,5,7000,500,100,0,0,0,1,60'.split(',');
  for (let soil = 100; soil <= 900; soil += 20) {
    const [one] = judge([small.with(2, String(soil))]).lines;
    if (one.headroom < 110 || one.headroom > 490) continue;
    const { runs } = whatif.curve('fault', one.case, false);
    assert.deepEqual([runs[0].to, runs[1].from], [one.headroom, one.headroom + 1], `${soil}`);
    found++;
  }
  assert.ok(found > 5, `${found} curves`);
});

test('candidates go from the least change on: a spacing wider before one that is narrower', () => {
  const of = (name) => [...kinds([caseOf(SOUND)], true).find((one) => one.name === name).candidates([caseOf(SOUND)])].map(({ lines: [one] }) => one);
  assert.deepEqual(of('spacing').slice(0, 4).map((one) => one.space), [7100, 6900, 7200, 6800]);
  assert.deepEqual(of('rods').slice(0, 2).map((one) => [one.rods, one.place]), [[5, 1], [6, 1]]);
  assert.deepEqual(of('shock').slice(0, 3).map((one) => one.shock), [490, 480, 470]);
  assert.deepEqual(of('shock').at(-1).shock, BY_NAME.shock.low);
  assert.deepEqual(of('resistivity').at(-1).layer, BY_NAME.layer.high);
});

test('what hangs on a varied input goes along with it', () => {
  const bare = caseOf(line(['layer', '0'], ['thick', '0'])), none = caseOf(line(['rods', '0'], ['rodlen', '0'], ['place', '0']));
  const { rock, rod_length: rod } = data.tried.constants, one = caseOf(line(['place', '2']));
  assert.deepEqual(whatif.cells('thick', 100, bare), { thick: 100, layer: rock });
  assert.deepEqual(whatif.cells('thick', 0, one), { thick: 0, layer: 0 });
  assert.deepEqual(whatif.cells('rods', 5, none), { rods: 5, rodlen: rod, place: 1 });
  assert.deepEqual(whatif.cells('rods', 5, one), { rods: 5, rodlen: 3000, place: 2 });
  assert.deepEqual(whatif.cells('rods', 0, one), { rods: 0, rodlen: 0, place: 0 });
  assert.deepEqual(whatif.cells('soil', 5, one), { soil: 5 });
  assert.deepEqual(['thick', 'rods', 'soil'].map((name) => whatif.alongWith(name, bare).replace('\u00a0', ' ')), ['of 2,500 Ω·m', '', '']);
  assert.equal(whatif.alongWith('rods', none).replace('\u00a0', ' '), 'of 3 m at the perimeter');
  assert.deepEqual(mapped.bothCells(['rods', 'thick'], [5, 100], { ...none, ...{ layer: 0, thick: 0 } }),
    { rods: 5, rodlen: rod, place: 1, thick: 100, layer: rock });
});

test('cells are taken line by line, the thickness after layer and soil, and none is rounded unasked', () => {
  const rows = [line(['thick', '10.25 cm'], ['soil', '400.0'], ['layer', '2.5 kΩm']), line(['season', '2'], ['fault', '3.18 kA'], ['soil', '62.5'])];
  const found = importing.imported(rows, importing.everyCell(rows), ',');
  assert.equal(found.rows[1][9], '3180');
  assert.deepEqual([found.rows[1][2], found.rows[0][4]], ['62.5', '10.25 cm']);
  const places = found.left.map(([row, column]) => [row, NAMES[column]]);
  assert.deepEqual(places.filter(([, name]) => name === 'soil' || name === 'thick'), [[0, 'thick'], [1, 'soil']]);
  assert.deepEqual([...found.made.keys()].sort(), [...new Set([...found.made.keys()])].sort());
  const left = importing.leftWords(rows, found.left);
  assert.ok(left.startsWith('left as it is: line 2, ') && left.endsWith(`; and ${found.left.length - 1} more`), left);
  assert.match(amounts.becomes('99 mm2', 'dia', { hertz: 60 }).said, /99 mm2/);
  assert.notEqual(amounts.becomes('99 mm2', 'dia', { hertz: 60 }).said, amounts.becomes('99 mm2', 'dia', { hertz: 60 }).said.replace('size', ''));
  const offered = amounts.reading(rows[1], 2, ',');
  assert.deepEqual([offered.digits, typeof offered.rounded], ['63', 'function']);
});
