// The page's judging and words under node, without a browser: a thousand inputs of each kind, word for word as the command has them.
//
//     EXPECTED=.. node --test desk/tests/words.mjs     after `make desk`; EXPECTED is what desk/tests/expected.py wrote
import assert from 'node:assert/strict';
import { execFileSync } from 'node:child_process';
import { createHash } from 'node:crypto';
import fs from 'node:fs';
import test from './tested.mjs';
import { fileURLToPath } from 'node:url';

// the three parts of the built page that the modules read
const page = fs.readFileSync(new URL('../../target/desk/hocsimbur.html', import.meta.url), 'utf8');
const part = (id) => page.match(new RegExp(`<script type="[a-z/]+" id="${id}">([^]*?)</script>`))[1];
globalThis.document = { getElementById: (id) => ({ textContent: part(id) }) };

const expected = JSON.parse(fs.readFileSync(process.env.EXPECTED, 'utf8'));
const core = await import('../src/library/core.js');
const { BY_NAME, NAMES, samples } = await import('../src/library/data.js');
const decimals = await import('../src/words/decimals.js');
const { nearest } = await import('../src/words/near.js');
const words = await import('../src/words/words.js');
const { cellsOf, parsed, tooMany } = await import('../src/sheet/reading.js');
const { isBare, sheetOf } = await import('../src/sheet/reading.js');
const { whole } = await import('../src/sheet/numbers.js');
const amounts = await import('../src/sheet/amounts.js');
const { columnOf } = await import('../src/sheet/heads.js');
const importing = await import('../src/sheet/importing.js');
const { isLicence, licenceOf } = await import('../src/sheet/licence.js');
const granting = await import('../src/sheet/granting.js');
const store = await import('../src/sheet/store.js');
const { sha256 } = await import('../src/sheet/digest.js');
const { licenceText, sheetText, word } = await import('../src/sheet/writing.js');
const { judge } = await import('../src/judging/judging.js');
const { portfolio } = await import('../src/judging/stations.js');
const sentences = await import('../src/judging/sentences.js');
const { notes, outsideWords, totals } = await import('../src/judging/totals.js');
const { changes } = await import('../src/judging/advice.js');
const site = await import('../src/judging/site.js');
const mapped = await import('../src/judging/map.js');
const { VARIED } = await import('../src/judging/whatif.js');
await core.start();

test('decimals are rounded outward alike', () => {
  for (const [lower, upper, scale, places, ends, exact, grouped] of expected.shown) {
    assert.equal(decimals.ends({ lower, upper }, scale, places), ends);
    assert.equal(decimals.exact(lower, scale), exact);
    assert.equal(decimals.grouped(upper), grouped);
  }
  for (const [number, share] of expected.shares) assert.equal(decimals.share(number), share);
});

test('a cell becomes the same whole number, or none', () => {
  let made = 0;
  for (const [text, sign, number] of expected.mended) {
    const found = whole(text, sign), digits = /^(0|[1-9]\d*)?$/.test(found) ? found : null;
    assert.equal(digits, number, JSON.stringify([text, sign]));
    made += number !== null;
  }
  assert.ok(made > 200 && made < 900, `${made} are whole numbers`);
});

test('more lines than the page takes are refused in words', () => {
  assert.equal(tooMany(10000), '');
  assert.equal(tooMany(10001), '10,001 lines of values, at most 10,000 are taken; split it into several');
});

test('a text becomes cells under their own names', () => {
  const names = samples.sheet.split('\n')[0].split(','), [, first] = samples.sheet.split('\n'), values = first.split(',');
  const turned = [names.toReversed().map((name) => name.toUpperCase()), values.toReversed()].map((line) => line.join('\t')).join('\r\n');
  assert.deepEqual(cellsOf(turned), { rows: [values], header: true, notes: [], sign: '\t' });
  assert.deepEqual(cellsOf(`${values.join(';')}\n\n`), { rows: [values], header: false, notes: [], sign: ';' });
  assert.deepEqual(cellsOf(`${names}\n`), { rows: [], header: true, notes: ['the sheet has names but no line of values'], sign: ',' });
  assert.deepEqual(cellsOf(' \n'), { rows: [], header: false, notes: ['the sheet has names but no line of values'], sign: '\t' });
  const { rows, notes } = cellsOf(`${names.with(2, 'sol')}\n${values}\n`);
  assert.deepEqual([rows[0][2], rows[0][3], notes.length], ['', values[3], 2]);
  assert.match(notes[0], /^'sol'/);
  const former = fs.readFileSync(new URL('../../examples/refused-2-ms.csv', import.meta.url), 'utf8');
  assert.deepEqual(cellsOf(former).notes, ['a sheet of the former 18 names: the library made today’s of it']);
  assert.equal(cellsOf(former).rows[0].length, names.length);
  const [spoilt] = cellsOf(former.replace(/\d+\n$/, 'x\n')).notes;
  assert.equal(spoilt, 'a sheet of the former 18 names, and refused: number 3, line 3, column 18');
});

test('a cell that may be two numbers is refused in the same words', () => {
  assert.ok(expected.ambiguous.length > 20);
  for (const [text, said] of expected.ambiguous) {
    const { lines } = judge([['7', '1', text, ...expected.refused[0][0][0].slice(3)]]);
    assert.equal(words.refusal(lines[0], lines), said);
  }
});

test('every refusal has the same words, at the same line and column', () => {
  let count = 0;
  const seen = new Set();
  for (const [rows, refusals] of expected.refused) {
    const judged = judge(rows);
    const said = (line) => `${words.refusedPlace(line)}: ${words.refusal(line, judged.lines)}`;
    const found = judged.lines.filter((line) => line.refused)
      .map((line) => [line.refused.number, line.number, line.refused.column, said(line)]);
    assert.deepEqual(found, refusals);
    count += found.length;
    found.forEach(([number]) => seen.add(number));
  }
  assert.ok(count > 500, `${count} refusals`);
  assert.deepEqual([...seen].sort(), [3, 5, 6, 7]);
});

// a terminal has plain spaces between a number and its unit where the page has those that do not break
const plain = (text) => text.replaceAll('\u00a0', ' ');
const changeWords = ({ kind, words: said, then }) => plain(`${kind}: ${said}${then ? `${kind === 'yard' ? ', ' : '; '}${then}` : ''}`);

// the stations of a licence's text, their numbers shifted
const licenceMap = (text, shift = 0) => new Map(
  (text ? [...licenceOf(parsed(text).lines).licence] : []).map(([station, granted]) => [station + shift, granted]),
);
// all that is said of a station
const saidOf = (asked, number) => {
  const one = asked.at.get(number);
  return {
    station: number, decision: sentences.decision(one, asked.unread), asides: sentences.asides(one), cautions: sentences.cautions(one),
    greatest: sentences.greatest(one), now: sentences.now(one), changes: changes(one).map(changeWords),
  };
};

test('lines and stations are told alike: verdicts, margins, decisions, asides, cautions and what to change', () => {
  let released = 0, held = 0, changed = 0, thin = 0, outside = 0;
  for (const { rows, licence, lines, stations, absent, totals: counts, notes: told, others } of expected.portfolios) {
    judge(rows); // what is known of a line without the licence's wires is not taken for what it is with them
    const granted = licenceMap(licence), judged = judge(rows, granted);
    assert.deepEqual(judged.lines.map((line) => [words.verdict(line), words.margin(line.nearest), line.nearest.limit, line.row.kcmil,
      line.headroom, line.small]), lines);
    const asked = portfolio(judged, granted);
    const said = totals(asked);
    assert.equal(`${said.stations} ${said.released}, ${said.held}. ${said.lines}; ${said.missing}`, counts);
    assert.deepEqual([notes(asked), said.open], [told, 0]);
    assert.deepEqual(asked.stations.filter((one) => one.outside).map((one) => one.station), others);
    for (const number of others) {
      assert.equal(asked.at.get(number).answer, undefined);
      assert.deepEqual(sentences.decision(asked.at.get(number), []), ['Not asked:', outsideWords([number])]);
      outside++;
    }
    for (const [station, decision] of absent) assert.deepEqual(sentences.decision(asked.at.get(station), asked.unread), decision);
    for (const wanted of stations) {
      const one = asked.at.get(wanted.station), found = saidOf(asked, wanted.station);
      assert.deepEqual(found, { ...wanted, changes: wanted.changes.map(plain) });
      if (one.released) released++;
      else held++;
      changed += found.changes.length;
      if (one.area && one.lines.some((line) => line.small)) thin++;
    }
  }
  assert.ok(released > 50 && held > 150 && changed > 700, `${released} released, ${held} held, ${changed} changes`);
  assert.ok(thin > 20, `${thin} stations with a wire of the licence that is too small`);
  assert.ok(outside > 50, `${outside} stations outside the licence`);
});

test('stations outside the licence are named, and beyond some counted', () => {
  for (const [numbers, said] of expected.outside) assert.equal(outsideWords(numbers), said);
});

test('any number of lines is judged as few are, in sheets of whole stations', () => {
  const rows = [], licence = new Map(), wanted = [];
  expected.portfolios.filter((one) => one.licence).forEach((one, i) => {
    rows.push(...one.rows.map(([station, ...rest]) => [String(Number(station) + 10 * i), ...rest]));
    for (const [station, granted] of licenceMap(one.licence, 10 * i)) licence.set(station, granted);
    wanted.push(...one.stations.map((said) => ({ ...said, station: said.station + 10 * i, changes: said.changes.map(plain) })));
  });
  const judged = judge(rows, licence), asked = portfolio(judged, licence), places = new Map();
  assert.ok(rows.length > 900 && judged.sheets.length > 3 && judged.lines.every((line) => !line.refused));
  for (const [place, { text, stations }] of judged.sheets.entries()) {
    assert.ok(text.split('\n').length - 2 <= 256);
    for (const station of stations) assert.ok(!places.has(station) && places.set(station, place));
  }
  for (const one of wanted) assert.deepEqual(saidOf(asked, one.station), one);
  for (const [number, { byLicence }] of licence) assert.ok(asked.at.get(number).released !== undefined && byLicence, `station ${number}`);
});

test('a station with more lines than a sheet takes keeps its first of each season', () => {
  const [row] = expected.portfolios[0].rows;
  const rows = Array.from({ length: 700 }, (_, i) => ['7', String(1 + (i >> 1) % 4), ...row.slice(2)]);
  const judged = judge(rows), kept = judged.lines.filter((line) => !line.refused);
  assert.deepEqual(kept.map((line) => line.number), [2, 4, 6, 8]);
  assert.ok(judged.lines.every((line) => !line.refused || line.refused.number === 7));
  const said = words.refusal(judged.lines[699], judged.lines);
  assert.equal(said, 'station 7, season 2 stands already in line 4; a station has one line for a season');
});

test('a station is not released while one of its lines is refused, nor any while the station of a refused line cannot be read', () => {
  // 500 stations whose lines stand far apart: all season 1, then all season 2 and so on; station 1 has one season
  const rest = '100,2500,102,500,500,1000,70,500,420,14,12,12,6000,600,134,24,3000,1,2,60'.split(','), rows = [];
  for (const season of '1234') {
    for (let station = season === '1' ? 1 : 2; station <= 500; station++) rows.push([String(station), season, ...rest]);
  }
  const licence = new Map(Array.from({ length: 500 }, (_, i) =>
    [i + 1, { name: '', seasons: i ? [1, 2, 3, 4] : [1], wire: '', area: 0, byLicence: true }]));
  const held = (all) => {
    const asked = portfolio(judge(all, licence), licence);
    for (const one of asked.stations) assert.equal(sentences.decision(one, asked.unread)[0] === 'Released:', Boolean(one.released));
    return asked.stations.filter((one) => !one.released).map((one) => one.station);
  };
  assert.deepEqual(held(rows), []);
  const spoilt = rows.map((row) => (row[1] === '4' && Number(row[0]) % 100 === 0 ? row.with(2, 'x') : row));
  assert.deepEqual(held(spoilt), [100, 200, 300, 400, 500]);
  assert.deepEqual(held([...rows, rows[6]]), [7]);
  for (const station of ['', '7.0', '07', 'x']) assert.equal(held([...rows, [station, '1', ...rest]]).length, 500);
  assert.deepEqual(held(rows.with(-1, rows.at(-1).with(14, '7000'))), [500]); // another yard in its last line
});

test('a map over two inputs has the answer of each yard by itself, and the number of the rule that one breaks', () => {
  const pairs = VARIED.flatMap((right) => VARIED.filter((down) => down !== right).map((down) => [right, down])), seen = new Set();
  const lines = expected.portfolios.slice(0, pairs.length).flatMap(({ rows }) => judge(rows).lines);
  for (const [i, names] of pairs.entries()) {
    const one = lines[i % lines.length].case, most = 8 + (i % 17), why = mapped.cannotBoth(names, one);
    const bare = (name, other, hangs) => names.includes(name) && !names.includes(other) && !one[hangs];
    assert.equal(Boolean(why), bare('layer', 'thick', 'thick') || bare('rodlen', 'rods', 'rods'), `${names}`);
    const { right, down, yards } = mapped.map(names, one, i % 2 === 0, most);
    assert.ok(right.length <= most && down.length <= 16 && right.length > 3 && down.length > 4, `${names} ${right} ${down}`);
    for (const [place, values] of [right, down].entries()) {
      const { low, high, also_zero: zero } = BY_NAME[names[place]];
      assert.ok(values.includes(one[names[place]]) && values.every((value, at) => Number.isInteger(value) && (at === 0 || value > values[at - 1])));
      assert.ok(values.every((value) => (value >= low && value <= high) || (zero && value === 0)), `${names[place]} ${values}`);
    }
    assert.deepEqual(yards.map((yard) => yard.pair), down.flatMap((y) => right.map((x) => [x, y])));
    assert.deepEqual(yards.filter((yard) => yard.now).map((yard) => yard.pair), [names.map((name) => one[name])]);
    for (const yard of yards) {
      const made = { ...one, ...mapped.bothCells(names, yard.pair, one) }, answer = core.rows(core.textOf([core.lineOf(made)]));
      assert.deepEqual(names.map((name) => made[name]), yard.pair);
      assert.deepEqual([yard.refused, yard.verdict], [answer.refused?.number, answer.refused ? undefined : answer[0].verdict]);
      seen.add(yard.refused ? `refused ${yard.refused}` : yard.verdict);
    }
  }
  assert.deepEqual([...seen].sort(), [1, 2, 'refused 6']);
});

test('a text has the SHA-256 that others find', () => {
  for (let length = 0; length < 300; length++) {
    const text = 'aé€\n'.repeat(length).slice(0, length);
    assert.equal(sha256(text), createHash('sha256').update(text).digest('hex'));
  }
  assert.equal(sha256('x'.repeat(1000003)), createHash('sha256').update('x'.repeat(1000003)).digest('hex'));
});

test('a sheet and a licence are written as they are read, and a name is one word of a shell', () => {
  const rows = [['7', '1', 'a,b', 'say "so"', ...Array(18).fill('')], Array(22).fill('')];
  assert.deepEqual(parsed(sheetText(rows)).lines.slice(1, 2), rows.slice(0, 1));
  for (const [text] of expected.licences) {
    const { licence } = licenceOf(parsed(text).lines);
    if (licence) assert.deepEqual(licenceOf(parsed(licenceText(licence)).lines).licence, licence);
  }
  for (const name of ['a.csv', 'a b.csv', "it's $HOME.csv", '`x`;y', '-']) {
    assert.equal(execFileSync('sh', ['-c', `printf %s ${word(name)}`], { encoding: 'utf8' }), name);
  }
});

test('a licence is read or refused in the same words', () => {
  let refused = 0;
  for (const [text, wanted] of expected.licences) {
    const { lines } = parsed(text);
    assert.ok(isLicence(lines[0]), text);
    const found = licenceOf(lines);
    const stations = () => [...found.licence].map(([station, { name, seasons, wire, area }]) => [station, name, seasons, wire, area]);
    assert.deepEqual(found.refused ?? stations(), wanted, text);
    refused += Boolean(found.refused);
  }
  assert.ok(refused > 200 && refused < expected.licences.length - 200, `${refused} refused`);
});

test('a cell with a unit or decimals becomes what import makes of it, is rounded as by --round cautious, or is refused in its words', () => {
  const counts = { plain: 0, made: 0, rounded: 0, refused: 0 }, kinds = new Set();
  for (const [text, name, line, wanted, cautious] of expected.cells) {
    const where = `line 2, ${name}`, about = `${text} in ${name}: ${JSON.stringify(line)}`;
    if (/^(0|[1-9]\d*)$/.test(text)) { counts.plain++; continue; }
    const found = amounts.becomes(text, name, line);
    if (found.rounded) {
      assert.equal(`${found.said}, or give --round cautious`, wanted, about);
      assert.deepEqual([found.digits, [found.rounded(where)]], [cautious[0], cautious[2]], about);
      assert.ok(cautious[2][0].endsWith(`: ${found.why}`));
      counts.rounded++;
    } else if (found.digits) {
      const note = found.wire ? [amounts.wireNote(found.wire)] : [];
      assert.deepEqual([found.digits, [amounts.changeWords(found.change, where)], note], wanted, about);
      assert.deepEqual(cautious, wanted);
      kinds.add(found.change.kind);
      counts.made++;
    } else {
      assert.deepEqual([found.said, found.said], [wanted, cautious], about);
      counts.refused++;
    }
  }
  assert.ok(counts.made > 200 && counts.rounded > 200 && counts.refused > 500, JSON.stringify(counts));
  assert.deepEqual([...kinds].sort(), ['away', 'digits', 'made', 'wire']);
});

test('lines with units become the sheet that import makes of them, and all changes are told alike', () => {
  let told = 0;
  for (const [rows, sheet, said] of expected.imports) {
    const found = importing.imported(rows, importing.everyCell(rows), ',');
    assert.deepEqual([found.rows, found.told, found.left], [sheet, said, []]);
    assert.equal(found.made.size, rows.flat().filter((text, i) => text !== sheet.flat()[i]).length);
    told += said.length;
  }
  assert.ok(told > 500, `${told} sentences`);
});

test('the name that a wrong one is meant for is the one that the command names', () => {
  let found = 0;
  for (const [word, others, wanted] of expected.near) {
    assert.equal(nearest(word, others), wanted, `${word} of ${others}`);
    found += Boolean(wanted);
  }
  assert.ok(found > 400 && found < 990, `${found} are near`);
});

// what the page makes of a text, and what it says of it as `import` does: of a cell with the line and column of the text
function taken(text, above) {
  const found = sheetOf(text), { rows, units, sign } = found, after = importing.imported(rows, importing.everyCell(rows, units), sign,
    units);
  const heads = parsed(text).lines[above].map((one) => columnOf(one).name), line = (said) => said.replace(/line (\d+),/,
    (_, n) => `line ${Number(n) + above},`);
  const left = after.left.map(([row, column, said]) => {
    const offered = amounts.reading(rows[row], column, sign, units).rounded ? ', or give --round cautious' : '';
    return `line ${row + 2 + above}, ${NAMES[column]} (column ${heads.indexOf(NAMES[column]) + 1}): ${said}${offered}`;
  });
  return { ...found, after, left, all: [...found.told, ...after.told.map(line)] };
}

test('heads with units and labels, titles, other columns and names of stations are read as by import', () => {
  const counts = { made: 0, cells: 0, heads: 0, missing: 0, names: 0, left: 0 };
  for (const [text, above, inOrder, wanted] of expected.heads) {
    if (!above && isBare(parsed(text).lines[0])) { // names alone are read as ever
      const { rows, header, notes, sign } = sheetOf(text);
      assert.deepEqual({ rows, header, notes, sign }, cellsOf(text), text);
      continue;
    }
    const { refused, notes, after, left, called, all, rows, units } = taken(text, above);
    if (wanted.rows) {
      assert.deepEqual([after.rows, [...called], refused, notes, left], [wanted.rows, wanted.called, [], [], []], text);
      if (inOrder) assert.deepEqual(all, wanted.told, text);
      counts.made++;
      counts.names += called.size;
    } else if (left.length && !notes.length) {
      assert.deepEqual([...left, ...refused].sort(), wanted.refused.toSorted(), text);
      counts.cells++;
      // what is left keeps the unit of its head, so that it is read alike afterwards
      for (const [row, column] of after.left) {
        const again = amounts.reading(after.rows[row], column, ','), first = amounts.reading(rows[row], column, ',', units);
        if (first.rounded) assert.deepEqual([again.digits, again.side], [first.digits, first.side], text);
        counts.left += after.rows[row][column] !== rows[row][column];
      }
    } else {
      assert.deepEqual(notes.length ? notes : refused, wanted.refused, text);
      if (notes.length) counts.missing++;
      else counts.heads++;
    }
  }
  const least = { made: 40, cells: 80, heads: 40, missing: 40, names: 15, left: 50 };
  for (const [kind, count] of Object.entries(least)) assert.ok(counts[kind] >= count, `${JSON.stringify(counts)}`);
});

test('a title, labels and units in heads: what the page reads beyond the names alone', () => {
  const names = samples.sheet.split('\n')[0].split(','), [, first] = samples.sheet.split('\n'), values = first.split(',');
  const found = (text) => {
    const { rows, header, told, notes, refused, sign } = sheetOf(text);
    return [rows, header, told, notes, refused, sign];
  };
  assert.deepEqual(found(`${values.join(';')}\n\n`), [[values], false, [], [], [], ';']);
  assert.deepEqual(found(' \n'), [[], false, [], ['the sheet has names but no line of values'], [], '\t']);
  const titled = `Yards of 2026\n${names}\n`;
  assert.deepEqual(found(titled).slice(2, 4),
    [["1 line above the names: left out (line 1, 'Yards of 2026')"], ['the sheet has names but no line of values']]);
  assert.deepEqual(found(`${titled}${values},8\n`)[3], ['values past the last column were left out']);
  assert.deepEqual(found('soil [kohm m]\tseason\n1\t2\n')[1], true); // two names are enough
  assert.equal(sheetOf(`x\n${names}\n${names}\n${values}\n`).rows.length, 2); // of two lines of names the first counts
  assert.match(sheetOf(`sep=;\nx\n${names.with(2, 'sol').join(';')}\n${values.join(';')}\n`).notes[0], /^line 3, column 3: 'sol'/);
  assert.deepEqual(found(`${names},soil\n${values},8\n`).slice(3, 5),
    [[], ['line 1, soil (column 23): soil stands already in column 3; each name stands once']]);
  assert.deepEqual([...sheetOf(`name,${names}\nElm,${values}\n`).called], [[Number(values[0]), 'Elm']]);
  const former = fs.readFileSync(new URL('../../examples/refused-2-ms.csv', import.meta.url), 'utf8');
  assert.deepEqual(sheetOf(`Yards of 2026,,,\n${former}`).notes, ['a sheet of the former 18 names: the library made today’s of it']);
  assert.deepEqual(sheetOf(`Yards of 2026,,,\n${former}`).rows, cellsOf(former).rows);
  assert.match(sheetOf(former.replace('fault', 'fault (kA)')).notes[0], /^a sheet of the former 18 names with units in its heads: /);
  const heads = NAMES.map((name) => (name === 'soil' || name === 'layer' ? 'kohm m' : ''));
  const cells = (more) => NAMES.map((name) => more[name] ?? '');
  assert.equal(amounts.reading(cells({ thick: '4in', soil: '4', layer: '2.5' }), NAMES.indexOf('thick'), ',', heads).digits, '102');
});

test('what import would refuse or round stays as it is, and is told', () => {
  const rows = [[], ['7', '1', '187.5', '2.5kohm m', '4in', '0.5s'], ['7', '2', 'x']].map((row) => [...row, ...Array(22 - row.length).fill('')]);
  const { rows: after, told, left, made } = importing.imported(rows, importing.everyCell(rows), ',');
  assert.deepEqual(after.map((row) => row.slice(0, 6)), [Array(6).fill(''), ['7', '1', '187.5', '2500', '4in', '500'], ['7', '2', 'x', '', '', '']]);
  assert.deepEqual(told, ['1 value: kohm m made Ω·m (line 2, layer, 2.5kohm m is 2500)', '1 value: s made ms (line 2, shock, 0.5s is 500)']);
  assert.deepEqual([...made.keys()], ['1,3', '1,5']);
  assert.equal(importing.leftWords(rows, left), 'left as it is: line 2, soil: 187.5 is not a whole number of Ω·m; the cautious side is up: write 188; '
    + 'and 2 more');
});

test('a thickness is rounded only where layer and soil are known, and cycles by the frequency of the line', () => {
  const row = (more) => Object.entries(more).reduce((cells, [name, text]) => cells.with(NAMES.indexOf(name), text), SOUND);
  const SOUND = '7,1,400,2500,102,500,500,500,70,3180,600,10,11,11,7000,500,100,4,3000,1,1,60'.split(',');
  const of = (name, more) => amounts.reading(row(more), NAMES.indexOf(name));
  assert.equal(of('thick', { thick: '4in' }).digits, '101');
  assert.equal(of('thick', { thick: '4in', layer: '100' }).digits, '102');
  assert.equal(of('thick', { thick: '4in', layer: '0.1 kohm m' }).digits, '102');
  for (const more of [{ soil: '187.5' }, { soil: '' }, { layer: 'x' }]) {
    const { said, digits } = of('thick', { thick: '4in', ...more });
    assert.deepEqual([said, digits], ['4in is 101.6 mm, not a whole number of mm; the cautious side is down where the layer is more resistive than '
      + 'the soil, else up', undefined]);
  }
  assert.deepEqual(['60', '50 Hz', '50.0', ''].map((hz) => of('clear', { clear: '30 cycles', hz }).digits), ['500', '600', '600', undefined]);
  assert.equal(of('soil', { soil: '' }) ?? of('soil', {}), null);
});

test('a name or a wire that is typed goes into the licence as the command writes it, or is refused in its words', () => {
  const rows = [['7', '1', ...Array(20).fill('')]];
  for (const [field, text, refused, area, written] of expected.fields) {
    store.change('a sheet', { rows, licence: licenceMap('station,name,seasons\n7,,1 2\n') });
    granting.enter(7, field, ` ${text} `);
    const one = store.store.now.licence.get(7);
    assert.equal(granting.refusedAt(7, field)?.words ?? '', refused, text);
    assert.deepEqual([one[field], one.area], refused ? ['', 0] : [text, area]);
    if (!refused) assert.equal(licenceText(store.store.now.licence), written);
    assert.equal(granting.anyRefused(), Boolean(refused));
    granting.giveUp(7, field);
    assert.equal(granting.anyRefused(), false);
  }
});

test('the first edit of a licence asks all else as before, and each edit is one step', () => {
  const rows = ['7', '8', '8', 'x', '70000', ''].map((station) => [station, '1', ...Array(20).fill('')]);
  store.change('a sheet', { rows, licence: new Map() });
  granting.tick(8, 3, false);
  const seasons = () => [...store.store.now.licence].map(([number, one]) => [number, one.seasons.join('')]);
  assert.deepEqual(seasons(), [[7, '1234'], [8, '124']]);
  granting.tick(9, 2, true);
  assert.deepEqual(seasons(), [[7, '1234'], [8, '124'], [9, '2']]);
  assert.ok(store.unsavedPart('licence') && store.unsaved());
  store.markSaved({ sheet: 'a.csv', licence: true });
  assert.ok(!store.unsaved());
  store.undo();
  assert.deepEqual([seasons(), store.unsaved()], [[[7, '1234'], [8, '124']], true]);
  store.undo();
  assert.equal(store.store.now.licence.size, 0);
});

// What is measured: the lines of the table with the value for the column, the notes and that value; or why there is none.
const measuredAlike = (asked, wanted, least) => {
  let answered = 0;
  const refused = new Set();
  for (const [text, said] of wanted) {
    const { wrong, rows, column, notes, value, fits } = asked(text);
    assert.deepEqual(wrong ?? [[...rows.map((row) => row.filter(Boolean).join(' ')), column], notes, value], said, text);
    if (wrong) refused.add(wrong.replace(/'.*'|[\d.,\u2212+-]+/g, ''));
    else assert.equal(fits, !notes.some((note) => note.endsWith('a sheet refuses it')));
    answered += !wrong;
  }
  assert.ok(answered > least && refused.size > 4, `${answered} answered, ${refused.size} kinds of refusal`);
};

test('four-pin readings are answered as by wenner', () => {
  measuredAlike(site.soilOf, expected.soils, 200);
  assert.deepEqual(site.soilOf('Metres,Ohms\n2.5,7.3\n'), site.soilOf('2.5 7.3'));
  assert.equal(site.soilOf('1 2\nfeet,ohms').wrong, "reading 2: distance: 'feet' is no number");
  assert.equal(site.soilOf('1 2\n3').wrong, 'reading 2: 1 numbers, not two; write metres and ohms, as 2.5 7.3');
});

test('staged tests are answered as by staged', () => {
  measuredAlike(site.splitOf, expected.splits, 100);
  assert.match(site.splitOf('1 0\n1 0 0').wrong, /^branch 1: 3 numbers, not two/);
});

test('readings and currents are saved as files that wenner and staged read', () => {
  const command = (name, input) => execFileSync(fileURLToPath(new URL('../../hocsimbur', import.meta.url)), [name, '-'],
    { input, encoding: 'utf8', env: { ...process.env, PYTHONDONTWRITEBYTECODE: '1' } });
  for (const [name, asked, names, text] of [['wenner', site.soilOf, site.READINGS, ' 1  10.4\n2;4.55\n\n5, 1.62\n'],
    ['staged', site.splitOf, site.CURRENTS, 'in_phase,quadrature\n1000 0\n400 -50\n']]) {
    const file = site.fileText(text, names);
    assert.equal(command(name, file).trim().split('\n').at(-1), asked(text).column);
    assert.deepEqual(asked(file), asked(text));
  }
});

test('the fewest conductors for a side are those of fewest, and the yard that is put into the sheet is safe', () => {
  let safe = 0, listed = 0;
  for (const [one, text, [said, counts, tried]] of expected.squares) {
    const answer = site.fewestOf(one, text), { wrong, words: found, cells } = answer;
    assert.equal(wrong ?? found, said);
    if (!wrong) assert.deepEqual(site.triedTable(one, answer).map((yard) => yard.map(plain)), tried);
    listed += tried.length;
    assert.deepEqual(cells ? [cells.across, cells.rods] : null, counts);
    if (!cells) continue;
    const [row] = core.rows(core.textOf([core.lineOf({ ...one, ...cells })]));
    assert.deepEqual([row.verdict, cells.space * (cells.across - 1), cells.along], [1, Math.round(Number(text) * 1000), cells.across]);
    safe++;
  }
  assert.ok(safe > 30 && listed > 1000, `${safe} yards, ${listed} tried`);
});
