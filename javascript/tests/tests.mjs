// Tests of hocsimbur.mjs: node --test, with HOCSIMBUR_WASM the folder of the built module and ANSWERS the file of answers.py.
import assert from 'node:assert/strict';
import fs from 'node:fs';
import path from 'node:path';
import test from 'node:test';
import { pathToFileURL } from 'node:url';

const FOLDER = path.resolve(process.env.HOCSIMBUR_WASM), ROOT = path.resolve(import.meta.dirname ?? 'javascript/tests', '../..');
const { Hocsimbur, LINES, SHEET_BYTES, VERSION, Verdict, load } = await import(pathToFileURL(path.join(FOLDER, 'hocsimbur.mjs')));
const WASM = fs.readFileSync(path.join(FOLDER, 'hocsimbur.wasm'));
const SAMPLE = fs.readFileSync(path.join(ROOT, 'tests/sample.csv'));
const stored = JSON.parse(fs.readFileSync(process.env.ANSWERS, 'utf8'));
const library = await load();

const given = (one) => (one?.sheet === undefined ? one : new Uint8Array(Buffer.from(one.sheet, 'hex')));

test('every stored question is answered as by the native library', () => {
  const methods = new Set(stored.map((one) => one.method));
  const offered = Object.getOwnPropertyNames(Hocsimbur.prototype).filter((name) => name !== 'constructor' && name !== 'rowBytes');
  assert.deepEqual([...methods].sort(), offered.sort());
  for (const { method, arguments: handed, answer } of stored) {
    assert.deepEqual(library[method](...handed.map(given)), answer, `${method} ${JSON.stringify(handed).slice(0, 200)}`);
  }
  assert.ok(stored.filter((one) => one.answer.refused).length > 500 && stored.filter((one) => !one.answer.refused).length > 500);
});

test('rows as bytes are the numbers of the rows', () => {
  const bytes = library.rowBytes(SAMPLE), rows = library.rows(SAMPLE);
  const numbers = [...new BigInt64Array(bytes.buffer)].map(Number);
  assert.equal(numbers.length, 20 * rows.length);
  rows.forEach((row, i) => {
    const flat = Object.values(row).flatMap((one) => (typeof one === 'object' ? [one.lower, one.upper] : [one]));
    assert.deepEqual(numbers.slice(20 * i, 20 * i + 20), flat);
  });
  assert.deepEqual(library.rowBytes('none'), { refused: { number: 1, line: 0, column: 0 } });
});

test('a sheet is a string, bytes or a buffer, wherever its bytes stand', () => {
  const rows = library.rows(SAMPLE), shifted = new Uint8Array(SAMPLE.length + 5).subarray(3, 3 + SAMPLE.length);
  shifted.set(SAMPLE);
  assert.deepEqual(library.rows(SAMPLE.toString()), rows);
  assert.deepEqual(library.rows(shifted), rows);
  assert.deepEqual(library.rows(new Uint8Array(SAMPLE).buffer), rows);
  for (const wrong of [undefined, null, 7, [], {}, new Float64Array(3)]) assert.throws(() => library.rows(wrong), TypeError);
});

test('a sheet that is too long is refused and never cut, also between the bytes of a character', () => {
  const line = SAMPLE.toString(), starts = ['', 'x', 'xx', 'xxx', line];
  const wide = ['é', '€', '😀'].flatMap((sign) => starts.map((start) => start + sign.repeat(70000)));
  for (const text of [...wide, line.padEnd(SHEET_BYTES + 1, '\n'), `${line.padEnd(SHEET_BYTES, '\n')}é`]) {
    assert.deepEqual(library.rows(text), { refused: { number: 1, line: 0, column: 0 } });
  }
  const most = line.padEnd(SHEET_BYTES, '\n');
  assert.notDeepEqual(library.rows(most), { refused: { number: 1, line: 0, column: 0 } });
});

test('a number that the library cannot hold is an error and never cut', () => {
  for (const wrong of [-1, 4294967296, 1.5, NaN, Infinity, '7', null, undefined, 7n]) {
    assert.throws(() => library.fewest(SAMPLE, wrong), RangeError);
    assert.throws(() => library.release(SAMPLE, [[wrong, 3]]), RangeError);
    assert.throws(() => library.soil([[1000, wrong]]), RangeError);
  }
  for (const wrong of [2 ** 53, 0.5, NaN, '7', 7n]) assert.throws(() => library.split([[1000, 0], [wrong, 0]]), RangeError);
});

test('a question leaves nothing for the next', () => {
  const before = library.rows(SAMPLE);
  const kept = structuredClone(before);
  library.working(SAMPLE);
  library.rows('none');
  assert.deepEqual(before, kept);
  assert.deepEqual(library.rows(SAMPLE), kept);
});

test('after a trap the instance is thrown away', async () => {
  // 64 KiB of stack are too few for a summary: below address 0 it traps
  const short = await load(fs.readFileSync(process.env.SHORT_STACK));
  const before = short.rows(SAMPLE);
  for (let i = 0; i < 20; i++) {
    assert.throws(() => short.summary(SAMPLE), /^Error: hocsimbur_summary has stopped: /);
    assert.deepEqual(short.rows(SAMPLE), before);
  }
});

test('what is not the library is refused in words', async () => {
  const empty = Uint8Array.of(0, 97, 115, 109, 1, 0, 0, 0);
  await assert.rejects(load(empty), /^Error: not hocsimbur\.wasm: it lacks hocsimbur_version, hocsimbur_rows, /);
  await assert.rejects(load(new Uint8Array(8)), WebAssembly.CompileError);
  await assert.rejects(load(new URL('none.wasm', import.meta.url)), /ENOENT/);
  const other = fs.readFileSync(process.env.OTHER_VERSION);
  await assert.rejects(load(other), { message: `hocsimbur.mjs ${VERSION} with hocsimbur.wasm 9.9.9: take both from one release` });
});

test('load takes bytes, a module, a URL and nothing', async () => {
  const url = pathToFileURL(path.join(FOLDER, 'hocsimbur.wasm'));
  for (const source of [WASM, new Uint8Array(WASM).buffer, new WebAssembly.Module(WASM), url, url.href]) {
    assert.equal((await load(source)).version(), VERSION);
  }
  assert.equal(library.version(), VERSION);
});

test('the documentation names every question', () => {
  const [table] = fs.readFileSync(path.join(ROOT, 'docs/api.md'), 'utf8').split('## From Rattle');
  const column = table.split('\n').filter((line) => line.startsWith('| ')).map((line) => line.split(' | ')[4]).join();
  const named = [...column.matchAll(/`(\w+)\(/g)].map((found) => found[1]);
  const offered = Object.getOwnPropertyNames(Hocsimbur.prototype).filter((name) => !['constructor', 'version'].includes(name));
  assert.deepEqual(named.sort(), offered.sort());
});

// the keys of an answer, in order
const keysOf = (one) => (Array.isArray(one) ? keysOf(one[0]) : Object.keys(one));

test('the types name what is answered', () => {
  const types = fs.readFileSync(path.join(FOLDER, 'hocsimbur.d.mts'), 'utf8').replace(/\/\*\*.*?\*\//g, '');
  const body = (name) => types.match(new RegExp(`interface ${name} {\n([^}]*)}`))[1];
  const fields = (name) => [...body(name).matchAll(/^\s*(\w+): /gm)].map((found) => found[1]);
  const first = (method) => stored.find((one) => one.method === method && !one.answer.refused && (one.answer.length ?? 1) > 0).answer;
  const shapes = { Row: first('rows'), Pair: first('rows')[0].mesh, Margins: first('margins'), Working: first('working'),
    Release: first('release'), Station: first('summary').stations, Fewest: first('fewest'), Soil: first('soil'), Split: first('split') };
  for (const [name, answer] of Object.entries(shapes)) assert.deepEqual(fields(name), keysOf(answer), name);
  for (const name of Object.getOwnPropertyNames(Hocsimbur.prototype)) assert.match(types, new RegExp(`^  ${name}\\(`, 'm'));
  for (const [name, value] of Object.entries({ LINES, SHEET_BYTES })) assert.match(types, new RegExp(`const ${name}: ${value};`));
  assert.match(types, new RegExp(`Verdict: { ${Object.entries(Verdict).map(([key, value]) => `readonly ${key}: ${value}`).join('; ')} }`));
});
