// Nanoseconds a row in one run: native, in doubles, by hocsimbur.wasm and by hocsimbur.mjs, the least of three rounds in turn.
//
//     node times.mjs target/wasm32 target/host/harness SHEET
import { execFileSync } from 'node:child_process';
import fs from 'node:fs';
import path from 'node:path';
import { pathToFileURL } from 'node:url';

const [folder, harness, sheet] = process.argv.slice(2);
const ROUNDS = 3, RUNS = 50, LINES = [1, 64, 256];
const wasm = fs.readFileSync(path.join(folder, 'hocsimbur.wasm'));
const { load } = await import(pathToFileURL(path.resolve(folder, 'hocsimbur.mjs')));
const library = await load(wasm);

// the sheet's lines one after the other, each a station of its own, as the harness times them
const [head, ...given] = fs.readFileSync(sheet, 'latin1').trimEnd().split('\n');
const station = head.split(',').indexOf('station');
function textOf(lines) {
  const made = Array.from({ length: lines }, (_, i) => given[i % given.length].split(',').with(station, i + 1).join(','));
  return Buffer.from(`${[head, ...made].join('\n')}\n`);
}

// the entry alone, on a sheet that stands in its memory
const { exports } = new WebAssembly.Instance(new WebAssembly.Module(wasm), {});
const at = (exports.__heap_base.value + 7) & ~7, out = at + 65536;
exports.memory.grow(2);

// the least of short runs, so that some meet no other work of the machine
function least(work, lines) {
  const times = Math.floor(2000 / lines) + 1;
  let best = Infinity;
  for (let run = 0; run < RUNS; run++) {
    const start = process.hrtime.bigint();
    for (let i = 0; i < times; i++) work();
    best = Math.min(best, Number(process.hrtime.bigint() - start) / times / lines);
  }
  return best;
}

const found = LINES.map(() => [Infinity, Infinity, Infinity, Infinity]);
for (let round = 0; round < ROUNDS; round++) {
  const printed = execFileSync(harness, ['time', sheet], { encoding: 'utf8' }).trimEnd().split('\n').slice(1);
  LINES.forEach((lines, i) => {
    const text = textOf(lines), bytes = BigInt(text.length);
    new Uint8Array(exports.memory.buffer).set(text, at);
    const entry = () => exports.hocsimbur_rows(at, bytes, out, 40960n), method = () => library.rows(text);
    if (entry() !== BigInt(lines) || method().length !== lines) throw new Error('the sheet is refused');
    const [, native, doubles] = printed[i].split(',').map(Number);
    const took = [native, least(entry, lines), least(method, lines), doubles];
    took.forEach((time, k) => { found[i][k] = Math.min(found[i][k], time); });
  });
}
console.log('lines,native,hocsimbur.wasm,hocsimbur.mjs,doubles');
LINES.forEach((lines, i) => console.log([lines, ...found[i].map((time) => time.toFixed(0))].join(',')));
