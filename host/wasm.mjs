// Asks the program of wasm.c: node wasm.mjs PROGRAM.wasm SHEET, where the sheet's lines are unsafe and safe in turn, as in the sample
import assert from 'node:assert/strict';
import fs from 'node:fs';

const [program, path] = process.argv.slice(2), sheet = fs.readFileSync(path);
const { exports } = new WebAssembly.Instance(new WebAssembly.Module(fs.readFileSync(program)), {});
const ask = (bytes) => {
  new Uint8Array(exports.memory.buffer, exports.lent(), bytes.length).set(bytes);
  return exports.answer(bytes.length);
};
assert.equal(ask(sheet), 2n);
assert.deepEqual([exports.verdict(0), exports.verdict(1)], [2n, 1n]);
assert.deepEqual([exports.line(), exports.column()], [0n, 0n]);
assert.equal(ask(Buffer.from(sheet.toString().replace(/,60\n$/, ',61\n'))), -5n);
assert.deepEqual([exports.line(), exports.column()], [3n, 22n]);
console.log('targets: a program in C for wasm32, by the archive: verdicts and the place of a refusal are right');
