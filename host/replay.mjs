// The replay of differ.c for the WebAssembly build: node replay.mjs hocsimbur.wasm [first] < TAPE
//
// Exit status 1 and a line for each of the first disagreements; with `first` it ends at the first one. It also prints how much of its
// stack each entry took at most: what lies below the lowest byte that a call wrote stays as it was painted.
import fs from 'node:fs';

const ENTRIES = ['version', 'rows', 'rows_at', 'summary', 'release', 'margins', 'working', 'headroom', 'fewest', 'carry', 'carry_back',
  'soil', 'split'];
const BY_BYTES = ['rows', 'rows_at', 'carry', 'carry_back'], OF_LISTS = ['soil', 'split'];
const EDGE = 64, MOST_READ = 8 * 65536, MOST_WRITTEN = 4 * 65536, MOST_LICENCE = 4096;
const STACK = 262144, PAINTED = 0xA5A5A5A5; // the stack goes from its size down to 0, by --stack-first
const MEASURED = 4000; // calls whose stack is measured

const module = new WebAssembly.Module(fs.readFileSync(process.argv[2]));
if (WebAssembly.Module.imports(module).length !== 0) throw new Error('the module has imports');
const { exports: library } = new WebAssembly.Instance(module, {});

// from __heap_base on nothing is the library's
const home = {};
let end = library.__heap_base.value;
const rooms = { reading: MOST_READ, licence: MOST_LICENCE, first: MOST_WRITTEN, second: MOST_WRITTEN, place: MOST_WRITTEN };
for (const [name, bytes] of Object.entries(rooms)) {
  home[name] = (end + 63) & ~63;
  end = home[name] + bytes + 2 * EDGE + 8;
}
library.memory.grow(Math.max(0, Math.ceil((end - library.memory.buffer.byteLength) / 65536)));
const memory = new Uint8Array(library.memory.buffer);
const stack = new Uint32Array(library.memory.buffer, 0, STACK / 4);

// standard input, a stretch at a time
const held = Buffer.alloc(1 << 22);
let from = 0, to = 0;
function more() {
  held.copyWithin(0, from, to);
  to -= from;
  from = 0;
  for (;;) {
    try {
      const count = fs.readSync(0, held, to, held.length - to, null);
      to += count;
      return count > 0;
    } catch (error) {
      if (error.code !== 'EAGAIN') throw error;
    }
  }
}
function take(bytes) {
  while (to - from < bytes) if (!more()) throw new Error('a tape that is cut off');
  from += bytes;
  return held.subarray(from - bytes, from);
}

function question() {
  const head = take(40);
  const [entry, side, shift, read, licence, first, second, place] = Array.from({ length: 8 }, (_, i) => head.readUInt32LE(4 * i));
  return { entry: ENTRIES[entry], side, shift, read, licence, first, second, place, seed: head.readBigUInt64LE(32) };
}

// byte i is the seed's bits from i % 57 on
const seeded = new Uint8Array(9), pattern = new Uint8Array(57);
function fill(at, bytes, seed) {
  new DataView(seeded.buffer).setBigUint64(0, seed, true);
  for (let i = 0; i < 57; i++) pattern[i] = (seeded[i >> 3] | (seeded[(i >> 3) + 1] << 8)) >> (i & 7);
  for (let i = 0; i < bytes; i++) memory[at + i] = pattern[i % 57];
}

// the bytes that are written of the stack, which is then painted again
function stackTaken() {
  let low = 0;
  while (low < stack.length && stack[low] === PAINTED) low++;
  stack.fill(PAINTED, low);
  return STACK - 4 * low;
}

function ask(q) {
  const bytes = BY_BYTES.includes(q.entry);
  const slice = (at, length, size) => [length === 0 && q.seed % 2n === 1n ? 0 : at, BigInt(length / size)];
  const read = slice(home.reading + EDGE + (OF_LISTS.includes(q.entry) ? 0 : q.shift), q.read, { soil: 4, split: 8 }[q.entry] ?? 1);
  const first = slice(home.first + EDGE + (bytes ? q.shift : 0), q.first, bytes ? 1 : 8);
  const place = slice(home.place + EDGE, q.place, 8);
  const call = library[`hocsimbur_${q.entry}`];
  switch (q.entry) {
    case 'version': return BigInt(call());
    case 'rows': return call(...read, ...first);
    case 'summary': return call(...read, ...first, ...slice(home.second + EDGE, q.second, 8), ...place);
    case 'release': return call(...read, ...slice(home.licence + EDGE, q.licence, 4), ...first, ...place);
    case 'fewest': return call(...read, q.side, ...first, ...place);
    default: return call(...read, ...first, ...place);
  }
}

const asked = Object.fromEntries(ENTRIES.map((entry) => [entry, 0])), deepest = { ...asked };
let count = 0, wrong = 0, refused = 0, compared = 0;
stack.fill(PAINTED);
while (to > from || more()) {
  const q = question();
  memory.set(take(q.read), home.reading + EDGE + (OF_LISTS.includes(q.entry) ? 0 : q.shift));
  memory.set(take(q.licence), home.licence + EDGE);
  const wanted = take(8).readBigInt64LE();
  const written = [[home.first, q.first], [home.second, q.second], [home.place, q.place]];
  written.forEach(([at, bytes], k) => fill(at, bytes + 2 * EDGE, BigInt.asUintN(64, q.seed + BigInt(k))));
  const got = ask(q);
  let differs = got !== wanted;
  for (const [at, bytes] of written) {
    const length = bytes + 2 * EDGE;
    differs = take(length).compare(memory.subarray(at, at + length)) !== 0 || differs;
    compared += length;
  }
  if (count < MEASURED) deepest[q.entry] = Math.max(deepest[q.entry], stackTaken());
  if (differs && wrong++ < 10) {
    console.error(`replay: question ${count}, ${q.entry}: ${got}, not ${wanted}, or other bytes`);
    if (process.argv[3] === 'first') process.exit(1);
  }
  count++;
  asked[q.entry]++;
  if (wanted < 0n) refused++;
}
const told = (numbers) => ENTRIES.map((entry) => `${entry} ${numbers[entry]}`).join(', ');
console.log(`${count} questions (${told(asked)}), ${refused} refused, ${compared} bytes compared: ${wrong} disagree`);
console.log(`most bytes of stack: ${told(deepest)}`);
process.exitCode = wrong || !count ? 1 : 0;
