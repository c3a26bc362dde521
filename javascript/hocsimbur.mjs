// The questions of the proved library in JavaScript, asked of hocsimbur.wasm, which stands beside this file.
//
// It computes and decides nothing. A sheet is a string or bytes; numbers are whole, in the units of include/hocsimbur.h; a pair is the
// lower and upper end, that is, the bounds that enclose an exact value. A question answers with its numbers, or with
// { refused: { number, line, column } } if the sheet or a list breaks a rule; line and column are 0 where there is none.
export const VERSION = '@VERSION@';
export const Verdict = Object.freeze({ safe: 1, unsafe: 2, undecided: 3 });
export const LINES = 256; // most value lines of a sheet
export const SHEET_BYTES = 65536; // most bytes of a sheet

const ENTRIES = ['version', 'rows', 'rows_at', 'summary', 'release', 'margins', 'working', 'headroom', 'fewest', 'carry', 'carry_back',
  'soil', 'split'];

// The numbers of an answer in the library's order: names of single numbers, then names of pairs, then single ones again.
const ROW = fields(['station', 'season', 'verdict', 'kcmil'],
  ['current', 'factor', 'tolerable_touch', 'tolerable_step', 'mesh', 'step', 'resistance', 'rise']);
const MARGINS = fields(['mesh', 'step']);
const WORKING = fields([], ['cs', 'root_time', 'side', 'lc', 'lr', 'lt', 'lm', 'ls', 'n', 'ki', 'kii', 'kh', 'km', 'ks', 'driven']);
const HEADROOM = fields(['fault']);
const STATION = fields(['station', 'seasons', 'safe', 'unsafe', 'undecided', 'highest_mesh_season']);
const RELEASE = fields(['station', 'released', 'missing', 'unsafe', 'undecided', 'other_yard', 'small_wire', 'fault']);
const FEWEST = fields(['lines', 'rods', 'tried']);
const SOIL = fields([], ['least', 'greatest', 'mean'], ['soil']);
const SPLIT = fields(['in_phase', 'quadrature', 'split']);

// What is lent to the library, in bytes and in this order from a place that is a multiple of 8. A sheet or a list that is longer than any
// that the library takes is handed over one byte or number too long, and refused by it.
const ROOM = { out: 65536, stations: 8 * 6 * LINES, list: 4 * (768 + 3), place: 16, sheet: SHEET_BYTES + 1 };

function fields(first, pairs = [], last = []) {
  return { first, pairs, last, numbers: first.length + 2 * pairs.length + last.length };
}

// The library from hocsimbur.wasm beside this file, from a URL, or from the bytes or the compiled module of hocsimbur.wasm.
export async function load(source = new URL('hocsimbur.wasm', import.meta.url)) {
  if (source instanceof WebAssembly.Module) return new Hocsimbur(source);
  return new Hocsimbur(await WebAssembly.compile(await bytesFrom(source)));
}

async function bytesFrom(source) {
  if (source instanceof ArrayBuffer || ArrayBuffer.isView(source)) return source;
  const url = new URL(source);
  if (url.protocol === 'file:' && globalThis.process?.versions?.node) return (await import('node:fs/promises')).readFile(url);
  const response = await fetch(url);
  if (!response.ok) throw new Error(`${url}: ${response.status} ${response.statusText}`);
  return response.arrayBuffer();
}

export class Hocsimbur {
  #module;
  #lent; // the instance that is asked, with the places in its memory

  // of the compiled module; throws an Error if that is not the library which belongs to this file
  constructor(module) {
    this.#module = module;
    this.#library();
    const found = this.version();
    if (found !== VERSION) throw new Error(`hocsimbur.mjs ${VERSION} with hocsimbur.wasm ${found}: take both from one release`);
  }

  version() {
    const number = this.#call('version');
    return `${Math.floor(number / 10000)}.${Math.floor(number / 100) % 100}.${number % 100}`;
  }

  // one row for each value line, in the sheet's order
  rows(sheet) {
    return this.#records('rows_at', ROW, [...this.#sheet(sheet), this.#library().at.out, BigInt(8 * ROW.numbers * LINES)]);
  }

  // the same as bytes: 20 numbers a row, each of eight bytes, little-endian; a refusal has no place
  rowBytes(sheet) {
    const { at, memory } = this.#library();
    const count = Number(this.#call('rows', ...this.#sheet(sheet), at.out, BigInt(8 * ROW.numbers * LINES)));
    return count < 0 ? { refused: { number: -count, line: 0, column: 0 } } : memory.slice(at.out, at.out + 8 * ROW.numbers * count);
  }

  // the stations by first appearance, and the rows
  summary(sheet) {
    const { at } = this.#library();
    const tables = [at.out, BigInt(ROW.numbers * LINES), at.stations, BigInt(STATION.numbers * LINES)];
    const stations = this.#answer('summary', [...this.#sheet(sheet), ...tables], (count) => this.#read(STATION, at.stations, count));
    if (stations.refused) return stations;
    return { stations, rows: this.#read(ROW, at.out, stations.reduce((sum, one) => sum + one.seasons, 0)) };
  }

  // for each value line by how many per mille its voltages lie above what is tolerable; negative below
  margins(sheet) {
    return this.#ofLines('margins', MARGINS, sheet);
  }

  // for each value line the quantities between it and its row
  working(sheet) {
    return this.#ofLines('working', WORKING, sheet);
  }

  // for each value line the greatest fault current in A at which it, all else equal, is answered safe; 0 where there is none
  headroom(sheet) {
    const answers = this.#ofLines('headroom', HEADROOM, sheet);
    return answers.refused ? answers : answers.map((one) => one.fault);
  }

  // which stations may be released; the licence has of each station its number, its seasons, in which seasons 1 to 4 count 1, 2, 4 and 8,
  // and its conductor's own cross-section in whole kcmil, rounded down; 0 or none stands for a solid round wire of the line's diameter
  release(sheet, licence) {
    const list = this.#list(licence.flatMap((one) => [...one, 0].slice(0, 3)), 4, 768, 0, 0xFFFFFFFF), table = [this.#library().at.out, BigInt(RELEASE.numbers * LINES)];
    const answers = this.#records('release', RELEASE, [...this.#sheet(sheet), ...list, ...table]);
    return answers.refused ? answers : answers.map((one) => ({ ...one, released: one.released === 1 }));
  }

  // the fewest lines each way, then rods, with which a square yard of this side in mm is safe, all else as in the sheet's one value line
  fewest(sheet, side) {
    const { at } = this.#library();
    whole(side, 0, 0xFFFFFFFF);
    return this.#answer('fewest', [...this.#sheet(sheet), side, at.out, BigInt(FEWEST.numbers)],
      (found) => ({ found: found === 1, ...this.#read(FEWEST, at.out, 1)[0] }));
  }

  // a sheet of the former 18 names as one of today's 22, and back; as text
  carry(sheet) {
    return this.#carried('carry', sheet);
  }

  carryBack(sheet) {
    return this.#carried('carry_back', sheet);
  }

  // the soil from four-pin readings: pairs of a distance in mm and a resistance in milliohms
  soil(readings) {
    return this.#report('soil', SOIL, this.#list(readings.flat(), 4, 128, 0, 0xFFFFFFFF));
  }

  // the split from a staged test: pairs of in-phase and quadrature part in mA, of the injected current and then of each branch
  split(parts) {
    return this.#report('split', SPLIT, this.#list(parts.flat(), 8, 34, Number.MIN_SAFE_INTEGER, Number.MAX_SAFE_INTEGER));
  }

  #ofLines(entry, shape, sheet) {
    return this.#records(entry, shape, [...this.#sheet(sheet), this.#library().at.out, BigInt(shape.numbers * LINES)]);
  }

  #report(entry, shape, list) {
    const { at } = this.#library();
    return this.#answer(entry, [...list, at.out, BigInt(shape.numbers)], () => this.#read(shape, at.out, 1)[0]);
  }

  #carried(entry, sheet) {
    const { at, memory } = this.#library();
    return this.#answer(entry, [...this.#sheet(sheet), at.out, BigInt(SHEET_BYTES)],
      (count) => new TextDecoder().decode(memory.subarray(at.out, at.out + count)));
  }

  #records(entry, shape, handed) {
    return this.#answer(entry, handed, (count) => this.#read(shape, this.#library().at.out, count));
  }

  // what an entry with a place answers: what `take` makes of its count, or the refusal
  #answer(entry, handed, take) {
    const { at, view } = this.#library();
    const count = Number(this.#call(entry, ...handed, at.place, 2n));
    return count >= 0 ? take(count) : { refused: { number: -count, line: number(view, at.place), column: number(view, at.place + 8) } };
  }

  // A call that stops leaves the instance's stack where it was: the next question gets a new instance.
  #call(entry, ...handed) {
    try {
      return this.#library().exports[`hocsimbur_${entry}`](...handed);
    } catch (stopped) {
      this.#lent = undefined;
      throw new Error(`hocsimbur_${entry} has stopped: ${stopped.message}`, { cause: stopped });
    }
  }

  #library() {
    this.#lent ??= instance(this.#module);
    return this.#lent;
  }

  // a sheet's place and length
  #sheet(sheet) {
    const { at, memory } = this.#library();
    const room = memory.subarray(at.sheet, at.sheet + ROOM.sheet);
    if (typeof sheet === 'string') {
      const { read, written } = new TextEncoder().encodeInto(sheet, room);
      return [at.sheet, BigInt(read < sheet.length ? ROOM.sheet : written)];
    }
    const bytes = sheet instanceof ArrayBuffer ? new Uint8Array(sheet) : sheet;
    if (!(bytes instanceof Uint8Array)) throw new TypeError('a sheet is a string, a Uint8Array or an ArrayBuffer');
    room.set(bytes.subarray(0, ROOM.sheet));
    return [at.sheet, BigInt(Math.min(bytes.length, ROOM.sheet))];
  }

  // a list's place and length; its numbers have `size` bytes
  #list(numbers, size, most, least, greatest) {
    const { at, view } = this.#library();
    numbers.forEach((one) => whole(one, least, greatest));
    const handed = numbers.slice(0, most + 1);
    handed.forEach((one, i) => {
      if (size === 8) view.setBigInt64(at.list + 8 * i, BigInt(one), true);
      else view.setUint32(at.list + 4 * i, one, true);
    });
    return [at.list, BigInt(handed.length)];
  }

  #read(shape, at, count) {
    const { view } = this.#library();
    return Array.from({ length: count }, (_, i) => {
      let next = at + 8 * shape.numbers * i;
      const take = () => number(view, (next += 8) - 8);
      const one = {};
      for (const name of shape.first) one[name] = take();
      for (const name of shape.pairs) one[name] = { lower: take(), upper: take() };
      for (const name of shape.last) one[name] = take();
      return one;
    });
  }
}

function instance(module) {
  const { exports } = new WebAssembly.Instance(module, {});
  const lacking = [...ENTRIES.map((entry) => `hocsimbur_${entry}`), 'memory', '__heap_base'].filter((name) => !exports[name]);
  if (lacking.length) throw new Error(`not hocsimbur.wasm: it lacks ${lacking.join(', ')}`);
  const at = {};
  let end = (exports.__heap_base.value + 7) & ~7;
  for (const [name, bytes] of Object.entries(ROOM)) {
    at[name] = end;
    end = (end + bytes + 7) & ~7;
  }
  exports.memory.grow(Math.max(0, Math.ceil((end - exports.memory.buffer.byteLength) / 65536)));
  return { exports, at, memory: new Uint8Array(exports.memory.buffer), view: new DataView(exports.memory.buffer) };
}

// a 64-bit number of the library; all of its answers are below 2^53
function number(view, at) {
  const found = view.getInt32(at + 4, true) * 4294967296 + view.getUint32(at, true);
  if (!Number.isSafeInteger(found)) throw new RangeError(`an answer of the library is not below 2^53: ${view.getBigInt64(at, true)}`);
  return found;
}

// a number that the library's type can hold; any other is an error, and is never cut
function whole(one, least, greatest) {
  if (Number.isInteger(one) && one >= least && one <= greatest) return;
  throw new RangeError(`${one} is not a whole number from ${least} to ${greatest}`);
}
