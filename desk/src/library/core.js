// The proved library: every number that the page shows is an answer of hocsimbur.mjs, which asks hocsimbur.wasm. Nothing is computed here.
import { load } from '../../../target/wasm32/hocsimbur.mjs';
import { NAMES, wasmBytes } from './data.js';

let library;

export async function start() {
  library = await load(wasmBytes());
}

export const version = () => library.version();
export const rows = (text) => library.rows(text);
export const margins = (text) => library.margins(text);
export const working = (text) => library.working(text);
export const headroom = (text) => library.headroom(text);
export const release = (text, entries) => library.release(text, entries);
export const carry = (text) => library.carry(text);
export const soil = (readings) => library.soil(readings);
export const split = (parts) => library.split(parts);
export const fewest = (text, side) => library.fewest(text, side);

// a sheet of lines, and a line of a case
const header = NAMES.join(',');
export const textOf = (lines) => `${[header, ...lines].join('\n')}\n`;
export const lineOf = (one) => NAMES.map((name) => one[name]).join(',');
