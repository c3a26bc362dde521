// The sheet and the licence as the text of a file, which the command reads.
import { NAMES } from '../library/data.js';

const quoted = (cell) => (/[",;\n]/.test(cell) ? `"${cell.replaceAll('"', '""')}"` : cell);
const text = (lines) => `${lines.map((line) => line.map(quoted).join(',')).join('\n')}\n`;

export const sheetText = (rows) => text([NAMES, ...rows.filter((row) => row.some(Boolean))]);

// The stations with a season of their own, with their wires where one is named.
export const grantedOf = (licence) => [...licence].filter(([, one]) => one.seasons.length);
export function licenceText(licence) {
  const granted = grantedOf(licence), width = granted.some(([, one]) => one.wire) ? 4 : 3;
  const lines = granted.map(([station, one]) => [String(station), one.name, one.seasons.join(' '), one.wire]);
  return text([['station', 'name', 'seasons', 'wire'], ...lines].map((line) => line.slice(0, width)));
}

// A name as a word of a shell.
export const word = (name) => (/^[\w./-]+$/.test(name) ? name : `'${name.replaceAll("'", "'\\''")}'`);
