// The side panel of panel.c in JavaScript: node panel.mjs HOCSIMBUR.MJS SHEET
//
// The same lines and exit statuses: 0 with rows, 1 with a refusal, 2 where the sheet can't be read or the lines can't be written.
import fs from 'node:fs';
import path from 'node:path';
import { pathToFileURL } from 'node:url';

const VERDICTS = ['', 'safe', 'unsafe', 'undecided'];
const REFUSALS = [
  '',
  'the sheet is empty, too long, or its last line has no end',
  'a name is unknown, repeated or missing',
  'a value has a wrong form, is missing, or is one too many',
  'no value line, or too many',
  'a value is out of its range',
  'layer and thick disagree, or rods, rodlen and place',
  'station and season of an earlier line',
  'the buffer is too short',
];

function rowLine(row, margins) {
  const above = Math.max(margins.mesh, margins.step), tenths = Math.abs(above);
  return `station ${row.station} season ${row.season}: ${VERDICTS[row.verdict]}, ${Math.floor(tenths / 10)}.${tenths % 10} % ` +
    `${above > 0 ? 'above' : 'below'}\n`;
}

function refusalLine({ number, line, column }) {
  return `refused with ${number}${line ? `, line ${line}` : ''}${column ? `, column ${column}` : ''}: ${REFUSALS[number]}\n`;
}

try {
  const { load } = await import(pathToFileURL(path.resolve(process.argv[2])));
  const library = await load(), sheet = fs.readFileSync(process.argv[3]);
  const rows = library.rows(sheet), margins = library.margins(sheet);
  fs.writeFileSync(1, rows.refused ? refusalLine(rows.refused) : rows.map((row, i) => rowLine(row, margins[i])).join(''));
  process.exitCode = rows.refused ? 1 : 0;
} catch (error) {
  console.error(`panel: ${error.message}`);
  process.exitCode = 2;
}
