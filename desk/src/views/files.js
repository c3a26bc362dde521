// Files: opened by a button or dropped on the page, saved as a download. Nothing is fetched and nothing is sent.
import { NAMES, data, samples } from '../library/data.js';
import { grouped } from '../words/decimals.js';
import { byId, download } from './dom.js';
import { anyRefused, forget, withNames } from '../sheet/granting.js';
import { everyCell, imported, leftWords } from '../sheet/importing.js';
import { isLicence, licenceOf } from '../sheet/licence.js';
import { PAST, cellsOf, parsed, sheetOf, tooMany } from '../sheet/reading.js';
import { LICENCE, change, markSaved, store, unsaved, unsavedPart } from '../sheet/store.js';
import { grantedOf, licenceText, sheetText } from '../sheet/writing.js';
import * as site from './siteview.js';

const MOST_BYTES = 8 * 1048576; // of a file; 10,000 lines have less than 2 million
export const UNNAMED = 'yards.csv'; // the file of a sheet that was never saved
let say = () => {}, opened = () => {};
export const onSay = (call) => { say = call; };
export const onOpened = (call) => { opened = call; };

// A name that is being typed in a field of the licence is taken first, as when the field is left.
const leaveField = () => { if (document.activeElement?.matches?.('input.own')) document.activeElement.blur(); };
export const unsavedWork = () => store.draft !== null || unsaved() || anyRefused() || site.unsaved();

// The sheet, and with it the licence where that is not yet in a file.
export function save() {
  leaveField();
  const { name: own, licence, licenceName, rows } = store.now, name = own || UNNAMED;
  const both = unsavedPart('licence') && grantedOf(licence).length > 0;
  download(name, sheetText(rows));
  if (both) download(licenceName, licenceText(licence));
  markSaved({ sheet: name, licence: both });
  say(both ? `${name} and ${licenceName} saved by the browser as downloads` : `${name} saved by the browser as a download`);
}

// The licence alone, which `hocsimbur release` and `report` read.
export function saveLicence() {
  leaveField();
  const { licence, licenceName } = store.now;
  if (!grantedOf(licence).length) { say(`${licenceName} was not saved: ${data.licences.no_station}`, true); return; }
  download(licenceName, licenceText(licence));
  markSaved({ licence: true });
  say(`${licenceName} saved by the browser as a download`);
}

// A text as the sheet or, where it has station, name and seasons, as the licence.
function open(found, name) {
  const { lines } = parsed(found), first = lines.find((line) => line.some(Boolean)) ?? [];
  if (isLicence(first)) {
    const { licence, refused } = licenceOf(lines);
    if (refused) return say(`${name} was not opened: ${refused}`, true);
    forget();
    change('licence opened', { licence, licenceName: name });
    markSaved({ licence: true });
    return say(`${name}: a licence of ${licence.size} stations`);
  }
  if (found.startsWith('PK') || found.includes('\0')) {
    return say(`${name} is a spreadsheet file and no text; copy its cells and paste them here, or save it as CSV`, true);
  }
  const measured = site.opened(first.map((one) => one.toLowerCase()).join(','), found);
  if (measured) return say(`${name}: ${measured}`);
  const { rows, header, told, notes, refused, units, called, sign } = sheetOf(found);
  const wide = rows.map((row) => NAMES.map((_, i) => row[i] ?? ''));
  const most = refused.join('; ') || tooMany(rows.length) || (rows.length ? '' : notes.join('; '));
  if (most) return say(`${name} was not opened: ${most}`, true);
  if (rows.some((row) => row.length > NAMES.length)) notes.push(PAST);
  if (!header) notes.push('no line of names: the columns were taken in the order of the sheet');
  const taken = imported(wide, everyCell(wide, units), sign, units), left = leftWords(wide, taken.left);
  if (left) notes.push(left);
  forget();
  // a licence belongs to its sheet: it is opened after it
  const licence = withNames(new Map(), taken.rows, called);
  change(`${name} opened`, { rows: taken.rows, made: taken.made, licence, name, licenceName: LICENCE });
  if (!notes.length && !told.length && !taken.told.length) markSaved({ sheet: name, licence: true });
  opened();
  return say([`${name}: ${wide.length} line${wide.length === 1 ? '' : 's'}`, ...told, ...taken.told, ...notes].join('; '),
    notes.length > 0);
}

export function sample() {
  const { rows } = cellsOf(samples.sheet), { licence } = licenceOf(parsed(samples.licence).lines);
  forget();
  change('sample portfolio', { rows, licence, name: 'portfolio.csv', licenceName: LICENCE });
  markSaved({ sheet: 'portfolio.csv', licence: true });
  opened();
  say(`Sample portfolio: ${rows.length} lines, and a licence of ${licence.size} stations`);
}

export function fresh() {
  forget();
  change('new sheet', { rows: [], licence: new Map(), name: '', licenceName: LICENCE });
  opened();
  say('New sheet; undo brings the former one back');
}

export function wire() {
  const input = byId('file');
  const read = async (files) => {
    const large = [...files].find((file) => file.size > MOST_BYTES);
    if (large) return say(`${large.name} was not opened: ${grouped(large.size)} bytes, at most ${grouped(MOST_BYTES)} are taken`, true);
    const found = await Promise.all([...files].map(async (file) => [await file.text(), file.name]));
    const last = ([one]) => Number(isLicence(parsed(one).lines[0] ?? [])); // licences after sheets
    for (const one of found.sort((a, b) => last(a) - last(b))) open(...one);
    return undefined;
  };
  input.addEventListener('change', async () => { await read(input.files); input.value = ''; });
  addEventListener('dragover', (event) => { event.preventDefault(); document.body.classList.add('drop'); });
  addEventListener('dragleave', (event) => { if (!event.relatedTarget) document.body.classList.remove('drop'); });
  addEventListener('drop', (event) => {
    event.preventDefault();
    document.body.classList.remove('drop');
    if (event.dataTransfer.files.length) read(event.dataTransfer.files);
  });
  addEventListener('beforeunload', (event) => {
    leaveField();
    if (unsavedWork()) event.preventDefault();
  });
}
