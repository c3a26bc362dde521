// The licence as it is edited in the page: seasons, names and wires of stations, each edit one step that undo takes back.
import { COLUMN, SEASONS } from '../library/data.js';
import { nameRefused, wireRefused } from './licence.js';
import { change, store, touch } from './store.js';
import { areaOf } from './wires.js';

const fresh = (seasons) => ({ name: '', seasons, wire: '', area: 0, byLicence: true });

// Without a licence every station is asked for all four seasons: the first edit makes that the licence, so that no other decision changes.
function ofAll(rows) {
  const numbers = rows.map((row) => row[COLUMN.station]).filter((text) => /^[1-9]\d{0,4}$/.test(text) && Number(text) < 65536);
  return new Map([...new Set(numbers.map(Number))].map((number) => [number, fresh(SEASONS)]));
}

// A licence with the names that a column of a sheet gives its stations; what is decided stays as it was.
export function withNames(licence, rows, called) {
  const names = [...called].filter(([station, name]) => name && station > 0 && station < 65536 && !nameRefused(name));
  if (!names.length) return licence;
  const made = new Map(licence.size ? licence : ofAll(rows));
  for (const [station, name] of names) made.set(station, { ...(made.get(station) ?? fresh([])), name });
  return made;
}

// Sets what is given of a station in the licence.
export function grant(station, more) {
  const licence = new Map(store.now.licence.size ? store.now.licence : ofAll(store.now.rows));
  licence.set(station, { ...(licence.get(station) ?? fresh([])), ...more });
  change(`licence of station ${station}`, { licence });
}

export function tick(station, season, on) {
  const had = store.now.licence.size ? store.now.licence.get(station)?.seasons ?? [] : SEASONS;
  grant(station, { seasons: SEASONS.filter((other) => (other === season ? on : had.includes(other))) });
}

// What was typed as a name or a wire and is refused, by station and field: { text, words }. It stays until it is put right or given up.
const refused = new Map();
const key = (station, field) => `${station} ${field}`;
export const refusedAt = (station, field) => refused.get(key(station, field));
export const anyRefused = () => refused.size > 0;
export const forget = () => refused.clear();

export function giveUp(station, field) {
  if (refused.delete(key(station, field))) touch();
}

// A name or a wire as it is typed: taken into the licence, or refused in words.
export function enter(station, field, typed) {
  const text = typed.trim(), words = field === 'wire' ? wireRefused(text) : nameRefused(text);
  const had = store.now.licence.get(station)?.[field] ?? '';
  refused.delete(key(station, field));
  if (words) refused.set(key(station, field), { text, words });
  if (words || text === had) touch();
  else grant(station, field === 'wire' ? { wire: text, area: areaOf(text) } : { name: text });
}
