// The heads of columns as `import` reads them: soil, Soil, 'soil [ohm m]', 'Fault current (kA)'; a title may stand above them, and a column
// may have the names of stations.
import { NAMES, data, fill } from '../library/data.js';
import { nearest } from '../words/near.js';
import { listed } from '../words/words.js';
import { ALLOWED, becomes, factor, plain } from './amounts.js';

const say = data.heads, KNOWN = new Set([...NAMES, ...data.former]);
const short = (text) => (text.length <= say.short ? text : `${text.slice(0, say.short)}…`);
const HEAD = /^(.*?)\s*[[(]\s*([^\])]*?)\s*[\])]$/;

// What a head says: the name of a sheet that it stands for, or '', and its unit, or ''.
export function columnOf(head) {
  const [, name, unit] = HEAD.exec(head) ?? ['', head, ''], lower = name.toLowerCase();
  if (KNOWN.has(lower) || lower === say.station_name) return { name: lower, unit };
  return { name: Object.hasOwn(say.labels, lower) ? say.labels[lower] : '', unit };
}

// The place of the line of names among the first lines: the one with the most names; below 0 where none has two.
export function headAt(lines) {
  const counts = lines.slice(0, say.most).map(({ cells }) => cells.filter((cell) => KNOWN.has(columnOf(cell).name)).length);
  return Math.max(...counts) > 1 ? counts.indexOf(Math.max(...counts)) : -1;
}

// Kinds of change with their counts, told by the first example of each.
function changes() {
  const kinds = new Map();
  return {
    add: (kind, tokens, count = 1) => kinds.set(kind, { tokens, ...kinds.get(kind), count: (kinds.get(kind)?.count ?? 0) + count }),
    told: () => [...kinds].map(([kind, { tokens, count }]) => fill(say[kind][count > 1 ? 1 : 0], { ...tokens, count })),
  };
}

// What is wrong with a head that stands for a name: it is there already, or it has a unit that its column does not have.
function wrongHead(head, { name, unit }, place, earlier) {
  if (earlier < place) return fill(say.again, { name, place: earlier });
  if (!unit || !NAMES.includes(name) || factor(name, unit, 60)) return '';
  return fill(ALLOWED[name] ? say.unit : say.no_unit, { head: short(head), unit: short(unit), name, allowed: ALLOWED[name] });
}

// What is said of names that are not there, and of columns that may be meant for them.
function missingWords(line, missing, others, more) {
  const said = others.map(([head, place]) => {
    const near = nearest(head.toLowerCase(), missing);
    return fill(near ? say.near : say.unknown, { line, place, head: short(head), near });
  });
  return [...said, `${line}: ${fill(say.missing, { names: `${listed(missing)} ${missing.length > 1 ? 'are' : 'is'}`, ...more })}`];
}

// The columns under a line of heads, with the lines above it: { former, names, units, told, missing, refused }, the names and units by the
// place in the text; what was changed, what is missing and what cannot be taken, in sentences.
export function columnsOf(heads, number, above) {
  const line = `line ${number}`, columns = heads.map(columnOf), names = columns.map((one) => one.name), made = changes(), refused = [];
  const former = (names.includes('ms') || names.includes('lines')) && !NAMES.every((name) => names.includes(name));
  const form = former ? data.former : NAMES, missing = form.filter((name) => !names.includes(name));
  if (above.length) made.add('title', { line: `line ${above[0].line}`, text: short(above[0].cells.join(' ').trim()) }, above.length);
  columns.forEach((column, i) => {
    const { name, unit } = column, head = heads[i], said = name ? wrongHead(head, column, i + 1, names.indexOf(name) + 1) : '';
    if (said) refused.push(`${fill(say.where, { line, name, place: i + 1 })}: ${said}`);
    else if (name && name !== head) {
      made.add(head.toLowerCase() === name ? 'lower' : 'read', { made: `${head} is ${name}${unit ? ` in ${unit}` : ''}` });
    }
  });
  const taken = (name) => form.includes(name) || name === say.station_name;
  const others = heads.map((head, i) => [head, i + 1]).filter(([head, place]) => head && !taken(names[place - 1]));
  const count = names.filter((name) => form.includes(name)).length;
  const gone = missing.length ? missingWords(line, missing, others, { count, form: form.length }) : [];
  const told = made.told(), at = names.indexOf(say.station_name) + 1, left = changes();
  if (!missing.length && at) told.push(fill(say.called, { place: at }));
  if (!missing.length) others.forEach(([head, place]) => left.add('left_out', { place, head: short(head) }));
  return {
    former, names: names.map((name) => (taken(name) ? name : '')), units: columns.map((one) => (taken(one.name) ? one.unit : '')),
    told: [...told, ...left.told()], missing: gone, refused,
  };
}

// The names of stations by a column of them: { called, refused }, a map by the number, and what is said where a station has two names.
export function calledOf(lines, names, sign) {
  const called = new Map(), refused = [], at = names.indexOf(say.station_name), of = names.indexOf('station');
  for (const { cells, line } of at < 0 || of < 0 ? [] : lines) {
    const text = cells[of] ?? '', found = plain(text) ? { digits: text } : text ? becomes(text, 'station', { sign }) : {}, name = cells[at];
    if (!found.digits || found.rounded || name === undefined) continue;
    const station = Number(found.digits), other = called.get(station);
    if (other === undefined) called.set(station, name);
    else if (other !== name) {
      const where = fill(say.where, { line: `line ${line}`, name: say.station_name, place: at + 1 });
      refused.push(`${where}: ${fill(say.named, { station, name: short(name), other: short(other) })}`);
    }
  }
  return { called, refused };
}
