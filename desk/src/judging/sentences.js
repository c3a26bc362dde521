// The sentences about a station in the product's words: its decision, reasons, greatest fault current, differences and cautions.
import { data, fill } from '../library/data.js';
import { ends, grouped, tenths } from '../words/decimals.js';
import { kcmil, wireTo } from './stations.js';
import { outsideWords } from './totals.js';
import { above, columnsOf, listed, margin, overlapping, seasonsOf } from '../words/words.js';

// What a conductor needs and has: of two templates the one for a solid round of the diameter, or for the licence's own area.
export const sizeWords = ([solid, own], size) => fill(size.solid ? solid : own, { needed: grouped(size.needed),
  diameter: tenths(size.diameter), own: grouped(size.own) });

// A reason to hold: what it is, and its detail or ''.
export function told(reason) {
  const { season, compared, seasons } = reason, say = data.told;
  if (reason.kind === 'unsafe') return [fill(say.unsafe, { season }), listed(compared.map(above))];
  if (reason.kind === 'undecided') return [fill(say.undecided, { season }), listed(compared.map(overlapping))];
  if (reason.kind === 'missing' && reason.noLine) return [say.missing[0], ''];
  if (reason.kind === 'missing') return [fill(say.missing[seasons.length > 1 ? 2 : 1], { list: listed(seasons) }), ''];
  if (reason.kind === 'yard') return [say.yard, columnsOf(reason.columns)];
  return [say.wire[0], sizeWords(say.wire.slice(1), reason.size)];
}

// The decision as its first word and the rest; of a station that was not asked, why.
export function decision(station, unread) {
  if (station.released === undefined) {
    const { refused } = station, of = (lines) => listed(lines.map((line) => `line ${line.number}`));
    if (refused.length) return ['Not asked:', `${of(refused)} of this station ${refused.length > 1 ? 'are' : 'is'} refused.`];
    if (unread.length) return ['Not asked:', `the station of ${of(unread)} cannot be read, and might be this one.`];
    if (station.outside) return ['Not asked:', station.byLicence ? 'no season is ticked.' : outsideWords([station.station])];
    return ['Not asked:', 'there is no line.'];
  }
  if (!station.released) return ['Held:',
    `${station.reasons.map(told).map(([head, detail]) => head + (detail ? ` (${detail})` : '')).join('; ')}.`];
  const { nearest, row } = station.worst;
  const template = data.released[station.byLicence ? 'True' : 'False'][station.seasons.length - 1];
  return ['Released:', fill(template, { limit: nearest.limit, season: row.season, margin: margin(nearest) })];
}

export function now(station) {
  const most = Math.max(...station.lines.map((line) => line.case.fault));
  return fill(station.differs.includes('fault') ? data.current.now_up_to : data.current.now, { fault: grouped(most) });
}

const MOST = data.names.find((one) => one.name === 'fault').high;

export function greatest(station) {
  const [none, plain, atMost, end, atMostEnd] = data.current.short, gone = station.missing.length;
  if (station.fault === 0) return none;
  const template = station.fault === MOST ? (gone ? atMostEnd : end) : gone ? atMost : plain;
  return fill(template, { fault: grouped(station.fault) });
}

function current(station) {
  const say = data.current, wire = wireTo(station);
  const template = station.fault === 0 ? say.none : station.fault === MOST ? (station.missing.length ? say.most_where : say.most)
    : station.missing.length ? say.at_most : say.to;
  const by = seasonsOf(station.lines.filter((line) => line.headroom === station.fault).map((line) => line.row.season));
  const said = fill(template, { by, now: now(station), fault: `${grouped(station.fault)}\u00a0A` });
  return wire < station.fault ? said.slice(0, -1) + fill(say.tail, { wire: grouped(wire) }) + '.' : said;
}

function differences(station) {
  const { lines, differs } = station, gone = station.missing.length ? 1 : 0, say = data.differences;
  if (lines.length < 2) return '';
  if (!differs.length) return say.none[gone];
  if (differs.length === 1 && differs[0] === 'soil') {
    const driest = Math.max(...lines.map((line) => line.case.soil));
    const by = seasonsOf(lines.filter((line) => line.case.soil === driest).map((line) => line.row.season));
    return fill(say.soil[gone], { by, soil: grouped(driest) });
  }
  return fill((differs.includes('soil') ? say.also : say.other)[gone], { columns: columnsOf(differs) });
}

function outside(station) {
  const seasons = station.lines.map((line) => line.row.season).filter((season) => !station.seasons.includes(season));
  return seasons.length ? fill(data.asides.outside[seasons.length > 1 ? 1 : 0], { list: listed(seasons) }) : '';
}

function undecided(station) {
  return station.lines.flatMap((line) => line.compared.filter((one) => one.side === 'overlaps').map((one) => fill(data.asides.undecided, {
    season: line.row.season, kind: one.kind, limit: one.limit, voltage: ends(one.voltage, 3, 3), tolerable: ends(one.tolerable, 3, 3),
  })));
}

// What is told under a decision.
export function asides(station) {
  const said = [differences(station), outside(station), ...undecided(station), current(station)];
  if (!station.answer.small_wire) said.push(sizeWords(data.asides.wire, station.size));
  return said.filter(Boolean);
}

export function cautions(station) {
  const found = [];
  const few = [...new Set(station.lines.filter((line) => line.case.place === 1
    && line.case.rods < 4).map((line) => line.case.rods))].sort();
  if (few.length) found.push(fill(data.asides.few, { rods: listed(few) + (few.length === 1 && few[0] === 1 ? ' rod' : ' rods') }));
  const close = (line) => !line.area && !line.small && 4 * line.row.kcmil > 3 * kcmil(line.case.dia);
  if (station.lines.some(close)) found.push(data.asides.stranded);
  return found;
}
