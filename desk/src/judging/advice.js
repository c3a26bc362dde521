// What would make a held station safe: the least single change of each kind with which the library answers every line of it safe.
// Every candidate is asked of the library, many in one sheet, from the least change on.
import { BY_NAME, data, fill } from '../library/data.js';
import * as core from '../library/core.js';
import { kinds } from './candidates.js';
import { exact, share, tenths } from '../words/decimals.js';
import { smallWires } from './judging.js';
import { columnsOf, listed, seasonsOf } from '../words/words.js';

const say = data.advised;
const alone = (cases) => core.textOf(cases.map((one, i) => core.lineOf({ ...one, station: i + 1, season: 1 })));
const allSafe = (cases) => core.rows(alone(cases)).every((row) => row.verdict === 1);

function firstSafe(candidates, size) {
  const together = Math.floor(data.lines / size);
  let part = [];
  const tried = () => {
    const rows = core.rows(alone(part.flatMap((one) => one.lines)));
    return part.find((one, i) => rows.slice(i * size, (i + 1) * size).every((row) => row.verdict === 1));
  };
  for (const one of candidates) {
    part.push(one);
    if (part.length < together) continue;
    const found = tried();
    if (found) return found;
    part = [];
  }
  return part.length ? tried() : undefined;
}

function nearest(cases) {
  const answered = core.margins(alone(cases));
  const all = cases.flatMap((one, i) => [[answered[i].mesh, 'touch', one.season], [answered[i].step, 'step', one.season]]);
  const [margin, limit, season] = all.reduce((most, one) => (one[0] > most[0] ? one : most));
  const text = fill(say.nearest, { share: share(margin), limit, season });
  return margin ? text : text.replace(fill(data.margins.below, { share: share(margin) }), data.margins.least);
}

// The metres of conductor and rods that a change adds, as the library works them.
function added(before, after) {
  const [old, new_] = core.working(alone([before[0], after[0]]));
  const said = [['conductor', 'lc'], ['rods', 'lr']].map(([name, key]) => {
    const more = new_[key].upper - old[key].upper;
    return more ? fill(more > 0 ? say.more : say.less, { length: exact(Math.abs(more), 6), name }) : '';
  }).filter(Boolean);
  return said.length ? listed(said) : '';
}

function safeChanges(cases, oneYard) {
  const found = kinds(cases, oneYard).map((kind) => {
    const best = firstSafe(kind.candidates(cases), cases.length);
    if (!best) return { kind: kind.name, words: kind.none };
    return { kind: kind.name, words: best.words, then: [nearest(best.lines), added(cases, best.lines)].filter(Boolean).join('; '),
      cases: best.lines };
  });
  return found.toSorted((one, other) => !one.cases - !other.cases);
}

function wire(cases) {
  const now = Math.min(...cases.map((one) => one.dia)), { high } = BY_NAME.dia;
  const sizes = Array.from({ length: high - now }, (_, i) => now + 1 + i);
  const small = smallWires(sizes.flatMap((dia) => cases.map((one) => ({ ...one, area: 0, dia: Math.max(one.dia, dia) }))));
  const dia = sizes.find((_, i) => !small.slice(i * cases.length, (i + 1) * cases.length).some(Boolean));
  if (!dia) return { kind: 'wire', words: say.no_wire };
  const words = fill(say.wire, { value: tenths(dia), now: tenths(now) });
  return { kind: 'wire', words, cases: cases.map((one) => ({ ...one, dia: Math.max(one.dia, dia) })) };
}

// The least cross-section that is enough in every line, where the licence has the conductor's own.
function largerWire(station) {
  const needed = Math.max(...station.lines.map((line) => line.row.kcmil));
  return { kind: 'wire', words: needed > data.most_area ? say.no_larger : fill(say.larger, { needed, now: station.area }) };
}

function yards(cases, columns) {
  const found = [{ kind: 'yard', words: fill(say.agree, { columns: columnsOf(columns) }) }], seen = new Set();
  for (const one of cases) {
    const yard = Object.fromEntries(data.yard.map((name) => [name, one[name]])), key = Object.values(yard).join();
    if (seen.has(key)) continue;
    seen.add(key);
    const agreed = cases.map((other) => ({ ...other, ...yard })), safe = allSafe(agreed);
    const words = fill(safe ? say.yards.safe : say.yards.unsafe, one);
    found.push(safe ? { kind: 'yard', words, then: nearest(agreed), cases: agreed } : { kind: 'yard', words });
  }
  return found;
}

function missing(seasons) {
  return { kind: 'missing', words: fill(say.missing[seasons.length > 1 ? 1 : 0], { seasons: seasonsOf(seasons) }), seasons };
}

// What to change of a held station; nothing for a released one.
export function changes(station) {
  if (station.released !== false) return [];
  const cases = station.lines.map((line) => line.case), found = [];
  for (const reason of station.reasons) {
    if (reason.kind === 'missing') found.push(missing(reason.seasons));
    if (reason.kind === 'yard') found.push(...yards(cases, reason.columns));
    if (reason.kind === 'wire') found.push(station.area ? largerWire(station) : wire(cases));
  }
  if (station.answer.unsafe || station.answer.undecided) found.push(...safeChanges(cases, !station.answer.other_yard));
  return found;
}
