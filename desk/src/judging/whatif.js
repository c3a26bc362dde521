// One input of a line varied: the values that are asked, and what the library answers of each. A curve is one call, its edges two or three.
import { BY_NAME, data } from '../library/data.js';
import * as core from '../library/core.js';
import { against } from './judging.js';

const { rod_length: ROD, rock: ROCK } = data.tried.constants;
const WIDE = ['fault', 'soil', 'layer', 'shock', 'clear']; // ranges of which the neighbourhood is shown first
const ALL = 254, VALUES = 201, MOST_ROUNDS = 6; // up to so many values all are asked, of more a spread

export const VARIED = ['fault', 'split', 'xr', 'soil', 'layer', 'thick', 'shock', 'clear', 'across', 'along', 'space', 'depth', 'dia',
  'rods', 'rodlen'];
export const isWide = (name) => WIDE.includes(name);

// Why an input of a line cannot be varied; '' where it can.
export function cannot(name, one) {
  if (name === 'layer' && !one.thick) return 'the soil is bare: vary the thickness first';
  if (name === 'rodlen' && !one.rods) return 'there are no rods: vary their count first';
  return '';
}

// The cells that a value sets: layer and thick, or rods, rodlen and place, go together.
export function cells(name, value, one) {
  if (name === 'thick') return value ? { thick: value, layer: one.layer || ROCK } : { thick: 0, layer: 0 };
  if (name === 'rods') return value ? { rods: value, rodlen: one.rodlen || ROD, place: one.place || 1 } : { rods: 0, rodlen: 0, place: 0 };
  return { [name]: value };
}

// What goes along with a varied input, in words; '' where nothing does.
export function alongWith(name, one) {
  if (name === 'thick' && !one.thick) return `of ${ROCK.toLocaleString('en')}\u00a0Ω·m`;
  if (name === 'rods' && !one.rods) return `of ${ROD / 1000}\u00a0m at the perimeter`;
  return '';
}

export function domain(name, one, whole) {
  const { low, high } = BY_NAME[name], now = one[name];
  if (whole || !isWide(name)) return [low, high];
  return [Math.max(low, Math.floor(now / 4)), Math.min(high, Math.max(low + 1, Math.ceil(now * 2.5)))];
}

function spread(low, high, log) {
  const found = new Set();
  if (high - low < ALL) for (let value = low; value <= high; value++) found.add(value);
  else for (let i = 0; i < VALUES; i++) {
    const part = i / (VALUES - 1);
    found.add(Math.round(log ? low * (high / low) ** part : low + (high - low) * part));
  }
  return found;
}

function asked(name, one, values) {
  const text = core.textOf(values.map((value, i) => core.lineOf({ ...one, ...cells(name, value, one), station: i + 1, season: 1 })));
  const rows = core.rows(text);
  if (rows.refused) return [];
  const margins = core.margins(text);
  return values.map((value, i) => ({ value, verdict: rows[i].verdict, kcmil: rows[i].kcmil, ...against(rows[i], margins[i]) }));
}

// Neighbours of which the verdicts differ are asked between, until they are whole numbers next to each other.
function edges(name, one, points) {
  for (let round = 0; round < MOST_ROUNDS; round++) {
    const gaps = points.slice(1).map((next, i) => [points[i], next]).filter(([a, b]) => a.verdict !== b.verdict && b.value - a.value > 1);
    if (!gaps.length) break;
    const each = Math.max(1, Math.floor(data.lines / gaps.length)), more = new Set();
    for (const [a, b] of gaps.slice(0, data.lines)) {
      const between = b.value - a.value, count = Math.min(each, between - 1);
      for (let i = 1; i <= count; i++) more.add(a.value + Math.max(1, Math.floor((i * between) / (count + 1))));
    }
    const known = new Set(points.map((point) => point.value));
    points = [...points, ...asked(name, one, [...more].filter((value) => !known.has(value)))].sort((a, b) => a.value - b.value);
  }
  return points;
}

// Runs of values with one verdict: from, to, the points between them.
function runs(points) {
  const found = [];
  for (const point of points) {
    const last = found.at(-1);
    if (last && last.verdict === point.verdict) last.to = point.value;
    else found.push({ verdict: point.verdict, from: point.value, to: point.value });
  }
  return found;
}

export function curve(name, one, whole) {
  const [low, high] = domain(name, one, whole), log = whole && isWide(name);
  const values = spread(low, high, log);
  if (BY_NAME[name].also_zero && name === 'thick') values.add(0);
  if (one[name] >= low && one[name] <= high) values.add(one[name]);
  const points = edges(name, one, asked(name, one, [...values].sort((a, b) => a - b)));
  const first = points[0]?.value ?? low;
  return { name, low: first, high, log, points, every: points.length > high - low, runs: runs(points), now: one[name] };
}
