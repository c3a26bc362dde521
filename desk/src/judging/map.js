// Two inputs of a line varied at once: a grid of yards, each an answer of the library. A sheet of yards is one call; a yard that breaks a
// rule is refused by its number, left out, and the rest asked again.
import { BY_NAME, data } from '../library/data.js';
import * as core from '../library/core.js';
import { against } from './judging.js';
import { cannot, cells, domain, isWide } from './whatif.js';

export const MOST_RIGHT = 24, MOST_DOWN = 16;
const TOGETHER = [['layer', 'thick'], ['rodlen', 'rods']]; // of the first is nothing to vary while the second is 0
const SERIES = [[1, 1.2, 1.5, 2, 2.5, 3, 4, 5, 6, 8], [1, 1.5, 2, 3, 5, 7], [1, 2, 5], [1, 3], [1]]; // in each power of ten

// Why two inputs cannot be varied together; '' where they can. What hangs on an input that is varied too may be varied.
export function cannotBoth(names, one) {
  const alone = names.filter((name) => !TOGETHER.some(([first, second]) => name === first && names.includes(second)));
  return alone.map((name) => cannot(name, one)).find(Boolean) ?? '';
}

function steps(low, high, step) {
  const found = [low];
  for (let at = (Math.floor(low / step) + 1) * step; at < high; at += step) found.push(at);
  return [...found, high];
}

function powers(low, high, series) {
  const found = [low];
  for (let ten = 1; ten <= high; ten *= 10) found.push(...series.map((one) => one * ten).filter((one) => one > low && one < high));
  return [...found, high].filter(Number.isInteger);
}

// The values of an input, at most `most`: round ones over its range, both ends, 0 where the rules have it beside the range, and the
// present one.
export function valuesOf(name, one, whole, most) {
  const now = one[name], all = whole || !now, [low, high] = domain(name, one, all);
  const zero = BY_NAME[name].also_zero && TOGETHER.some((pair) => pair[1] === name) ? [0] : [];
  const made = (values) => [...new Set([...zero, ...values, now])].sort((a, b) => a - b);
  if (all && isWide(name)) return SERIES.map((series) => made(powers(low, high, series))).find((values) => values.length <= most);
  for (let ten = 1; ; ten *= 10) {
    for (const step of [ten, 2 * ten, 5 * ten]) {
      const values = (high - low) / step > most ? [] : made(steps(low, high, step));
      if (values.length && values.length <= most) return values;
    }
  }
}

// The cells that two values set together: each with what goes along with it, and the two themselves as they are.
export function bothCells([right, down], [x, y], one) {
  return { ...cells(right, x, one), ...cells(down, y, one), [right]: x, [down]: y };
}

// What the library answers of some cases that are at most a sheet: its verdict's number, or { refused }, the number of the rule.
function asked(cases) {
  const answers = new Array(cases.length);
  for (let open = cases.map((_, i) => i); open.length;) {
    const rows = core.rows(core.textOf(open.map((i, place) => core.lineOf({ ...cases[i], station: place + 1, season: 1 }))));
    if (!rows.refused) {
      open.forEach((i, place) => { answers[i] = { verdict: rows[place].verdict }; });
      break;
    }
    const at = rows.refused.line - 2;
    answers[open[at]] = { refused: rows.refused.number };
    open = open.filter((_, place) => place !== at);
  }
  return answers;
}

// { names, right, down, yards }: the values in both directions, and of each pair, row by row, the values and the answer.
export function map(names, one, whole, most = MOST_RIGHT) {
  const [right, down] = [valuesOf(names[0], one, whole, most), valuesOf(names[1], one, whole, MOST_DOWN)];
  const pairs = down.flatMap((y) => right.map((x) => [x, y])), yards = [];
  for (let first = 0; first < pairs.length; first += data.lines) {
    const part = pairs.slice(first, first + data.lines), answers = asked(part.map((pair) => ({ ...one, ...bothCells(names, pair, one) })));
    yards.push(...part.map((pair, i) => ({ pair, ...answers[i], now: pair[0] === one[names[0]] && pair[1] === one[names[1]] })));
  }
  return { names, right, down, yards };
}

// A yard of the map against its limits; nothing where it is refused.
export function nearestOf(names, { pair, refused }, one) {
  if (refused) return null;
  const text = core.textOf([core.lineOf({ ...one, ...bothCells(names, pair, one) })]);
  return against(core.rows(text)[0], core.margins(text)[0]).nearest;
}
