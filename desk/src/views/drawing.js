// The small drawings: marks, badges and bars, as the report has them. A shape and a word, colour third.
import { data } from '../library/data.js';
import { h, markup, spoken } from './dom.js';

const { limit: LIMIT, least: LEAST, most: MOST, step: STEP } = data.scale;
const shapes = new Map();

// A mark, for the eye alone: a word stands beside it.
export function mark(kind) {
  if (!shapes.has(kind)) {
    shapes.set(kind,
      markup(`<svg class="mark ${kind}" viewBox="0 0 160 160" aria-hidden="true" focusable="false">${data.shapes[kind]}</svg>`).firstChild);
  }
  return shapes.get(kind).cloneNode(true);
}

export const withWord = (kind, word = kind) => h('span', { class: `v ${kind}` }, mark(kind), word);

export function badge(station) {
  if (station.released === undefined) return h('span', { class: 'badge open' }, mark('none'), 'NOT ASKED');
  const kind = station.released ? 'released' : 'held';
  return h('span', { class: `badge ${kind}` }, mark(kind), kind.toUpperCase());
}

// The one scale of all bars: from 0 to the next 25 % over the greatest share, at least 125 % and at most 200 %.
export function scaleOf(lines) {
  const greatest = Math.max(LIMIT, ...lines.map((line) => LIMIT + line.nearest.margin));
  return Math.min(MOST, Math.max(LEAST, Math.ceil(greatest / STEP) * STEP));
}

// A bar of a share per mille of its limit, with the limit's line over its whole height; `others` are ticks.
export function bar(margin, top, title, others = []) {
  const share = LIMIT + margin, shown = Math.min(share, top);
  return h('svg', { class: 'bar', viewBox: `0 0 ${top} 20`, preserveAspectRatio: 'none', role: 'img', 'aria-label': title },
    h('rect', { class: 'base', x: 0, y: 2, width: 4, height: 16 }),
    h('rect', { class: 'fill', x: 0, y: 5, width: Math.min(shown, LIMIT), height: 10 }),
    shown > LIMIT && h('rect', { class: 'over', x: LIMIT, y: 5, width: shown - LIMIT, height: 10 }),
    others.map((other) => h('rect', { class: 'tick', x: Math.max(0, Math.min(LIMIT + other, top) - 5), y: 5, width: 9, height: 10 })),
    share > top && h('path', { class: 'cut', d: `M${top - 60} 5l25 5-25 5M${top - 30} 5l25 5-25 5` }),
    h('rect', { class: 'limit', x: LIMIT - 4, y: 0, width: 8, height: 20 }));
}

// A season of a station: its verdict, refused, without a line though it is asked for, or not asked.
export function seasonMark(station, season) {
  const line = station.lines.find((one) => one.row.season === season), bad = station.refused.some((one) => one.cells[1] === String(season));
  const [kind, word] = line ? [data.verdicts[line.row.verdict], data.verdicts[line.row.verdict]] : bad ? ['held', 'refused']
    : ['none', 'no line'];
  if (kind === 'none' && !station.seasons.includes(season)) return [spoken('not asked')];
  return [mark(kind), spoken(word)];
}
