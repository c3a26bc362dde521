// The plan of a grid to scale, with its rods drawn evenly spread, since a sheet has only their count and place.
import { data } from '../library/data.js';
import { ends, exact, metres } from '../words/decimals.js';
import { h } from './dom.js';

const { left: LEFT, top: TOP, width: WIDTH, height: HEIGHT, whole: WHOLE, bars: BARS, dot: DOT, small_dot: SMALL,
  short: SHORT } = data.plan;
const short = (millimetres) => metres(millimetres, 0);

// A grid laid on the page; one that is long along the yard lies on its side.
function lay({ across, along, space }) {
  const turned = 100 * (along - 1) > 115 * (across - 1), [right, down] = turned ? [along, across] : [across, along];
  const width = (right - 1) * space, height = (down - 1) * space;
  const [up, below] = WIDTH * height <= HEIGHT * width ? [WIDTH, width] : [HEIGHT, height];
  const length = (mm) => Math.floor((mm * up) / below), left = LEFT + Math.floor((WIDTH - length(width)) / 2);
  return { right, down, space, turned, width, height, length, x: (mm) => left + length(mm), y: (mm) => TOP + length(mm) };
}

function atPerimeter({ width, height }, count) {
  const whole = 2 * (width + height), places = [];
  for (let i = 0; i < count; i++) {
    const at = Math.floor((i * whole) / count);
    if (at <= width) places.push([at, 0]);
    else if (at <= width + height) places.push([width, at - width]);
    else if (at <= 2 * width + height) places.push([2 * width + height - at, height]);
    else places.push([0, whole - at]);
  }
  return places;
}

function inside({ right, down, space, width, height }, count) {
  let inner = [];
  for (let j = 1; j < down - 1; j++) for (let i = 1; i < right - 1; i++) inner.push([i * space, j * space]);
  if (inner.length < count) {
    const each = Math.ceil(Math.sqrt(count));
    inner = Array.from({ length: each * each }, (_, k) => [
      Math.floor((width * (2 * (k % each) + 1)) / (2 * each)), Math.floor((height * (2 * Math.floor(k / each) + 1)) / (2 * each))]);
  }
  return Array.from({ length: count }, (_, i) => inner[Math.floor(((2 * i + 1) * inner.length) / (2 * count))]);
}

function grid(drawn, one) {
  const places = one.place === 0 ? [] : one.place === 1 ? atPerimeter(drawn, one.rods) : inside(drawn, one.rods);
  const apart = places.length ? Math.floor(drawn.length(2 * (drawn.width + drawn.height)) / places.length) : DOT;
  const radius = Math.max(SMALL, Math.min(DOT, Math.floor((2 * apart) / 5)));
  let wires = '';
  for (let i = 0; i < drawn.right; i++) wires += `M${drawn.x(i * drawn.space)} ${drawn.y(0)}V${drawn.y(drawn.height)}`;
  for (let j = 0; j < drawn.down; j++) wires += `M${drawn.x(0)} ${drawn.y(j * drawn.space)}H${drawn.x(drawn.width)}`;
  return [h('path', { class: 'wire', d: wires }),
    h('g', { class: 'rod' }, places.map(([x, y]) => h('circle', { cx: drawn.x(x), cy: drawn.y(y), r: radius })))];
}

const text = (x, y, said, anchor = 'start') => h('text', { x, y, 'text-anchor': anchor }, said);

function dimensions(drawn) {
  const [x0, x1, y0, y1] = [drawn.x(0), drawn.x(drawn.width), drawn.y(0), drawn.y(drawn.height)];
  const [across, along] = drawn.turned ? ['along', 'across'] : ['across', 'along'];
  const wide = `${across} ${short(drawn.width)} m`, high = `${along} ${short(drawn.height)} m`, below = y1 + 130,
    last = drawn.x(drawn.width - drawn.space);
  const side = y1 - y0 > SHORT
    ? h('text', { transform: `translate(${x0 - 180} ${Math.floor((y0 + y1) / 2)}) rotate(-90)`, 'text-anchor': 'middle' }, high)
    : text(x0 - 180, y0 - 45, high);
  const bar = BARS.find((one) => drawn.length(1000 * one) > 280) ?? BARS.at(-1), end = drawn.x(1000 * bar);
  return [[
    h('path', { class: 'dim', d: `M${x0} ${below - 40}v80M${x1} ${below - 40}v80M${x0} ${below}H${x1}` }),
    text(Math.floor((x0 + x1) / 2), below + 120, wide, 'middle'),
    h('path', { class: 'dim', d: `M${x0 - 170} ${y0}h80M${x0 - 170} ${y1}h80M${x0 - 130} ${y0}V${y1}` }), side,
    h('path', { class: 'dim', d: `M${last} ${y0 - 60}v-40M${x1} ${y0 - 60}v-40M${last} ${y0 - 80}H${x1}` }),
    text(last - 40, y0 - 45, `spacing ${short(drawn.space)} m`, 'end'),
    h('path', { class: 'scale', d: `M${x0} ${below + 260}v-50m0 50H${end}v-50` }), text(end + 50, below + 260, `${bar} m`),
  ], below + 310];
}

function rodsInWords(one) {
  if (!one.rods) return 'no rods';
  return `${one.rods} rod${one.rods > 1 ? 's' : ''} of ${short(one.rodlen)}\u00a0m ${one.place === 1 ? 'at the perimeter' : 'inside'}`;
}

function lengths(line) {
  const shown = (pair) => `${pair.lower === pair.upper ? exact(pair.lower, 6) : ends(pair, 6, 3)}\u00a0m`;
  return `${shown(line.working.lc)} of conductor${line.case.rods ? ` and ${shown(line.working.lr)} of rods` : ''}`;
}

export function plan(line) {
  const one = line.case, drawn = lay(one), [drawing, height] = dimensions(drawn);
  const yard = `${one.across} conductors across × ${one.along} along, ${short(one.depth)}\u00a0m deep`;
  const words = `${yard}, ${lengths(line)}; ${rodsInWords(one)}.`;
  return h('figure', { class: 'plan', 'aria-label': 'Plan' }, h('h3', {}, 'Plan of the grid, to scale'),
    h('svg', { viewBox: `0 0 ${WHOLE} ${height}`, role: 'img', 'aria-label': `Plan of station ${one.station}. ${words}` }, grid(drawn, one),
      drawing),
    h('figcaption', {}, words, one.rods ? ' Rods are drawn evenly spread.' : ''));
}
