// The curve of a voltage and what is tolerable of it over one varied input, with the safe values shaded and the present one marked.
import { h, spoken } from './dom.js';
import { down, grouped, up } from '../words/decimals.js';
import { data } from '../library/data.js';
import { margin, value as shownValue } from '../words/words.js';

const HEIGHT = 264, PAD = { right: 12, top: 24, bottom: 36 };
const CLASSES = { 1: 'safe', 2: 'unsafe', 3: 'undecided' };

function nice(span, count) {
  const rough = span / count, ten = 10 ** Math.floor(Math.log10(rough));
  return ten * [1, 2, 5, 10].find((one) => one * ten >= rough);
}

function ticks(low, high, count) {
  const step = nice(high - low, count), found = [];
  for (let at = Math.ceil(low / step) * step; at <= high; at += step) found.push(Math.round(at * 1000) / 1000);
  return found;
}

function logTicks(low, high) {
  const found = [];
  for (let ten = 1; ten <= high; ten *= 10) for (const one of [1, 2, 5]) if (one * ten >= low && one * ten <= high) found.push(one * ten);
  return found;
}

const volts = (number) => Number(number) / 1000;

// From 0 to a top; where both curves keep far from 0, from nearer below them on, so that they can be told apart.
function span(curve, of, top, highest) {
  const lowest = Math.min(...curve.points.flatMap((point) => [volts(of(point).voltage.upper), volts(of(point).tolerable.lower)]));
  if (lowest < top * 0.55) return [0, top];
  const high = Math.min(top, highest), free = Math.max((high - lowest) * 0.3, high * 0.02);
  return [lowest - free, high + free];
}

function scales(curve, place, width) {
  const of = (point) => point.compared[place];
  const limits = curve.points.map((point) => volts(of(point).tolerable.lower)), most = Math.max(...limits);
  const now = curve.points.find((point) => point.value === curve.now);
  const highest = Math.max(...curve.points.map((point) => volts(of(point).voltage.upper)));
  const top = Math.min(highest * 1.08, Math.max(most * 1.7, now ? volts(of(now).voltage.upper) * 1.25 : 0));
  const [yMin, yTop] = span(curve, of, Math.max(top, most * 1.12), Math.max(highest, most));
  // room for the longest number
  const right = width - PAD.right, floor = HEIGHT - PAD.bottom, left = 14 + 6.6 * grouped(Math.round(yTop)).length;
  const part = curve.log ? (v) => Math.log(v / curve.low) / Math.log(curve.high / curve.low)
    : (v) => (v - curve.low) / (curve.high - curve.low || 1);
  return { x: (v) => left + (right - left) * part(v), y: (v) => floor - (floor - PAD.top) * ((v - yMin) / (yTop - yMin)), yMin, yTop, left,
    right, floor, of, place };
}

function path(points, x, y, get) {
  return points.map((point, i) => `${i ? 'L' : 'M'}${x(point.value).toFixed(1)} ${y(get(point)).toFixed(1)}`).join('');
}

// The voltage's curve in pieces, above and not above its limit, so that the part above is drawn as such.
function pieces(points, of) {
  const found = [];
  points.forEach((point, i) => {
    const over = of(point).side === 'above', last = found.at(-1);
    if (last && last.over === over) last.points.push(point);
    else found.push({ over, points: i ? [points[i - 1], point] : [point] });
  });
  return found;
}

function bands(curve, { x, floor, left: start, right }) {
  const now = x(curve.now);
  return curve.runs.flatMap((run, i) => {
    if (run.verdict === 2) return [];
    const left = i ? x(run.from) : start, end = i < curve.runs.length - 1 ? x(run.to) : right;
    const wide = Math.max(1.5, end - left), name = CLASSES[run.verdict];
    const word = now > left && now < left + 40 ? now + 7 : left + 7; // not across the line of now
    return [{ band: h('rect', { class: `band ${name}`, x: left, y: PAD.top, width: wide, height: floor - PAD.top }),
      word: end - word > 30 && h('text', { class: `bandword ${name}`, x: word, y: PAD.top + 15 }, data.verdicts[run.verdict]) }];
  });
}

// Labels stand where both curves are far from each other, each on the side of its curve that is free.
function labels(curve, s, voltage, limit) {
  const seen = (v) => Math.min(v, s.yTop), apart = (point) => Math.abs(seen(voltage(point)) - seen(limit(point)));
  const ends = [0.03, 0.97].map((part) => curve.points[Math.floor((curve.points.length - 1) * part)]);
  const [first, last] = ends, atLimit = apart(last) < (s.yTop - s.yMin) * 0.1 && apart(first) > apart(last) ? first : last;
  const inside = curve.points.filter((point) => voltage(point) < s.yMin + (s.yTop - s.yMin) * 0.88 && s.x(point.value) > s.left + 50
    && s.x(point.value) < s.right - 50);
  const at = inside.length ? inside.reduce((best, point) => (apart(point) > apart(best) ? point : best)) : ends[1];
  const next = curve.points[Math.min(curve.points.length - 1, curve.points.indexOf(at) + 1)], falls = voltage(next) < voltage(at);
  const one = at.compared[s.place], over = voltage(atLimit) > limit(atLimit);
  const text = (kind, x, y, toRight, said) => h('text', { class: `label ${kind}`, x, y, 'text-anchor': toRight ? 'start' : 'end' }, said);
  return [text('tolerable', s.x(atLimit.value), Math.min(s.floor - 5, s.y(limit(atLimit)) + (over ? 15 : -6)), atLimit === first,
    `tolerable ${one.limit}`),
    text('voltage', s.x(at.value) + (falls ? 5 : -5), s.y(voltage(at)) - 6, falls, one.kind)];
}

export function readout(point, name, place) {
  const one = point.compared[place];
  return [h('b', {}, shownValue(name, point.value)),
    ` ${one.kind} ${up(one.voltage.upper, 3, 1)}\u00a0V, tolerable ${one.limit} ${down(one.tolerable.lower, 3, 1)}\u00a0V: `,
    h('span', { class: one.side.replace(' ', '-') }, margin(one)), `; ${data.verdicts[point.verdict]}`];
}

const spokenOf = (point, name, place) => readout(point, name, place).map((part) => part.textContent ?? part).join('');

function axes(curve, s) {
  const unit = data.labels[curve.name].unit;
  const xs = curve.log ? logTicks(Math.max(curve.low, 1), curve.high) : ticks(curve.low, curve.high, 6).filter(Number.isInteger);
  const ys = ticks(s.yMin, s.yTop, 4);
  const short = (v) => shownValue(curve.name, v).replace(`\u00a0${unit}`, '');
  return [
    ys.map((v) => h('path', { class: 'rule', d: `M${s.left} ${s.y(v)}H${s.right}` })),
    h('path', { class: 'axis', d: `M${s.left} ${s.floor}H${s.right}` }),
    ys.map((v) => h('text', { class: 'tick', x: s.left - 6, y: s.y(v) + 4, 'text-anchor': 'end' }, grouped(v))),
    h('text', { class: 'tick', x: s.left - 6, y: 10, 'text-anchor': 'end' }, 'V'),
    xs.map((v) => h('path', { class: 'axis', d: `M${s.x(v)} ${s.floor}v4` })),
    xs.map((v) => h('text', { class: 'tick', x: s.x(v), y: s.floor + 15, 'text-anchor': 'middle' }, short(v))),
    h('text', { class: 'tick', x: s.right, y: HEIGHT - 4, 'text-anchor': 'end' },
      data.labels[curve.name].label + (unit ? `, ${unit}` : '') + (curve.log ? ', logarithmic' : '')),
  ];
}

// The drawing; `take` is called with a value that is to be put into the sheet, `tell` with the point under the pointer or null.
export function plot(curve, place, width, take, tell) {
  const s = scales(curve, place, width), { points } = curve;
  const voltage = (point) => volts(s.of(point).voltage.upper), limit = (point) => volts(s.of(point).tolerable.lower);
  const clip = { 'clip-path': 'url(#inside)' }, shaded = bands(curve, s);
  const here = points.findIndex((point) => point.value === curve.now);
  const hair = h('g', { class: 'hair', visibility: 'hidden' }, h('path', {}), h('circle', { r: 3.5 }),
    h('circle', { r: 3.5, class: 'limit' }));
  const nowX = s.x(curve.now), inside = here >= 0;
  const svg = h('svg', {
    viewBox: `0 0 ${width} ${HEIGHT}`, width, height: HEIGHT, class: 'plot', tabindex: 0, 'data-key': 'plot', role: 'slider',
    'aria-label': `What if ${data.labels[curve.name].label.toLowerCase()} were another: arrows move, Enter takes the value over`,
    'aria-valuemin': curve.low, 'aria-valuemax': curve.high, 'aria-valuenow': curve.now,
    'aria-valuetext': inside ? spokenOf(points[here], curve.name, place) : shownValue(curve.name, curve.now),
  }, h('clipPath', { id: 'inside' }, h('rect', { x: s.left, y: PAD.top, width: s.right - s.left, height: s.floor - PAD.top + 1 })),
  shaded.map((one) => one.band), axes(curve, s), shaded.map((one) => one.word),
  h('path', { class: 'tolerable', d: path(points, s.x, s.y, limit), ...clip }),
  pieces(points, s.of).map((piece) => h('path', { class: piece.over ? 'voltage over' : 'voltage', d: path(piece.points, s.x, s.y, voltage),
    ...clip })),
  labels(curve, s, voltage, limit),
  inside && h('g', { class: 'now' }, h('path', { d: `M${nowX} ${PAD.top - 4}V${s.floor}` }),
    h('circle', { cx: nowX, cy: s.y(Math.min(voltage(points[here]), s.yTop)), r: 4 }),
    h('text', { x: nowX, y: PAD.top - 9, 'text-anchor': nowX > s.right - 50 ? 'end' : nowX < s.left + 50 ? 'start' : 'middle' },
      `now ${shownValue(curve.name, curve.now)}`)),
  hair);
  let at = Math.max(0, here);
  const point = (index) => {
    at = Math.max(0, Math.min(points.length - 1, index));
    const px = s.x(points[at].value), [line, dot, limitDot] = hair.children;
    hair.setAttribute('visibility', 'visible');
    line.setAttribute('d', `M${px} ${PAD.top}V${s.floor}`);
    for (const [mark, v] of [[dot, voltage(points[at])], [limitDot, limit(points[at])]]) {
      mark.setAttribute('cx', px);
      mark.setAttribute('cy', s.y(Math.min(v, s.yTop)));
    }
    svg.setAttribute('aria-valuenow', points[at].value);
    svg.setAttribute('aria-valuetext', spokenOf(points[at], curve.name, place));
    tell(points[at]);
  };
  const leave = () => { hair.setAttribute('visibility', 'hidden'); tell(null); };
  const nearest = (event) => {
    const px = ((event.clientX - svg.getBoundingClientRect().left) * width) / svg.getBoundingClientRect().width;
    return points.reduce((best, other, i) => (Math.abs(s.x(other.value) - px) < Math.abs(s.x(points[best].value) - px) ? i : best), 0);
  };
  svg.addEventListener('pointermove', (event) => point(nearest(event)));
  svg.addEventListener('pointerleave', leave);
  svg.addEventListener('click', (event) => take(points[nearest(event)].value));
  svg.addEventListener('keydown', (event) => {
    const step = { ArrowLeft: -1, ArrowDown: -1, ArrowRight: 1, ArrowUp: 1, PageUp: 10, PageDown: -10, Home: -1e6, End: 1e6 }[event.key];
    if (step) { event.preventDefault(); point(at + step); }
    if (event.key === 'Enter') take(points[at].value);
    if (event.key === 'Escape') leave();
  });
  return h('div', { class: 'plotbox' }, svg, spoken(''));
}
