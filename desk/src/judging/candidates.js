// Candidates for what to change of a station, by kind, each kind from the least change on: the words, and the station's lines with it.
// Nothing is asked here; `advice` asks the library about them in this order.
import { BY_NAME, data, fill } from '../library/data.js';
import { grouped, metres } from '../words/decimals.js';

const say = data.tried, { fewest_rods: FEWEST, rod_length: ROD, rock: ROCK, steps: STEPS } = say.constants;
const all = (lines, values) => lines.map((one) => ({ ...one, ...values }));
const short = (millimetres) => metres(millimetres, 0);
const gcd = (one, other) => (other ? gcd(other, one % other) : one);

function* rods(lines) {
  const [now] = lines, length = now.rodlen || ROD;
  const had = now.rods ? now.rods + (now.place === 2 ? ` ${say.inside}` : '') : say.none;
  for (let count = Math.max(FEWEST, now.place === 1 ? now.rods + 1 : 0); count <= BY_NAME.rods.high; count++) {
    yield { words: fill(say.rods, { count, length: short(length), had }), lines: all(lines, { rods: count, rodlen: length, place: 1 }) };
  }
}

function* conductors(lines) {
  const [now] = lines, { space } = now;
  const right = (now.across - 1) * space, down = (now.along - 1) * space, both = gcd(right, down);
  for (let parts = Math.floor(both / space) + 1; parts <= Math.floor(both / BY_NAME.space.low); parts++) {
    const finer = Math.floor(both / parts), across = Math.floor(right / finer) + 1, along = Math.floor(down / finer) + 1;
    if (both % parts || Math.max(across, along) > BY_NAME.across.high) continue;
    const words = fill(say.conductors, { across, along, finer: short(finer), was: `${now.across} × ${now.along}`, space: short(space) });
    yield { words, lines: all(lines, { across, along, space: finer }) };
  }
}

function* spacing(lines) {
  const [now] = lines, { low, high } = BY_NAME.space;
  for (let count = 1; count <= Math.floor((high - low) / STEPS.space); count++) {
    for (const space of [now.space + count * STEPS.space, now.space - count * STEPS.space]) {
      if (space < low || space > high) continue;
      const yard = [now.across, now.along].map((one) => short((one - 1) * space)).join(' × ');
      yield { words: fill(say.spacing, { space: short(space), now: short(now.space), yard }), lines: all(lines, { space }) };
    }
  }
}

function* rising(lines, name, kind) {
  const step = STEPS[name], now = Math.min(...lines.map((one) => one[name]));
  for (let value = (Math.floor(now / step) + 1) * step; value <= BY_NAME[name].high; value += step) {
    yield {
      words: fill(say[kind], { value: kind === 'resistivity' ? grouped(value) : value, now: grouped(now) }),
      lines: lines.map((one) => ({ ...one, [name]: Math.max(one[name], value) })),
    };
  }
}

function* layer(lines) {
  for (let thick = Math.ceil(BY_NAME.thick.low / STEPS.thick) * STEPS.thick; thick <= BY_NAME.thick.high; thick += STEPS.thick) {
    yield { words: fill(say.layer, { value: thick, rock: grouped(ROCK) }),
      lines: lines.map((one) => (one.thick ? one : { ...one, layer: ROCK, thick })) };
  }
}

function* shock(lines) {
  const now = Math.max(...lines.map((one) => one.shock)), step = STEPS.shock, { low } = BY_NAME.shock;
  const times = [];
  for (let time = Math.floor((now - 1) / step) * step; time > low; time -= step) times.push(time);
  for (const time of [...times, low]) {
    if (time >= now) continue;
    yield { words: fill(say.shock, { value: time, now: grouped(now) }),
      lines: lines.map((one) => ({ ...one, shock: Math.min(one.shock, time) })) };
  }
}

const kind = (name, candidates) => ({ name, candidates, none: say.kinds[name] });
const YARD = [kind('rods', rods), kind('conductors', conductors), kind('spacing', spacing)];
const LAYER = [kind('thickness', (lines) => rising(lines, 'thick', 'thickness')),
  kind('resistivity', (lines) => rising(lines, 'layer', 'resistivity'))];

// The kinds of change that a station may have: those of the yard only where its lines agree on one.
export function kinds(lines, oneYard) {
  const bare = lines.some((one) => one.thick === 0);
  return [...(oneYard ? YARD : []), ...(bare ? [kind('layer', layer)] : LAYER), kind('shock', shock)];
}
