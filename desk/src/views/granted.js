// The name and the wire of a station in the licence, as fields of the list of stations; what is refused is said at the field.
import { data, fill } from '../library/data.js';
import { enter, giveUp, refusedAt } from '../sheet/granting.js';
import { h } from './dom.js';

export const WIRES = 'wires'; // the list of names that the field of a wire offers

// The names of wires as a licence writes them: a bare number of AWG needs its sign.
export const wireNames = () => h('datalist', { id: WIRES }, Object.keys(data.wires).map((name) =>
  h('option', { value: /^\d$/.test(name) ? `#${name}` : name })));

function field(station, kind, label, more) {
  const { station: number, outside } = station, bad = refusedAt(number, kind), id = `${kind}-${number}-refused`;
  const typed = (event) => { event.target.value = event.target.value.trim(); enter(number, kind, event.target.value); };
  const keys = (event) => { if (event.key === 'Escape') { event.target.value = station[kind]; giveUp(number, kind); } };
  const input = h('input', { class: `own ${kind}`, value: bad?.text ?? station[kind], 'data-key': `${number} ${kind}`, 'aria-label': label,
    'aria-invalid': bad ? 'true' : null, 'aria-describedby': bad ? id : null, disabled: outside, spellcheck: 'false', autocomplete: 'off',
    onchange: typed, onkeydown: keys, ...more });
  return [input, h('span', { class: 'printed-only' }, station[kind]),
    bad ? h('small', { class: 'red', id, role: 'alert' }, bad.words) : ''];
}

export const nameField = (station) => field(station, 'name', `Name of station ${station.station}`,
  { placeholder: 'name', title: station.name });

export function wireField(station) {
  const { wire, area } = station, title = wire ? fill(data.licences.counted, { wire, area })
    : 'The wire by its size, as 4/0, 250 kcmil or 95 mm2; without one it is counted as a solid round of the diameter';
  return field(station, 'wire', `Wire of station ${station.station}`, { placeholder: 'solid round', title, list: WIRES });
}
