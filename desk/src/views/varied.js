// 'What if': one input of the chosen line varied, as a curve, or two, as a map. Only the one that is seen is asked.
import { byId, chip, show } from './dom.js';
import * as mapped from './mapview.js';
import * as curved from './whatifview.js';

let two = false;

export function draw(line, station) {
  const modes = [['one input', false], ['two inputs', true]].map(([word, on]) => chip(two === on, word,
    () => { two = on; draw(line, station); byId('varied').querySelector('[aria-pressed=true]').focus(); }, { 'data-key': word }));
  show(byId('varied'), modes);
  if (two) mapped.draw(byId('whatif'), line, station);
  else curved.draw(line, station);
}

export const onTaken = (call) => [mapped, curved].forEach((one) => one.onTaken(call));
