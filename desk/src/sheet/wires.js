// Wires by the names that people use, from the product's catalogue: '4/0', '250 kcmil', '95 mm2', or a cross-section in whole kcmil.
import { data } from '../library/data.js';

// The name of a size as the catalogue writes it; '' where the text names no size.
export function wireKey(text) {
  const bare = text.trim().toLowerCase().replace(/\s+/g, ' ').replaceAll('²', '2').replaceAll('sq mm', 'mm2').replaceAll('sqmm', 'mm2')
    .replaceAll('mm^2', 'mm2');
  const awg = /^(?:#|awg |no\.? ?)?([1-6]|[1-4]\/0|0{1,4})(?: ?awg)?$/.exec(bare);
  if (awg && (bare !== awg[1] || bare.includes('/'))) return /^0+$/.test(awg[1]) ? `${awg[1].length}/0` : awg[1];
  const other = /^(\d{2,4}) ?(kcmil|mcm|mm2)$/.exec(bare);
  return other ? `${other[1]} ${other[2] === 'mm2' ? 'mm2' : 'kcmil'}` : '';
}

// The cross-section that a licence names, in whole kcmil and rounded down; 0 where it names none, nothing where it is no size.
export function areaOf(text) {
  if (!text) return 0;
  const named = wireKey(text), own = /^([1-9]\d{0,3}) ?kcmil$/.exec(text.trim().toLowerCase());
  const area = data.wires[named] ?? Number(own?.[1] ?? 0);
  return area >= 1 && area <= data.most_area ? area : null;
}
