// Numbers as people and spreadsheets write them, exactly: a fraction is two whole numbers, the lower one above 0.
import { data, fill } from '../library/data.js';

export const SPACES = '\u00a0\u202f\u2007\ufeff'; // that spreadsheets put between thousands, and a byte-order mark
const digits = '(?<=\\p{Nd})', THOUSANDS = new RegExp(`${digits}[ ${SPACES}](?=\\p{Nd}\\p{Nd}\\p{Nd}(?!\\p{Nd}))`, 'gu');

// The one number that a text stands for: { number }; { wrong }, where it may be two; nothing where it is none.
export function exact(text, sign) {
  let bare = text.replace(THOUSANDS, '');
  const two = /^(\p{Nd}{1,3})[.,](\p{Nd}{3})$/u.exec(bare);
  if (two && !(sign === ',' && bare.includes('.'))) {
    return { wrong: fill(data.refusals.ambiguous, { text, joined: two[1] + two[2], parted: `${two[1]}.${two[2]}` }) };
  }
  if (/^\d{1,3}(,\d{3})+(\.\d*)?$/.test(bare)) bare = bare.replaceAll(',', '');
  else if (/^\d{1,3}(\.\d{3})+(,\d*)?$/.test(bare) && (bare.split('.').length > 2 || bare.includes(','))) {
    bare = bare.replaceAll('.', '').replace(',', '.');
  } else if (/^\d+,\d*$/.test(bare)) bare = bare.replace(',', '.');
  const parts = /^([+-]?)(?=\.?\d)(\d{0,30})(?:\.(\d{0,30}))?(?:[eE]([+-]?\d{1,2}))?$/.exec(bare);
  if (!parts) return null;
  const behind = parts[3] ?? '', power = Number(parts[4] ?? 0) - behind.length, size = BigInt((parts[2] + behind) || '0');
  const upper = (parts[1] === '-' ? -size : size) * 10n ** BigInt(Math.max(0, power));
  return { number: [upper, 10n ** BigInt(Math.max(0, -power))] };
}

export const times = ([upper, lower], [more, less]) => [upper * BigInt(more), lower * BigInt(less)];
export const isWhole = ([upper, lower]) => upper % lower === 0n;
export const below = ([upper, lower]) => upper / lower; // of a number that is not below 0: the whole number at or below it

// All decimals of a number, or where they do not end the first six and an ellipsis.
export function shown([upper, lower]) {
  for (let places = 0; places < 13; places++) {
    const scaled = upper * 10n ** BigInt(places);
    if (scaled % lower) continue;
    const text = String(scaled / lower).padStart(places + 1, '0');
    return places ? `${text.slice(0, -places)}.${text.slice(-places)}` : text;
  }
  const text = String((upper * 1000000n) / lower).padStart(7, '0');
  return `${text.slice(0, -6)}.${text.slice(-6)}…`;
}

// A cell as the one whole number that it stands for, in digits; as it is where it is none or may be two.
export function whole(text, sign = ',') {
  const found = exact(text, sign);
  return found?.number && found.number[0] >= 0n && isWhole(found.number) ? String(below(found.number)) : text;
}
