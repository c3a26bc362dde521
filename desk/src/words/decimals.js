// Whole numbers shown as decimals, rounded outward: a lower end down, an upper end up, never to the nearest.
// A number is in units of 10^-scale and is shown with `places` decimals; thousands are grouped by commas.
const NB = '\u00a0';

function shown(number, places) {
  const size = number < 0n ? -number : number, ten = 10n ** BigInt(places);
  const whole = String(size / ten).replace(/\B(?=(\d{3})+$)/g, ',');
  return (number < 0n ? '\u2212' : '') + whole + (places ? `.${String(size % ten).padStart(places, '0')}` : '');
}

const floor = (number, by) => (number >= 0n ? number / by : -((-number + by - 1n) / by));

export function down(number, scale, places) {
  if (places >= scale) return shown(BigInt(number) * 10n ** BigInt(places - scale), places);
  return shown(floor(BigInt(number), 10n ** BigInt(scale - places)), places);
}

export function up(number, scale, places) {
  if (places >= scale) return shown(BigInt(number) * 10n ** BigInt(places - scale), places);
  return shown(-floor(-BigInt(number), 10n ** BigInt(scale - places)), places);
}

export const grouped = (number) => shown(BigInt(number), 0);
export const tenths = (number) => shown(BigInt(number), 1);
const percent = (perMille) => shown(BigInt(Math.abs(perMille)), 1);
export const ends = (pair, scale, places) => `${down(pair.lower, scale, places)} to ${up(pair.upper, scale, places)}`;

export function exact(number, scale) {
  const text = shown(BigInt(number), scale);
  return scale ? text.replace(/0+$/, '').replace(/\.$/, '') : text;
}

// Millimetres in metres, exactly, with at least some decimals.
export function metres(millimetres, places = 2) {
  const digits = String(millimetres % 1000).padStart(3, '0').replace(/0+$/, '').padEnd(places, '0');
  return grouped(Math.floor(millimetres / 1000)) + (digits ? `.${digits}` : '');
}

// The size of a margin: tenths of a percent; from 1,000 % whole percent, rounded up.
export const share = (perMille) => (perMille >= 10000 ? grouped(Math.ceil(perMille / 10)) : percent(perMille)) + NB + '%';
