// SHA-256 of a text's UTF-8 bytes, as hexadecimal digits (FIPS 180-4). The browser's own is not offered to every page that is a file.
const primes = [];
for (let n = 2; primes.length < 64; n++) if (primes.every((one) => n % one)) primes.push(n);

// the first 32 bits of the fraction of a root
const fraction = (root) => Math.floor((root - Math.floor(root)) * 4294967296) | 0;
const K = primes.map((one) => fraction(Math.cbrt(one))), START = primes.slice(0, 8).map((one) => fraction(Math.sqrt(one)));
const turn = (word, by) => (word >>> by) | (word << (32 - by));

function padded(bytes) {
  const made = new Uint8Array((bytes.length + 72) & ~63), view = new DataView(made.buffer);
  made.set(bytes);
  made[bytes.length] = 0x80;
  view.setBigUint64(made.length - 8, BigInt(bytes.length) * 8n);
  return view;
}

function schedule(view, at) {
  const w = Array.from({ length: 16 }, (_, i) => view.getInt32(at + 4 * i));
  for (let i = 16; i < 64; i++) {
    const a = w[i - 15], b = w[i - 2];
    const s0 = turn(a, 7) ^ turn(a, 18) ^ (a >>> 3), s1 = turn(b, 17) ^ turn(b, 19) ^ (b >>> 10);
    w.push((w[i - 16] + s0 + w[i - 7] + s1) | 0);
  }
  return w;
}

function rounds(state, w) {
  let [a, b, c, d, e, f, g, h] = state;
  for (let i = 0; i < 64; i++) {
    const one = (h + (turn(e, 6) ^ turn(e, 11) ^ turn(e, 25)) + ((e & f) ^ (~e & g)) + K[i] + w[i]) | 0;
    const two = ((turn(a, 2) ^ turn(a, 13) ^ turn(a, 22)) + ((a & b) ^ (a & c) ^ (b & c))) | 0;
    [h, g, f, e, d, c, b, a] = [g, f, e, (d + one) | 0, c, b, a, (one + two) | 0];
  }
  return [a, b, c, d, e, f, g, h].map((word, i) => (word + state[i]) | 0);
}

export function sha256(text) {
  const view = padded(new TextEncoder().encode(text));
  let state = START;
  for (let at = 0; at < view.byteLength; at += 64) state = rounds(state, schedule(view, at));
  return state.map((word) => (word >>> 0).toString(16).padStart(8, '0')).join('');
}
