// The word that a wrong one is probably meant for, as Python's difflib.get_close_matches finds it for the command.
const CUTOFF = 0.6;

// How many characters stand in the same order in both: the longest part that both have, and then the same of what is before and after it.
function common(one, other) {
  let size = 0, from = 0, to = 0, before = [];
  for (let i = 0; i < one.length; i++) {
    const here = [];
    for (let j = 0; j < other.length; j++) {
      if (one[i] !== other[j]) continue;
      here[j] = (before[j - 1] ?? 0) + 1;
      if (here[j] > size) [size, from, to] = [here[j], i - here[j] + 1, j - here[j] + 1];
    }
    before = here;
  }
  if (!size) return 0;
  return size + common(one.slice(0, from), other.slice(0, to)) + common(one.slice(from + size), other.slice(to + size));
}

// The nearest of some words, of equally near ones the last by the alphabet; '' where none is near enough.
export function nearest(word, words) {
  const letters = [...word];
  const likeness = (one) => {
    const length = one.length + letters.length, most = (2 * Math.min(one.length, letters.length)) / length;
    return most < CUTOFF ? 0 : (2 * common([...one], letters)) / length;
  };
  const [best] = words.map((one) => [likeness(one), one]).filter(([like]) => like >= CUTOFF)
    .sort(([like, one], [other, next]) => other - like || (one < next ? 1 : -1));
  return best?.[1] ?? '';
}
