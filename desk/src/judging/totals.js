// The counts of a portfolio and what is said of its licence, as the command says them: sums of the library's answers.
import { data, fill } from '../library/data.js';
import { grouped } from '../words/decimals.js';
import { listed } from '../words/words.js';

const say = data.totals;

// That stations of the sheet are not in the licence; beyond some they are counted and no longer named.
export function outsideWords(numbers) {
  const named = numbers.length <= say.named ? listed(numbers)
    : numbers.slice(0, say.named).join(', ') + fill(say.notes.more, { count: grouped(numbers.length - say.named) });
  return fill(say.notes.outside[numbers.length > 1 ? 1 : 0], { count: grouped(numbers.length), list: named });
}

// What the first page of a report says of the licence itself; a station without a line is of no sheet.
export function notes({ stations, licensed }) {
  const others = stations.filter((one) => one.outside && (one.lines.length || one.refused.length)).map((one) => one.station);
  return [...(licensed ? [] : [say.notes.no_licence]), ...(others.length ? [outsideWords(others)] : [])];
}

// The counts in pieces: of the stations of the licence, or without one of all, and of their lines.
export function totals({ stations, licensed }) {
  const own = stations.filter((one) => !one.outside), lines = own.flatMap((one) => one.lines), words = say[licensed ? 'True' : 'False'];
  const verdicts = (verdict) => grouped(lines.filter((line) => line.row.verdict === verdict).length);
  const count = (test) => own.filter(test).length;
  const missing = own.reduce((sum, one) => sum + (one.answer?.missing ?? 0), 0);
  const of = (template, number) => fill(template, { count: grouped(number) });
  return {
    stations: of(words.stations[own.length > 1 ? 1 : 0], own.length),
    released: of(words.released, count((one) => one.released)), held: of(words.held, count((one) => one.released === false)),
    open: count((one) => one.released === undefined),
    lines: fill(words.lines[lines.length === 1 ? 0 : 1],
      { lines: grouped(lines.length), safe: verdicts(1), unsafe: verdicts(2), undecided: verdicts(3) }),
    missing: of(words.missing[Math.min(missing, 2)], missing),
  };
}
