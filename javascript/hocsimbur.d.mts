// The types of hocsimbur.mjs. All numbers are whole; units are those of include/hocsimbur.h.

export declare const VERSION: string;
export declare const Verdict: { readonly safe: 1; readonly unsafe: 2; readonly undecided: 3 };
export declare const LINES: 256;
export declare const SHEET_BYTES: 65536;

export type Sheet = string | Uint8Array | ArrayBuffer;

/** A refusal: its number (enum hocsimbur_refusal), and the line and column that it points at; 0 where there is none. */
export interface Refused {
  refused: { number: number; line: number; column: number };
}

/** The lower and upper end, that is, the bounds that enclose an exact value. */
export interface Pair {
  lower: number;
  upper: number;
}

/** The row of a value line. */
export interface Row {
  station: number;
  season: number;
  /** 1 safe, 2 unsafe, 3 undecided: `Verdict` */
  verdict: 1 | 2 | 3;
  /** conductor size */
  kcmil: number;
  /** grid current, microamperes */
  current: Pair;
  /** decrement factor, billionths */
  factor: Pair;
  /** millivolts, as all voltages */
  tolerable_touch: Pair;
  tolerable_step: Pair;
  mesh: Pair;
  step: Pair;
  /** micro-ohms */
  resistance: Pair;
  /** ground potential rise, millivolts */
  rise: Pair;
}

/** By how many per mille of what is tolerable the voltages lie above it, rounded up; negative below. */
export interface Margins {
  mesh: number;
  step: number;
}

/** The quantities between a value line and its row, as IEEE Std 80's Annex B prints them. */
export interface Working {
  /** surface layer factor, 10^-9 */
  cs: Pair;
  /** root of the shock duration in s, 10^-8 */
  root_time: Pair;
  /** root of the area, micrometres, as all lengths */
  side: Pair;
  lc: Pair;
  lr: Pair;
  lt: Pair;
  lm: Pair;
  ls: Pair;
  /** effective number of conductors, 10^-7 */
  n: Pair;
  /** 10^-10 */
  ki: Pair;
  /** 10^-9 */
  kii: Pair;
  /** 10^-9 */
  kh: Pair;
  /** 10^-7 */
  km: Pair;
  /** 10^-7 per metre */
  ks: Pair;
  /** soil resistivity times Ki times grid current over LM, millivolts */
  driven: Pair;
}

/** A station of a sheet: its lines, those of each verdict, and the season with the highest upper mesh end. */
export interface Station {
  station: number;
  seasons: number;
  safe: number;
  unsafe: number;
  undecided: number;
  highest_mesh_season: number;
}

/** What is answered of a station of a licence. */
export interface Release {
  station: number;
  released: boolean;
  /** licensed seasons without a line */
  missing: number;
  unsafe: number;
  undecided: number;
  /** lines of another yard than the station's first */
  other_yard: number;
  /** lines whose conductor is too small */
  small_wire: number;
  /** the greatest fault current in A at which every line is safe, or 0 */
  fault: number;
}

/** The fewest lines each way, then rods, and how many yards were tried; 0 lines and rods if none was found. */
export interface Fewest {
  found: boolean;
  lines: number;
  rods: number;
  tried: number;
}

/** Resistivities in micro-ohm metres, and the value for the column soil in ohm metres. */
export interface Soil {
  least: Pair;
  greatest: Pair;
  mean: Pair;
  soil: number;
}

/** The grid's two parts in milliamperes, and the split in per mille. */
export interface Split {
  in_phase: number;
  quadrature: number;
  split: number;
}

/** The library from hocsimbur.wasm beside hocsimbur.mjs, from a URL, or from the bytes or the compiled module of hocsimbur.wasm. */
export declare function load(source?: string | URL | ArrayBuffer | ArrayBufferView | WebAssembly.Module): Promise<Hocsimbur>;

export declare class Hocsimbur {
  constructor(module: WebAssembly.Module);
  version(): string;
  rows(sheet: Sheet): Row[] | Refused;
  /** The rows as bytes: 20 numbers a row, each of eight bytes, little-endian. A refusal has no place. */
  rowBytes(sheet: Sheet): Uint8Array | Refused;
  summary(sheet: Sheet): { stations: Station[]; rows: Row[] } | Refused;
  margins(sheet: Sheet): Margins[] | Refused;
  working(sheet: Sheet): Working[] | Refused;
  /** For each value line the greatest fault current in A at which it, all else equal, is answered safe; 0 where there is none. */
  headroom(sheet: Sheet): number[] | Refused;
  /**
   * A station, its seasons, in which seasons 1 to 4 count 1, 2, 4 and 8, and its conductor's own cross-section in whole kcmil, rounded
   * down; 0 or none stands for a solid round wire of the line's diameter.
   */
  release(sheet: Sheet, licence: [number, number, number?][]): Release[] | Refused;
  /** The side in mm of a square yard, all else as in the sheet's one value line. */
  fewest(sheet: Sheet, side: number): Fewest | Refused;
  /** A sheet of the former 18 names as one of today's 22, and back. */
  carry(sheet: Sheet): string | Refused;
  carryBack(sheet: Sheet): string | Refused;
  /** Pairs of a distance in mm and a resistance in milliohms. */
  soil(readings: [number, number][]): Soil | Refused;
  /** Pairs of in-phase and quadrature part in mA: of the injected current, then of each branch. */
  split(parts: [number, number][]): Split | Refused;
}
