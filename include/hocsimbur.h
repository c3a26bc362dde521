/* Hocsimbur: substation ground grids after IEEE Std 80, for programs in C (C99 and later) and C++ (C++98 and later).
 *
 * The sheet. Text: a line of the 22 names below, once each and in any order, separated by commas; then 1 to 256 lines of values in
 * that order. A line ends with one byte 10; there are no spaces. A value is one to six decimal digits, and only 0 starts with 0. At
 * most 65,536 bytes.
 *
 *   station  number                                     1..65535
 *   season   number                                     1..4
 *   soil     resistivity, ohm metres                    10..5000
 *   layer    resistivity of the surface layer, ohm m    0 or 100..10000
 *   thick    thickness of the layer, mm                 0 or 20..300
 *   shock    duration of the shock, ms                  9..3000
 *   clear    clearing time of the fault, ms             9..3000
 *   wire     back-up clearing time for the wire, ms     9..3000
 *   body     kg                                         50 or 70
 *   fault    symmetrical fault current, A               100..80000
 *   split    part entering the grid, per mille          1..1000
 *   xr       X/R of the system                          1..40
 *   across   conductors side by side across the yard    2..25
 *   along    conductors side by side along the yard     2..25
 *   space    between conductors, both ways, mm          2500..30000
 *   depth    of burial, mm                              250..2500
 *   dia      conductor diameter, tenths of a mm         50..300
 *   rods     count                                      0..200
 *   rodlen   length of one rod, mm                      0 or 1000..10000
 *   place    0 no rods, 1 perimeter or corners, 2 inside only
 *   metal    as enum hocsimbur_metal                    1..11
 *   hz       frequency                                  50 or 60
 *
 * layer and thick are both 0 (bare soil) or both not 0; rods, rodlen and place are all 0 or all not 0.
 *
 * One convention. Every entry answers a count of 0 or more, or a refusal's number made negative (enum hocsimbur_refusal). A refusal
 * leaves every buffer and array as it was. Numbers and bytes past the last that is written keep what they held. Where a refusal
 * points stands in the first two numbers of `place`: the line of the text, the first being 1, and the column, which counts the
 * fields of the line from 1 and not its bytes; 0 where there is none. An answer of 0 or more leaves the place as it was, and so
 * does a place of fewer than two numbers.
 *
 * Memory. The caller owns all buffers and keeps them valid during the call; nothing is allocated, and nothing of the caller's is
 * kept. What is written overlaps nothing else that is handed over. A pointer may be null where its length is 0. Bytes need no
 * alignment, numbers that of their type. Nothing is read or written past the given lengths. A call takes less than 100 kB of stack;
 * the rows, margins, working and headroom take less than 40 kB.
 *
 * Threads. There is no state: any number of calls may run at the same time on buffers of their own. */
#ifndef HOCSIMBUR_H
#define HOCSIMBUR_H

/* Platforms: Linux on x86-64 and on aarch64, Windows on x86-64, and WebAssembly (wasm32). All four are little-endian. */
#if defined(__wasm64__)
#error "hocsimbur: no library for wasm64; it is built for wasm32"
#elif defined(__wasm32__)
#elif defined(__x86_64__) && defined(__ILP32__)
#error "hocsimbur: no library for x32; compile for x86-64 with 64-bit pointers"
#elif defined(_M_ARM64EC) || defined(__arm64ec__) || (defined(_WIN32) && (defined(_M_ARM64) || defined(__aarch64__)))
#error "hocsimbur: no library for Windows on Arm; compile for x86-64"
#elif defined(_WIN32) && (defined(_M_X64) || defined(__x86_64__))
#elif defined(_WIN32)
#error "hocsimbur: no library for 32-bit Windows; compile for x86-64"
#elif defined(__APPLE__)
#error "hocsimbur: no library for Apple systems; use hocsimbur.wasm there"
#elif defined(__linux__) && defined(__x86_64__)
#elif defined(__linux__) && defined(__aarch64__) && (defined(__AARCH64EB__) || defined(__ILP32__))
#error "hocsimbur: no library for big-endian or 32-bit aarch64; compile for little-endian aarch64 with 64-bit pointers"
#elif defined(__linux__) && defined(__aarch64__)
#else
#error "hocsimbur: no library for this platform; there is one for Linux on x86-64 and aarch64, Windows on x86-64, and wasm32"
#endif

#include <stddef.h>
#include <stdint.h>

/* A length, a count of numbers, and each number of a place: 64 bits on every platform, also on wasm32, where a size_t has 32. */
#ifdef __wasm32__
typedef uint64_t hocsimbur_size;
#else
typedef size_t hocsimbur_size;
#endif

#ifdef __cplusplus
extern "C" {
#endif

#define HOCSIMBUR_VERSION 20000      /* 10000, 100 and 1 times the three numbers of the version: 2.0.0 */
#define HOCSIMBUR_LINES 256          /* most value lines of a sheet */
#define HOCSIMBUR_SHEET_BYTES 65536  /* most bytes of a sheet */
#define HOCSIMBUR_NUMBERS 20         /* numbers of a row */
#define HOCSIMBUR_ROW_BYTES 160      /* bytes of a row: 20 numbers of eight */
#define HOCSIMBUR_STATION_NUMBERS 6  /* numbers of a station in the summary */
#define HOCSIMBUR_LICENCE_NUMBERS 3  /* numbers of a station in a licence */
#define HOCSIMBUR_RELEASE_NUMBERS 8  /* numbers of a station in the answer to a release */
#define HOCSIMBUR_SOIL_NUMBERS 7     /* numbers of a soil report */
#define HOCSIMBUR_SPLIT_NUMBERS 3    /* numbers of a staged test's answer */
#define HOCSIMBUR_FEWEST_NUMBERS 3   /* numbers of a search for the fewest lines */
#define HOCSIMBUR_MARGIN_NUMBERS 2   /* numbers of a value line's margins */
#define HOCSIMBUR_WORKING_NUMBERS 30 /* numbers of a value line's working */
#define HOCSIMBUR_HEADROOM_NUMBERS 1 /* numbers of a value line's headroom */

/* The numbers of a row, by place. A pair is a lower and an upper end that enclose the exact value. */
enum hocsimbur_number {
    HOCSIMBUR_STATION,
    HOCSIMBUR_SEASON,
    HOCSIMBUR_VERDICT,
    HOCSIMBUR_KCMIL,                 /* conductor size */
    HOCSIMBUR_CURRENT_LOWER,         /* grid current, microamperes */
    HOCSIMBUR_CURRENT_UPPER,
    HOCSIMBUR_FACTOR_LOWER,          /* decrement factor, billionths */
    HOCSIMBUR_FACTOR_UPPER,
    HOCSIMBUR_TOLERABLE_TOUCH_LOWER, /* millivolts, as all voltages */
    HOCSIMBUR_TOLERABLE_TOUCH_UPPER,
    HOCSIMBUR_TOLERABLE_STEP_LOWER,
    HOCSIMBUR_TOLERABLE_STEP_UPPER,
    HOCSIMBUR_MESH_LOWER,
    HOCSIMBUR_MESH_UPPER,
    HOCSIMBUR_STEP_LOWER,
    HOCSIMBUR_STEP_UPPER,
    HOCSIMBUR_RESISTANCE_LOWER,      /* micro-ohms */
    HOCSIMBUR_RESISTANCE_UPPER,
    HOCSIMBUR_RISE_LOWER,            /* ground potential rise, millivolts */
    HOCSIMBUR_RISE_UPPER
};

/* The numbers of a value line's working, by place: the quantities between a case and its row, as IEEE Std 80's Annex B prints them. A
 * pair is a lower and an upper end that enclose the exact value. */
enum hocsimbur_quantity {
    HOCSIMBUR_CS_LOWER,              /* Cs, billionths */
    HOCSIMBUR_CS_UPPER,
    HOCSIMBUR_ROOT_TIME_LOWER,       /* root of the shock duration in s, hundred-millionths */
    HOCSIMBUR_ROOT_TIME_UPPER,
    HOCSIMBUR_SIDE_LOWER,            /* root of the area, micrometres */
    HOCSIMBUR_SIDE_UPPER,
    HOCSIMBUR_LC_LOWER,              /* Lc, length of the grid's conductors, micrometres */
    HOCSIMBUR_LC_UPPER,
    HOCSIMBUR_LR_LOWER,              /* LR, length of all rods, micrometres */
    HOCSIMBUR_LR_UPPER,
    HOCSIMBUR_LT_LOWER,              /* LT, both, micrometres */
    HOCSIMBUR_LT_UPPER,
    HOCSIMBUR_LM_LOWER,              /* LM, effective length for the mesh voltage, micrometres */
    HOCSIMBUR_LM_UPPER,
    HOCSIMBUR_LS_LOWER,              /* LS, effective length for the step voltage, micrometres */
    HOCSIMBUR_LS_UPPER,
    HOCSIMBUR_N_LOWER,               /* n, effective number of conductors, ten-millionths */
    HOCSIMBUR_N_UPPER,
    HOCSIMBUR_KI_LOWER,              /* Ki, 10^-10 */
    HOCSIMBUR_KI_UPPER,
    HOCSIMBUR_KII_LOWER,             /* Kii, billionths */
    HOCSIMBUR_KII_UPPER,
    HOCSIMBUR_KH_LOWER,              /* Kh, billionths */
    HOCSIMBUR_KH_UPPER,
    HOCSIMBUR_KM_LOWER,              /* Km, ten-millionths */
    HOCSIMBUR_KM_UPPER,
    HOCSIMBUR_KS_LOWER,              /* Ks, ten-millionths per metre */
    HOCSIMBUR_KS_UPPER,
    HOCSIMBUR_DRIVEN_LOWER,          /* soil resistivity times Ki times grid current over LM, millivolts */
    HOCSIMBUR_DRIVEN_UPPER
};

/* The verdict of a row. */
enum hocsimbur_verdict {
    HOCSIMBUR_SAFE = 1,
    HOCSIMBUR_UNSAFE = 2,
    HOCSIMBUR_UNDECIDED = 3
};

/* The column metal. */
enum hocsimbur_metal {
    HOCSIMBUR_COPPER_SOFT_DRAWN = 1,
    HOCSIMBUR_COPPER_HARD_DRAWN = 2,
    HOCSIMBUR_COPPER_HARD_DRAWN_250_C = 3, /* kept to 250 degrees Celsius */
    HOCSIMBUR_COPPER_CLAD_WIRE_40 = 4,     /* per cent */
    HOCSIMBUR_COPPER_CLAD_WIRE_30 = 5,
    HOCSIMBUR_COPPER_CLAD_ROD = 6,
    HOCSIMBUR_ALUMINUM_CLAD_WIRE = 7,
    HOCSIMBUR_STEEL_1020 = 8,
    HOCSIMBUR_STAINLESS_CLAD_ROD = 9,
    HOCSIMBUR_ZINC_COATED_ROD = 10,
    HOCSIMBUR_STAINLESS_304 = 11
};

/* Refusals; an entry answers their numbers made negative. The order of a sheet's is 1, 2, 4; then line by line 3, 5, 6, 7; then the
 * others. */
enum hocsimbur_refusal {
    HOCSIMBUR_REFUSED_TEXT = 1,          /* sheet empty, over 65,536 bytes, or last byte not 10 */
    HOCSIMBUR_REFUSED_NAME = 2,          /* a name unknown, repeated or missing */
    HOCSIMBUR_REFUSED_FORM = 3,          /* a value of a wrong form, missing, or one too many */
    HOCSIMBUR_REFUSED_LINES = 4,         /* no value line, or more than 256 */
    HOCSIMBUR_REFUSED_RANGE = 5,         /* a value out of its range */
    HOCSIMBUR_REFUSED_PARTS = 6,         /* layer and thick disagree, or rods, rodlen and place */
    HOCSIMBUR_REFUSED_REPEATED = 7,      /* station and season of an earlier line */
    HOCSIMBUR_REFUSED_SHORT = 8,         /* buffer or array too short */
    HOCSIMBUR_REFUSED_TIMES = 9,         /* carry_back: the three times of a line are not equal */
    HOCSIMBUR_REFUSED_COUNTS = 10,       /* carry_back: across and along differ */
    HOCSIMBUR_REFUSED_HERTZ = 11,        /* carry_back: hz is not 60 */
    HOCSIMBUR_REFUSED_READINGS = 12,     /* soil: count of numbers 0, odd or above 128 */
    HOCSIMBUR_REFUSED_DISTANCE = 13,     /* soil: a distance not in 500..50000 mm; the pair as line, column 1 */
    HOCSIMBUR_REFUSED_RESISTANCE = 14,   /* soil: a resistance not in 1..1000000 milliohms; the pair as line, column 2 */
    HOCSIMBUR_REFUSED_SIDE = 15,         /* fewest: a side not in 2500..720000 mm */
    HOCSIMBUR_REFUSED_NO_RODLEN = 16,    /* fewest: rodlen is 0 */
    HOCSIMBUR_REFUSED_TEST = 17,         /* split: count of numbers odd, below 4 or above 34 */
    HOCSIMBUR_REFUSED_PART = 18,         /* split: a part not in -1000000..1000000 mA */
    HOCSIMBUR_REFUSED_NO_CURRENT = 19,   /* split: both injected parts are 0 */
    HOCSIMBUR_REFUSED_SUMMARY = 20,      /* summary: array of stations shorter than six numbers a station */
    HOCSIMBUR_REFUSED_LICENCE = 21,      /* release: count of numbers 0, no multiple of 3 or above 768 */
    HOCSIMBUR_REFUSED_STATION = 22,      /* release: its place in the licence as line; column 1 a wrong station, 2 seasons, 3 area */
    HOCSIMBUR_REFUSED_RELEASE = 23       /* release: array shorter than eight numbers a station */
};

/* The version of the library, as HOCSIMBUR_VERSION is that of the header. */
uint32_t hocsimbur_version(void);

/* The rows of a sheet. Answers the count of rows, 1 to 256. Row i stands at buffer + HOCSIMBUR_ROW_BYTES * i, each number as eight bytes,
 * little-endian, two's complement. Refusals 1 to 8. */
int64_t hocsimbur_rows(const uint8_t *sheet, hocsimbur_size sheet_bytes, uint8_t *buffer, hocsimbur_size buffer_bytes);

/* The same, with a place. */
int64_t hocsimbur_rows_at(const uint8_t *sheet, hocsimbur_size sheet_bytes, uint8_t *buffer, hocsimbur_size buffer_bytes,
                          hocsimbur_size *place, hocsimbur_size place_numbers);

/* The rows of a sheet, 20 numbers a value line, and its stations by first appearance, 6 numbers each: station, lines, lines safe,
 * unsafe and undecided, and the season of the line with the highest upper mesh end. Answers the count of stations. Refusals 1 to 8,
 * then 20. */
int64_t hocsimbur_summary(const uint8_t *sheet, hocsimbur_size sheet_bytes, int64_t *rows, hocsimbur_size rows_numbers, int64_t *stations,
                          hocsimbur_size stations_numbers, hocsimbur_size *place, hocsimbur_size place_numbers);

/* Which stations of a licence may be released on a sheet. The licence has three numbers a station: the station; its seasons, in
 * which seasons 1 to 4 count 1, 2, 4 and 8; and its conductor's own cross-section in whole kcmil, rounded down, 1 to 2000, or 0 for a
 * solid round wire of the line's diameter. Eight numbers a station: station; 1 released, 2 held; licensed seasons without a line;
 * lines unsafe; lines undecided; lines of another yard than the station's first; lines whose conductor is too small; the greatest
 * fault current in A at which every line is safe, or 0. Answers the count of stations. Refusals 1 to 7, then 21, 22, 23. */
int64_t hocsimbur_release(const uint8_t *sheet, hocsimbur_size sheet_bytes, const uint32_t *licence, hocsimbur_size licence_numbers,
                          int64_t *table, hocsimbur_size table_numbers, hocsimbur_size *place, hocsimbur_size place_numbers);

/* How far each value line is from its limits. Two numbers a line: by how many per mille of the tolerable touch voltage the mesh voltage
 * lies above it, and the same of step voltage and tolerable step voltage; negative below. Each is the smallest whole number that the
 * exact voltages are not above. Answers the count of value lines. Refusals 1 to 7, then 8. */
int64_t hocsimbur_margins(const uint8_t *sheet, hocsimbur_size sheet_bytes, int64_t *numbers, hocsimbur_size numbers_numbers,
                          hocsimbur_size *place, hocsimbur_size place_numbers);

/* The quantities between each value line and its row: 30 numbers a line, by enum hocsimbur_quantity. Answers the count of value lines.
 * Refusals 1 to 7, then 8. */
int64_t hocsimbur_working(const uint8_t *sheet, hocsimbur_size sheet_bytes, int64_t *numbers, hocsimbur_size numbers_numbers,
                          hocsimbur_size *place, hocsimbur_size place_numbers);

/* How far the fault current may grow. One number a value line: the greatest fault current in A, 100 to 80000, at which the line, all else
 * equal, is answered safe, or 0 where none is. Answers the count of value lines. Refusals 1 to 7, then 8. */
int64_t hocsimbur_headroom(const uint8_t *sheet, hocsimbur_size sheet_bytes, int64_t *numbers, hocsimbur_size numbers_numbers,
                           hocsimbur_size *place, hocsimbur_size place_numbers);

/* The fewest lines each way, then rods, with which a square yard of a side in mm is safe, all else as in the one value line of a
 * sheet. Answers 1 and three numbers, the lines, the rods and how many yards were tried; or 0 and 0, 0 and how many were tried,
 * none of them safe. The line's own across, along, space, rods and place are not read: any value stands there. Refusals 1, 2, 4 (at
 * line 3 where there are more value lines) and 3 of the sheet; then 5 and 6 of what is read, with line 0 and the column's place in the
 * table of names; then 15, 16, 8. */
int64_t hocsimbur_fewest(const uint8_t *sheet, hocsimbur_size sheet_bytes, uint32_t side, int64_t *numbers, hocsimbur_size numbers_numbers,
                         hocsimbur_size *place, hocsimbur_size place_numbers);

/* A sheet of the former 18 names, with ms and lines, as one of the 22 names above. Answers the count of bytes, at most
 * HOCSIMBUR_SHEET_BYTES. Refusals 1 to 8. */
int64_t hocsimbur_carry(const uint8_t *sheet, hocsimbur_size sheet_bytes, uint8_t *buffer, hocsimbur_size buffer_bytes,
                        hocsimbur_size *place, hocsimbur_size place_numbers);

/* A sheet of the 22 names as one of the former 18. Refusals 1 to 7, then line by line 9, 10, 11, then 8. */
int64_t hocsimbur_carry_back(const uint8_t *sheet, hocsimbur_size sheet_bytes, uint8_t *buffer, hocsimbur_size buffer_bytes,
                             hocsimbur_size *place, hocsimbur_size place_numbers);

/* The soil from four-pin readings: a distance in mm and a resistance in milliohms in turn. Answers 7, the count of numbers: lower
 * and upper end of the least, the greatest and the mean apparent resistivity in micro-ohm metres, and the value for the column
 * soil. Refusals 12, 13, 14, then 8. */
int64_t hocsimbur_soil(const uint32_t *readings, hocsimbur_size readings_numbers, int64_t *numbers, hocsimbur_size numbers_numbers,
                       hocsimbur_size *place, hocsimbur_size place_numbers);

/* The split from a staged test: in-phase and quadrature part in milliamperes of the injected current, then of 1 to 16 branches.
 * Answers 3, the count of numbers: the grid's in-phase and quadrature part in milliamperes, and the split in per mille. Refusals
 * 17, 18, 19, then 8. */
int64_t hocsimbur_split(const int64_t *parts, hocsimbur_size parts_numbers, int64_t *numbers, hocsimbur_size numbers_numbers,
                        hocsimbur_size *place, hocsimbur_size place_numbers);

/* The number at a place of a row of the buffer that hocsimbur_rows filled. */
static inline int64_t hocsimbur_read(const uint8_t *buffer, size_t row, enum hocsimbur_number number) {
    const uint8_t *at = buffer + HOCSIMBUR_ROW_BYTES * row + 8 * (size_t)number;
    uint64_t word = 0;
    int i;
    for (i = 7; i >= 0; i--)
        word = word << 8 | at[i];
    return word >> 63 == 0 ? (int64_t)word : -(int64_t)~word - 1;
}

#ifdef __cplusplus
}
#endif

#endif
