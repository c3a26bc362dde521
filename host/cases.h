/* The cases of a sheet, for programs that test and time the entry: made at random, written as text, and worked in doubles. */
#ifndef CASES_H
#define CASES_H

#include <stddef.h>
#include <stdint.h>

enum { STATION, SEASON, SOIL, LAYER, THICK, SHOCK, CLEAR, WIRE, BODY, FAULT, SPLIT, XR, ACROSS, ALONG, SPACE, DEPTH, DIA, RODS, RODLEN, PLACE, METAL, HZ, NAMES };

extern const char *const names[NAMES];

/* the values in the order of the names */
struct grounding_case {
    int value[NAMES];
};

/* the numbers of a row as doubles: one for each pair, in the row's units */
enum { CURRENT, FACTOR, TOUCH, TOLERABLE_STEP, MESH, STEP, RESISTANCE, RISE, QUANTITIES };

struct row_in_doubles {
    int verdict;
    double kcmil;
    double quantity[QUANTITIES];
};

/* a stream of random numbers */
struct chance {
    uint64_t state;
};

uint64_t next_number(struct chance *c);
int number_below(struct chance *c, int n);

/* a case within its ranges, whose layer and rods agree */
struct grounding_case random_case(struct chance *c);

/* the text of a sheet with the names in some order; answers its bytes */
size_t write_sheet(const struct grounding_case *cases, size_t count, const int order[NAMES], char *text);

/* the cases of a sound sheet of at most `most` lines, read with no checks; answers how many */
size_t read_sheet(const char *text, size_t bytes, struct grounding_case *cases, size_t most);

struct row_in_doubles row_of(const struct grounding_case *c);

#endif
