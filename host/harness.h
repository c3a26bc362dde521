/* The parts of the harness. */
#ifndef HARNESS_H
#define HARNESS_H

#include "cases.h"
#include <hocsimbur.h>

enum { MOST_TEXT = 2 * HOCSIMBUR_SHEET_BYTES, MOST_BUFFER = HOCSIMBUR_LINES * HOCSIMBUR_ROW_BYTES + 4096 };

/* a sheet, and its cases where it is sound */
struct trial {
    struct grounding_case cases[HOCSIMBUR_LINES + 2];
    size_t lines;
    int sound;
    char text[MOST_TEXT];
    size_t bytes;
};

/* what is wrong, and the end */
__attribute__((noreturn)) void stop(const char *why);

/* the end of so much memory, past which no page may be touched: a byte read or written there stops the program */
uint8_t *guarded(size_t bytes);

void make_trial(struct chance *c, struct trial *t);
void run_random(uint64_t seed, long count);
void serve(void);
void run_times(const char *path);
void run_ask(const char *question, const char *path);
void run_stack(void);
void run_edges(void);

#endif
