/* Calls the entries in process.
 *
 *     harness random SEED COUNT    random sheets, sound and damaged: what must hold of every answer
 *     harness serve                sheets in and answers out, with their lengths, for a judge
 *     harness time SHEET           nanoseconds a row, next to the same rows in doubles
 *     harness ask QUESTION SHEET   rows, doubles, headroom or release of the sheet, once: for a count of instructions
 *     harness stack                the stack that a call of each entry takes on the longest sheet
 *     harness edges                null pointers with length 0, and numbers read from bytes made by hand
 *
 * Exit status 1 and a line on standard error for what is wrong. */
#define _DEFAULT_SOURCE
#include "harness.h"
#include <stdio.h>
#include <stdlib.h>
#include <string.h>
#include <sys/mman.h>
#include <unistd.h>

__attribute__((noreturn)) void stop(const char *why) {
    fprintf(stderr, "harness: %s\n", why);
    exit(1);
}

uint8_t *guarded(size_t bytes) {
    size_t page = (size_t)sysconf(_SC_PAGESIZE), whole = (bytes + page - 1) / page * page;
    uint8_t *start = mmap(NULL, whole + 2 * page, PROT_READ | PROT_WRITE, MAP_PRIVATE | MAP_ANONYMOUS, -1, 0);
    if (start == MAP_FAILED || mprotect(start, page, PROT_NONE) != 0 || mprotect(start + page + whole, page, PROT_NONE) != 0)
        stop("no memory");
    return start + page + whole;
}

int main(int count, char **words) {
    if (count == 4 && strcmp(words[1], "random") == 0)
        run_random(strtoull(words[2], NULL, 10), strtol(words[3], NULL, 10));
    else if (count == 2 && strcmp(words[1], "serve") == 0)
        serve();
    else if (count == 3 && strcmp(words[1], "time") == 0)
        run_times(words[2]);
    else if (count == 4 && strcmp(words[1], "ask") == 0)
        run_ask(words[2], words[3]);
    else if (count == 2 && strcmp(words[1], "stack") == 0)
        run_stack();
    else if (count == 2 && strcmp(words[1], "edges") == 0)
        run_edges();
    else
        stop("random SEED COUNT, serve, time SHEET, ask QUESTION SHEET, stack, or edges");
    return 0;
}
