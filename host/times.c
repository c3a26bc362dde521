/* Nanoseconds a row, next to the same rows in doubles: of squares and of rectangles, on one sheet over and over and on sheets seen once. */
#define _POSIX_C_SOURCE 200809L
#include "harness.h"
#include <stdio.h>
#include <string.h>
#include <time.h>

static double seconds(void) {
    struct timespec t;
    clock_gettime(CLOCK_MONOTONIC, &t);
    return (double)t.tv_sec + 1e-9 * (double)t.tv_nsec;
}

static double kept; /* so that no work is left out */

static void work_rows(const char *text, size_t bytes, uint8_t *buffer) {
    kept += (double)hocsimbur_rows((const uint8_t *)text, bytes, buffer, HOCSIMBUR_LINES * HOCSIMBUR_ROW_BYTES);
}

/* the same text read with no checks, and each row in doubles; not inlined, so that tests/host/cost.py finds it by its name */
__attribute__((noinline)) static void work_doubles(const char *text, size_t bytes, uint8_t *buffer) {
    static struct grounding_case cases[HOCSIMBUR_LINES];
    size_t count = read_sheet(text, bytes, cases, HOCSIMBUR_LINES);
    for (size_t i = 0; i < count; i++) {
        struct row_in_doubles r = row_of(&cases[i]);
        memcpy(buffer + HOCSIMBUR_ROW_BYTES * i, &r, sizeof r);
        kept += r.quantity[MESH];
    }
}

typedef void work(const char *, size_t, uint8_t *);

static uint8_t buffer[HOCSIMBUR_LINES * HOCSIMBUR_ROW_BYTES];

/* nanoseconds a row of so many calls on one sheet */
static double time_of(work *w, const char *text, size_t bytes, size_t lines, long times) {
    double start = seconds();
    for (long i = 0; i < times; i++)
        w(text, bytes, buffer);
    return (seconds() - start) / (double)times / (double)lines * 1e9;
}

static double least(double a, double b) {
    return a < b ? a : b;
}

/* the library and the doubles */
struct pair_of_times {
    double ours, doubles;
};

static void print_times(const char *what, size_t lines, struct pair_of_times t) {
    printf("%s,%zu,%.0f,%.0f,%.2f\n", what, lines, t.ours, t.doubles, t.ours / t.doubles);
}

/* the count along: that across, or another */
static void shape(struct grounding_case *c, int rectangle) {
    int across = c->value[ACROSS];
    c->value[ALONG] = !rectangle ? across : across < 14 ? across + 12 : across - 12;
}

static const int order[NAMES] = {STATION, SEASON, SOIL, LAYER, THICK, SHOCK, CLEAR, WIRE, BODY, FAULT, SPLIT,
                                 XR, ACROSS, ALONG, SPACE, DEPTH, DIA, RODS, RODLEN, PLACE, METAL, HZ};

/* one sheet over and over: the least of two hundred runs, which are short so that some meet no other work of the machine */
static struct pair_of_times over_and_over(const struct grounding_case *cases, size_t lines) {
    static char sheet[MOST_TEXT];
    struct pair_of_times t = {1e99, 1e99};
    size_t bytes = write_sheet(cases, lines, order, sheet);
    for (int run = 0; run < 200; run++) {
        t.ours = least(t.ours, time_of(work_rows, sheet, bytes, lines, 500 / (long)lines + 1));
        t.doubles = least(t.doubles, time_of(work_doubles, sheet, bytes, lines, 500 / (long)lines + 1));
    }
    return t;
}

/* the least of many sheets at random, each asked once; which of the two comes first on a sheet goes by turns */
static struct pair_of_times seen_once(size_t lines, int rectangles) {
    static char sheet[MOST_TEXT];
    static struct grounding_case cases[HOCSIMBUR_LINES];
    struct chance c = {1};
    struct pair_of_times t = {1e99, 1e99};
    for (int run = 0; run < 400; run++) {
        for (size_t i = 0; i < lines; i++) {
            cases[i] = random_case(&c);
            cases[i].value[STATION] = 1 + (int)i;
            shape(&cases[i], rectangles);
        }
        size_t bytes = write_sheet(cases, lines, order, sheet);
        if (run % 2 == 0)
            t.ours = least(t.ours, time_of(work_rows, sheet, bytes, lines, 1));
        t.doubles = least(t.doubles, time_of(work_doubles, sheet, bytes, lines, 1));
        if (run % 2 != 0)
            t.ours = least(t.ours, time_of(work_rows, sheet, bytes, lines, 1));
    }
    return t;
}

/* the text of a sheet and its cases; answers its bytes */
static size_t load(const char *path, char *text, struct grounding_case *cases, size_t *count) {
    FILE *in = fopen(path, "rb");
    if (in == NULL)
        stop("no such sheet");
    size_t bytes = fread(text, 1, MOST_TEXT, in);
    fclose(in);
    *count = read_sheet(text, bytes, cases, HOCSIMBUR_LINES);
    if (*count == 0)
        stop("no value line in the sheet to time");
    return bytes;
}

static void ask_headroom(const char *text, size_t bytes) {
    static int64_t numbers[HOCSIMBUR_LINES];
    kept += (double)hocsimbur_headroom((const uint8_t *)text, bytes, numbers, HOCSIMBUR_LINES, NULL, 0);
}

/* a licence for each station of the sheet, which stand one after the other, with the seasons of its lines */
static void ask_release(const char *text, size_t bytes, const struct grounding_case *cases, size_t count) {
    static uint32_t licence[HOCSIMBUR_LICENCE_NUMBERS * HOCSIMBUR_LINES];
    static int64_t table[8 * HOCSIMBUR_LINES];
    size_t stations = 0;
    for (size_t i = 0; i < count; i++) {
        const int *v = cases[i].value;
        if (stations == 0 || licence[3 * stations - 3] != (uint32_t)v[STATION]) {
            licence[3 * stations] = (uint32_t)v[STATION];
            licence[3 * stations + 1] = 0;
            licence[3 * stations + 2] = 0;
            stations++;
        }
        licence[3 * stations - 2] |= UINT32_C(1) << (v[SEASON] - 1);
    }
    kept += (double)hocsimbur_release((const uint8_t *)text, bytes, licence, 3 * stations, table, 8 * HOCSIMBUR_LINES, NULL, 0);
}

void run_ask(const char *question, const char *path) {
    static char text[MOST_TEXT];
    static struct grounding_case cases[HOCSIMBUR_LINES];
    size_t count, bytes = load(path, text, cases, &count);
    kept = 0;
    if (strcmp(question, "rows") == 0)
        work_rows(text, bytes, buffer);
    else if (strcmp(question, "doubles") == 0)
        work_doubles(text, bytes, buffer);
    else if (strcmp(question, "headroom") == 0)
        ask_headroom(text, bytes);
    else if (strcmp(question, "release") == 0)
        ask_release(text, bytes, cases, count);
    else
        stop("ask rows, doubles, headroom or release");
    printf("%.0f\n", kept);
}

void run_times(const char *path) {
    static char text[MOST_TEXT];
    static struct grounding_case cases[HOCSIMBUR_LINES];
    static const char *const shapes[] = {"squares", "rectangles"}, *const once[] = {"squares seen once", "rectangles seen once"};
    static const size_t lines[] = {1, 64, 256};
    size_t count;
    load(path, text, cases, &count);
    printf("sheet,lines,ns_a_row,ns_a_row_in_doubles,ratio\n");
    for (int rectangles = 0; rectangles < 2; rectangles++) {
        for (size_t i = 0; i < HOCSIMBUR_LINES; i++) {
            cases[i] = cases[i % count];
            cases[i].value[STATION] = 1 + (int)i;
            shape(&cases[i], rectangles);
        }
        for (size_t k = 0; k < sizeof lines / sizeof *lines; k++)
            print_times(shapes[rectangles], lines[k], over_and_over(cases, lines[k]));
        print_times(once[rectangles], HOCSIMBUR_LINES, seen_once(HOCSIMBUR_LINES, rectangles));
    }
}
