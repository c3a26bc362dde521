/* What must hold of every answer, on random sheets. */
#include "harness.h"
#include <math.h>
#include <stdio.h>
#include <string.h>

enum { REFUSALS = 8, UNTOLD = 7777777 };

/* a pair encloses the double, which may be off by a few of its last digits */
static int encloses(int64_t lower, int64_t upper, double d) {
    double slack = 1e-6 + fabs(d) * 1e-11;
    return (double)lower <= d + slack && d - slack <= (double)upper;
}

static void check_row(const uint8_t *rows, size_t i, const struct grounding_case *c) {
    struct row_in_doubles d = row_of(c);
    int64_t verdict = hocsimbur_read(rows, i, HOCSIMBUR_VERDICT), kcmil = hocsimbur_read(rows, i, HOCSIMBUR_KCMIL);
    if (hocsimbur_read(rows, i, HOCSIMBUR_STATION) != c->value[STATION] || hocsimbur_read(rows, i, HOCSIMBUR_SEASON) != c->value[SEASON])
        stop("a row of another case");
    if (verdict != d.verdict && verdict != HOCSIMBUR_UNDECIDED)
        stop("another verdict than in doubles");
    if (fabs((double)kcmil - d.kcmil) > 1)
        stop("another size than in doubles");
    for (int k = 0; k < QUANTITIES; k++) {
        enum hocsimbur_number lower = (enum hocsimbur_number)(HOCSIMBUR_CURRENT_LOWER + 2 * k), upper = (enum hocsimbur_number)(HOCSIMBUR_CURRENT_UPPER + 2 * k);
        if (!encloses(hocsimbur_read(rows, i, lower), hocsimbur_read(rows, i, upper), d.quantity[k]))
            stop("ends that do not enclose the double");
    }
}

static void check_answer(const struct trial *t, const uint8_t *before, const uint8_t *after, size_t bytes, int64_t answer) {
    if (answer == 0 || answer < -REFUSALS || answer > HOCSIMBUR_LINES)
        stop("an answer out of its range");
    size_t written = answer > 0 ? (size_t)answer * HOCSIMBUR_ROW_BYTES : 0;
    if (written > bytes)
        stop("more rows than the buffer has room for");
    if (memcmp(before + written, after + written, bytes - written) != 0)
        stop(answer > 0 ? "a byte past the last row is changed" : "a refusal that changes the buffer");
    if (!t->sound)
        return;
    if (answer != (bytes < t->lines * HOCSIMBUR_ROW_BYTES ? -REFUSALS : (int64_t)t->lines))
        stop("another answer to a sound sheet");
    for (size_t i = 0; answer > 0 && i < t->lines; i++)
        check_row(after, i, &t->cases[i]);
}

/* the entry with a place: the same answer and bytes, and a place that only a refusal changes */
static void check_place(struct chance *c, const uint8_t *sheet, size_t sheet_bytes, const uint8_t *before, const uint8_t *after, uint8_t *again, size_t bytes, int64_t answer) {
    size_t place[4] = {UNTOLD, UNTOLD, UNTOLD, UNTOLD}, numbers = (size_t)number_below(c, 4);
    memcpy(again, before, bytes);
    if (hocsimbur_rows_at(sheet, sheet_bytes, again, bytes, place, numbers) != answer || memcmp(again, after, bytes) != 0)
        stop("another answer with a place");
    int told = answer < 0 && numbers >= 2;
    if ((place[0] != UNTOLD) != told || (place[1] != UNTOLD) != told || place[2] != UNTOLD || place[3] != UNTOLD)
        stop("a place changed where it must not be, or not where it must");
    if (told && (place[0] > HOCSIMBUR_LINES + 2 || place[1] > HOCSIMBUR_SHEET_BYTES + 1))
        stop("a place out of its range");
}

void run_random(uint64_t seed, long count) {
    static struct trial t;
    static uint8_t before[MOST_BUFFER];
    struct chance c = {seed * UINT64_C(0x9E3779B97F4A7C15) + 1};
    uint8_t *text_end = guarded(MOST_TEXT), *after_end = guarded(MOST_BUFFER), *again_end = guarded(MOST_BUFFER);
    long answers[REFUSALS + 1] = {0}, rows = 0;
    for (long k = 0; k < count; k++) {
        make_trial(&c, &t);
        size_t need = t.lines * HOCSIMBUR_ROW_BYTES, bytes = need + (size_t)number_below(&c, 400);
        if (number_below(&c, 8) == 0)
            bytes = (size_t)number_below(&c, (int)need + 1);
        uint8_t *sheet = text_end - t.bytes, *after = after_end - bytes, *again = again_end - bytes;
        memcpy(sheet, t.text, t.bytes);
        for (size_t i = 0; i < bytes; i++)
            before[i] = (uint8_t)(c.state >> (i % 56));
        memcpy(after, before, bytes);
        int64_t answer = hocsimbur_rows(sheet, t.bytes, after, bytes);
        check_answer(&t, before, after, bytes, answer);
        check_place(&c, sheet, t.bytes, before, after, again, bytes, answer);
        answers[answer < 0 ? -answer : 0]++;
        rows += answer > 0 ? answer : 0;
    }
    printf("seed %llu: %ld sheets, %ld with %ld rows; refused", (unsigned long long)seed, count, answers[0], rows);
    for (int i = 1; i <= REFUSALS; i++)
        printf(" %ld with %d%s", answers[i], i, i < REFUSALS ? "," : "\n");
}
