/* Null pointers with length 0, and numbers read from bytes made by hand. */
#include "harness.h"
#include <stdio.h>

static void expect(int64_t answer, int64_t wanted, const char *entry) {
    if (answer != wanted) {
        fprintf(stderr, "harness: %s answers %lld, not %lld\n", entry, (long long)answer, (long long)wanted);
        stop("another answer with a null pointer");
    }
}

/* every pointer null: the answer is that of empty slices */
static void ask_nulls(void) {
    expect(hocsimbur_rows(NULL, 0, NULL, 0), -HOCSIMBUR_REFUSED_TEXT, "rows");
    expect(hocsimbur_rows_at(NULL, 0, NULL, 0, NULL, 0), -HOCSIMBUR_REFUSED_TEXT, "rows_at");
    expect(hocsimbur_summary(NULL, 0, NULL, 0, NULL, 0, NULL, 0), -HOCSIMBUR_REFUSED_TEXT, "summary");
    expect(hocsimbur_release(NULL, 0, NULL, 0, NULL, 0, NULL, 0), -HOCSIMBUR_REFUSED_TEXT, "release");
    expect(hocsimbur_margins(NULL, 0, NULL, 0, NULL, 0), -HOCSIMBUR_REFUSED_TEXT, "margins");
    expect(hocsimbur_working(NULL, 0, NULL, 0, NULL, 0), -HOCSIMBUR_REFUSED_TEXT, "working");
    expect(hocsimbur_headroom(NULL, 0, NULL, 0, NULL, 0), -HOCSIMBUR_REFUSED_TEXT, "headroom");
    expect(hocsimbur_fewest(NULL, 0, 70000, NULL, 0, NULL, 0), -HOCSIMBUR_REFUSED_TEXT, "fewest");
    expect(hocsimbur_carry(NULL, 0, NULL, 0, NULL, 0), -HOCSIMBUR_REFUSED_TEXT, "carry");
    expect(hocsimbur_carry_back(NULL, 0, NULL, 0, NULL, 0), -HOCSIMBUR_REFUSED_TEXT, "carry_back");
    expect(hocsimbur_soil(NULL, 0, NULL, 0, NULL, 0), -HOCSIMBUR_REFUSED_READINGS, "soil");
    expect(hocsimbur_split(NULL, 0, NULL, 0, NULL, 0), -HOCSIMBUR_REFUSED_TEST, "split");
}

/* a sound sheet, and null where the rest would stand */
static void ask_beside_nulls(void) {
    static struct trial t;
    struct chance c = {1};
    do
        make_trial(&c, &t);
    while (!t.sound);
    const uint8_t *sheet = (const uint8_t *)t.text;
    static int64_t rows[HOCSIMBUR_LINES * HOCSIMBUR_NUMBERS];
    uint32_t readings[2] = {1000, 10000};
    int64_t parts[4] = {1000, 0, 400, 0};
    expect(hocsimbur_rows(sheet, t.bytes, NULL, 0), -HOCSIMBUR_REFUSED_SHORT, "rows");
    expect(hocsimbur_rows_at(sheet, t.bytes, NULL, 0, NULL, 0), -HOCSIMBUR_REFUSED_SHORT, "rows_at");
    expect(hocsimbur_summary(sheet, t.bytes, rows, HOCSIMBUR_LINES * HOCSIMBUR_NUMBERS, NULL, 0, NULL, 0), -HOCSIMBUR_REFUSED_SUMMARY, "summary");
    expect(hocsimbur_release(sheet, t.bytes, NULL, 0, NULL, 0, NULL, 0), -HOCSIMBUR_REFUSED_LICENCE, "release");
    expect(hocsimbur_margins(sheet, t.bytes, NULL, 0, NULL, 0), -HOCSIMBUR_REFUSED_SHORT, "margins");
    expect(hocsimbur_working(sheet, t.bytes, NULL, 0, NULL, 0), -HOCSIMBUR_REFUSED_SHORT, "working");
    expect(hocsimbur_headroom(sheet, t.bytes, NULL, 0, NULL, 0), -HOCSIMBUR_REFUSED_SHORT, "headroom");
    expect(hocsimbur_soil(readings, 2, NULL, 0, NULL, 0), -HOCSIMBUR_REFUSED_SHORT, "soil");
    expect(hocsimbur_split(parts, 4, NULL, 0, NULL, 0), -HOCSIMBUR_REFUSED_SHORT, "split");
}

/* what is read from the bytes of the second row's first numbers */
static void read_numbers(void) {
    static const struct {
        uint8_t bytes[8];
        int64_t number;
    } made[] = {{{0}, 0},
                {{1}, 1},
                {{0xFF, 0xFF, 0xFF, 0xFF, 0xFF, 0xFF, 0xFF, 0xFF}, -1},
                {{0x00, 0xFF, 0xFF, 0xFF, 0xFF, 0xFF, 0xFF, 0xFF}, -256},
                {{0xFF, 0xFE, 0xFF, 0xFF, 0xFF, 0xFF, 0xFF, 0xFF}, -257},
                {{0xFF, 0xFF, 0xFF, 0xFF, 0xFF, 0xFF, 0xFF, 0x7F}, INT64_MAX},
                {{0, 0, 0, 0, 0, 0, 0, 0x80}, INT64_MIN}};
    uint8_t buffer[2 * HOCSIMBUR_ROW_BYTES] = {0};
    for (size_t i = 0; i < sizeof made / sizeof *made; i++)
        for (size_t k = 0; k < 8; k++)
            buffer[HOCSIMBUR_ROW_BYTES + 8 * i + k] = made[i].bytes[k];
    for (size_t i = 0; i < sizeof made / sizeof *made; i++)
        if (hocsimbur_read(buffer, 1, (enum hocsimbur_number)i) != made[i].number)
            stop("another number read from bytes made by hand");
}

void run_edges(void) {
    if (hocsimbur_version() != HOCSIMBUR_VERSION)
        stop("the library's version is not the header's");
    ask_nulls();
    ask_beside_nulls();
    read_numbers();
    printf("null pointers with length 0 are answered, and numbers made by hand are read\n");
}
