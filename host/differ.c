/* Asks two builds of the library the same questions and compares every answer and every byte of every buffer.
 *
 *     differ tape SEED COUNT > TAPE     random sheets, valid and damaged, each asked of every entry, with the answers of this build
 *     differ tape-of > TAPE             the same with what inputs.py writes
 *     differ replay < TAPE              asks this build; exit status 1 and a line for each of the first disagreements
 *
 * `tape` runs on one platform and `replay` on another; replay.mjs is the replay for hocsimbur.wasm. A tape starts with every entry asked
 * with nothing but null pointers, and with a valid sheet and no room for the answer. Sheets come from host/sheets.c and host/cases.c. */
#include "harness.h"
#include <inttypes.h>
#include <stdio.h>
#include <stdlib.h>
#include <string.h>
#ifdef _WIN32
#include <fcntl.h>
#include <io.h>
#endif

enum { VERSION, ROWS, ROWS_AT, SUMMARY, RELEASE, MARGINS, WORKING, HEADROOM, FEWEST, CARRY, CARRY_BACK, SOIL_OF, SPLIT_OF, ENTRIES };
static const char *const entries[ENTRIES] = {"version", "rows",     "rows_at", "summary", "release",    "margins", "working",
                                             "headroom", "fewest", "carry",   "carry_back", "soil",  "split"};

enum { EDGE = 64, MOST_READ = 8 * HOCSIMBUR_SHEET_BYTES, MOST_WRITTEN = 4 * HOCSIMBUR_SHEET_BYTES, MOST_LICENCE = 4096 };

/* A question: the lengths of what is read (a sheet or numbers, then a licence) and of what is written, all in bytes. `seed` fills what is
 * written beforehand, and where it is odd every length of 0 comes with a null pointer; `shift` moves bytes, which need no alignment. */
struct question {
    uint32_t entry, side, shift, read, licence, first, second, place;
    uint64_t seed;
};

static _Alignas(8) uint8_t reading[MOST_READ + 2 * EDGE], licence[MOST_LICENCE + 2 * EDGE];
static _Alignas(8) uint8_t written[3][MOST_WRITTEN + 2 * EDGE], kept[MOST_WRITTEN + 2 * EDGE];

static void fill(uint8_t *at, size_t bytes, uint64_t seed) {
    for (size_t i = 0; i < bytes; i++)
        at[i] = (uint8_t)(seed >> i % 57);
}

static int by_bytes(uint32_t entry) { return entry == ROWS || entry == ROWS_AT || entry == CARRY || entry == CARRY_BACK; }

/* the written buffers with their edges: the first from its shift */
static size_t length_of(const struct question *q, int k) { return k == 0 ? q->first : k == 1 ? q->second : q->place; }
static uint8_t *start_of(const struct question *q, int k) { return written[k] + EDGE + (k == 0 && by_bytes(q->entry) ? q->shift : 0); }

/* the same pointer, or null where nothing stands there and the question says so */
static void *lent(const struct question *q, void *at, uint32_t bytes) { return bytes == 0 && q->seed % 2 == 1 ? NULL : at; }

static int64_t ask(const struct question *q) {
    for (int k = 0; k < 3; k++)
        fill(written[k], length_of(q, k) + 2 * EDGE, q->seed + (uint64_t)k);
    const uint8_t *sheet = lent(q, reading + EDGE + q->shift, q->read);
    const void *list = lent(q, reading + EDGE, q->read);
    const uint32_t *numbers = lent(q, licence + EDGE, q->licence);
    uint8_t *buffer = lent(q, start_of(q, 0), q->first);
    int64_t *first = lent(q, start_of(q, 0), q->first), *second = lent(q, start_of(q, 1), q->second);
    hocsimbur_size *place = lent(q, start_of(q, 2), q->place), room = q->first / 8, told = q->place / 8;
    switch (q->entry) {
    case VERSION:
        return hocsimbur_version();
    case ROWS:
        return hocsimbur_rows(sheet, q->read, buffer, q->first);
    case ROWS_AT:
        return hocsimbur_rows_at(sheet, q->read, buffer, q->first, place, told);
    case SUMMARY:
        return hocsimbur_summary(sheet, q->read, first, room, second, q->second / 8, place, told);
    case RELEASE:
        return hocsimbur_release(sheet, q->read, numbers, q->licence / 4, first, room, place, told);
    case MARGINS:
        return hocsimbur_margins(sheet, q->read, first, room, place, told);
    case WORKING:
        return hocsimbur_working(sheet, q->read, first, room, place, told);
    case HEADROOM:
        return hocsimbur_headroom(sheet, q->read, first, room, place, told);
    case FEWEST:
        return hocsimbur_fewest(sheet, q->read, q->side, first, room, place, told);
    case CARRY:
        return hocsimbur_carry(sheet, q->read, buffer, q->first, place, told);
    case CARRY_BACK:
        return hocsimbur_carry_back(sheet, q->read, buffer, q->first, place, told);
    case SOIL_OF:
        return hocsimbur_soil(list, q->read / 4, first, room, place, told);
    default:
        return hocsimbur_split(list, q->read / 8, first, room, place, told);
    }
}

static void die(const char *why) {
    fprintf(stderr, "differ: %s\n", why);
    exit(1);
}

static int fits(const struct question *q) {
    return q->read <= MOST_READ && q->licence <= MOST_LICENCE && q->first <= MOST_WRITTEN && q->second <= MOST_WRITTEN
        && q->place <= MOST_WRITTEN;
}

/* asks, and writes question and answer; the edges go with the buffers */
static int64_t record(const struct question *q) {
    if (!fits(q))
        die("a question that is too long");
    int64_t answer = ask(q);
    int sheet = q->entry < SOIL_OF;
    fwrite(q, sizeof *q, 1, stdout);
    fwrite(reading + EDGE + (sheet ? q->shift : 0), 1, q->read, stdout);
    fwrite(licence + EDGE, 1, q->licence, stdout);
    fwrite(&answer, sizeof answer, 1, stdout);
    for (int k = 0; k < 3; k++)
        fwrite(written[k], 1, length_of(q, k) + 2 * EDGE, stdout);
    return answer;
}

/* about so many bytes: enough and to spare, one number too few, or any count below */
static uint32_t room(struct chance *c, size_t need, uint32_t unit) {
    int kind = number_below(c, 10);
    uint32_t units = (uint32_t)need / unit;
    if (kind == 0 && units > 0)
        units--;
    else
        units = kind == 1 ? (uint32_t)number_below(c, (int)units + 1) : units + (uint32_t)number_below(c, 5);
    return units * unit;
}

/* a number of a range, sometimes one past it or any */
static uint64_t about(struct chance *c, int64_t low, int64_t high) {
    int kind = number_below(c, 400);
    int64_t n = low + (int64_t)(next_number(c) % (uint64_t)(high - low + 1));
    if (kind == 0)
        return next_number(c);
    return (uint64_t)(kind == 1 ? high + 1 : kind == 2 ? low - 1 : kind < 40 ? high : kind < 80 ? low : n);
}

static void put_sheet(struct question *q, const void *text, size_t bytes) {
    q->read = (uint32_t)bytes;
    memcpy(reading + EDGE + q->shift, text, bytes);
}

/* every entry on a sheet with about so many lines, of stations 1.. where they are ours */
static void record_sheet(struct chance *c, const void *text, size_t bytes, size_t lines) {
    static const uint32_t widths[ENTRIES] = {0, 160, 160, 160, 64, 16, 240, 8, 24, 0, 0, 56, 24};
    static uint8_t back[2 * HOCSIMBUR_SHEET_BYTES];
    int64_t former = 0;
    for (uint32_t entry = ROWS; entry <= CARRY_BACK; entry++) {
        struct question q = {.entry = entry, .shift = (uint32_t)number_below(c, 8), .seed = next_number(c)};
        q.place = 8 * (uint32_t)number_below(c, 4);
        if (entry == FEWEST && lines > 1 && number_below(c, 4))
            continue;
        size_t need = entry == FEWEST ? 24 : widths[entry] * lines;
        if (entry == RELEASE) {
            uint32_t stations[256][3], count = 1 + (uint32_t)number_below(c, (int)(lines < 200 ? lines + 2 : 250));
            for (uint32_t i = 0; i < count; i++) {
                stations[i][0] = number_below(c, 300) == 0 ? (uint32_t)next_number(c) : i + 1;
                stations[i][1] = number_below(c, 100) == 0 ? (uint32_t)number_below(c, 20) : 1 + (uint32_t)number_below(c, 15);
                stations[i][2] = number_below(c, 2) == 0 ? 0 : (uint32_t)number_below(c, number_below(c, 200) == 0 ? 2100 : 2001);
            }
            q.licence = 12 * count - (number_below(c, 40) == 0 ? 4 : 0);
            memcpy(licence + EDGE, stations, q.licence);
            need = 64 * count;
        }
        if (entry == CARRY || entry == CARRY_BACK)
            need = bytes < HOCSIMBUR_SHEET_BYTES ? bytes + 64 * lines : HOCSIMBUR_SHEET_BYTES;
        q.first = room(c, need, by_bytes(entry) ? 1 : 8);
        q.second = entry == SUMMARY ? room(c, 48 * lines, 8) : 0;
        q.side = (uint32_t)about(c, 2500, 720000);
        put_sheet(&q, text, bytes);
        int64_t answer = record(&q);
        if (entry == CARRY_BACK && answer > 0)
            memcpy(back, start_of(&q, 0), (size_t)(former = answer));
    }
    if (former > 0) {             /* a sheet of the former names, there and back, and damaged */
        struct question q = {.entry = CARRY, .shift = (uint32_t)number_below(c, 8), .place = 16, .seed = next_number(c)};
        if (number_below(c, 3) == 0)
            back[number_below(c, (int)former)] = (uint8_t)",\n0159"[number_below(c, 6)];
        q.first = room(c, (size_t)former + 64 * lines + 100, 1);
        put_sheet(&q, back, (size_t)former);
        record(&q);
    }
}

static void record_numbers(struct chance *c) {
    struct question q = {.entry = SOIL_OF, .place = 8 * (uint32_t)number_below(c, 4), .first = room(c, 56, 8), .seed = next_number(c)};
    uint32_t *readings = (uint32_t *)(void *)(reading + EDGE);
    q.read = 4 * (number_below(c, 20) ? 2 + 2 * (uint32_t)number_below(c, 64) : (uint32_t)number_below(c, 140));
    for (uint32_t i = 0; i < q.read / 4; i++)
        readings[i] = (uint32_t)(i % 2 ? about(c, 1, 1000000) : about(c, 500, 50000));
    record(&q);
    struct question p = {.entry = SPLIT_OF, .place = 8 * (uint32_t)number_below(c, 4), .first = room(c, 24, 8), .seed = next_number(c)};
    int64_t *parts = (int64_t *)(void *)(reading + EDGE);
    p.read = 8 * (number_below(c, 20) ? 4 + 2 * (uint32_t)number_below(c, 16) : (uint32_t)number_below(c, 40));
    int64_t most = number_below(c, 3) ? 1000000 : 1 + number_below(c, 5000);
    for (uint32_t i = 0; i < p.read / 8; i++)
        parts[i] = (int64_t)about(c, -most, most);
    record(&p);
    struct question v = {.entry = VERSION, .seed = next_number(c)};
    record(&v);
}

/* every entry with nothing, and with a valid sheet or list and no room, by null pointers and by others, and places of 0 to 3 numbers */
static void record_edges(void) {
    static struct trial t;
    struct chance c = {1};
    do
        make_trial(&c, &t);
    while (!t.sound || t.lines > 1);
    for (uint32_t entry = VERSION; entry < ENTRIES; entry++)
        for (uint32_t kind = 0; kind < 16; kind++) {
            struct question q = {.entry = entry, .place = 8 * (kind / 4), .seed = kind % 2, .side = 70000};
            if (kind & 2 && entry != VERSION && entry < SOIL_OF)
                put_sheet(&q, t.text, t.bytes);
            else if (kind & 2 && entry != VERSION) {
                uint32_t readings[2] = {1000, 10000};
                int64_t parts[4] = {1000, 0, 400, 0};
                q.read = entry == SOIL_OF ? sizeof readings : sizeof parts;
                memcpy(reading + EDGE, entry == SOIL_OF ? (void *)readings : (void *)parts, q.read);
            }
            record(&q);
        }
}

static void tape(uint64_t seed, long count) {
    static struct trial t;
    struct chance c = {seed * UINT64_C(0x9E3779B97F4A7C15) + 1};
    record_edges();
    for (long k = 0; k < count; k++) {
        make_trial(&c, &t);
        if (t.sound && number_below(&c, 3) == 0) { /* one that the former names can say */
            int order[NAMES];
            for (int i = 0; i < NAMES; i++)
                order[i] = i;
            for (size_t i = 0; i < t.lines; i++) {
                int *v = t.cases[i].value;
                v[CLEAR] = v[WIRE] = v[SHOCK];
                v[ALONG] = v[ACROSS];
                v[HZ] = 60;
                v[STATION] = 1 + (int)i / 2;
                v[SEASON] = 1 + (int)i % 2;
            }
            t.bytes = write_sheet(t.cases, t.lines, order, t.text);
        }
        record_sheet(&c, t.text, t.bytes, t.lines);
        record_numbers(&c);
    }
}

static void tape_of(void) {
    static _Alignas(8) uint8_t given[MOST_READ];
    struct chance c = {1};
    record_edges();
    for (uint32_t head[2]; fread(head, 8, 1, stdin) == 1;) {
        if (head[1] > sizeof given - 8 || fread(given, 1, head[1], stdin) != head[1])
            die("an input that is too long or cut off");
        if (head[0] == 0) {
            size_t lines = 0;
            for (uint32_t i = 0; i < head[1]; i++)
                lines += given[i] == '\n';
            record_sheet(&c, given, head[1], lines > 257 ? 256 : lines > 1 ? lines - 1 : 1);
        } else
            for (uint32_t spare = 0; spare < 3; spare++) { /* with as much room as it takes, more, and none */
                uint32_t need = head[0] == 1 ? 56 : 24;
                struct question q = {.entry = head[0] == 1 ? SOIL_OF : SPLIT_OF, .read = head[1], .place = 16};
                q.seed = next_number(&c);
                q.first = spare == 2 ? 0 : need + 8 * spare;
                memcpy(reading + EDGE, given, head[1]);
                record(&q);
            }
    }
}

static void take(void *at, size_t bytes) {
    if (fread(at, 1, bytes, stdin) != bytes)
        die("a tape that is cut off");
}

static int replay(void) {
    struct question q;
    long count = 0, wrong = 0, asked[ENTRIES] = {0}, refused = 0;
    uint64_t bytes = 0;
    while (fread(&q, sizeof q, 1, stdin) == 1) {
        int64_t wanted, got;
        if (q.entry >= ENTRIES || !fits(&q))
            die("not a tape");
        take(reading + EDGE + (q.entry < SOIL_OF ? q.shift : 0), q.read);
        take(licence + EDGE, q.licence);
        take(&wanted, sizeof wanted);
        got = ask(&q);
        int differs = got != wanted;
        for (int k = 0; k < 3; k++) {
            size_t n = length_of(&q, k) + 2 * EDGE;
            take(kept, n);
            differs |= memcmp(kept, written[k], n) != 0;
            bytes += n;
        }
        if (differs && wrong++ < 10)
            fprintf(stderr, "differ: question %ld, %s: %" PRId64 ", not %" PRId64 ", or other bytes\n", count, entries[q.entry], got,
                    wanted);
        count++, asked[q.entry]++, refused += wanted < 0;
    }
    printf("%ld questions (", count);
    for (int i = 0; i < ENTRIES; i++)
        printf("%s%s %ld", i ? ", " : "", entries[i], asked[i]);
    printf("), %ld refused, %" PRIu64 " bytes compared: %ld disagree\n", refused, bytes, wrong);
    return wrong != 0 || count == 0;
}

int main(int count, char **words) {
#ifdef _WIN32
    _setmode(_fileno(stdin), _O_BINARY);
    _setmode(_fileno(stdout), _O_BINARY);
#endif
    if (count == 4 && strcmp(words[1], "tape") == 0)
        tape(strtoull(words[2], NULL, 10), strtol(words[3], NULL, 10));
    else if (count == 2 && strcmp(words[1], "tape-of") == 0)
        tape_of();
    else if (count == 2 && strcmp(words[1], "replay") == 0)
        return replay();
    else
        die("tape SEED COUNT, tape-of, or replay");
    return fflush(stdout) != 0;
}
