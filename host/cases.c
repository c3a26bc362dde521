/* Random cases, and a sheet's text. */
#include "cases.h"
#include <string.h>

const char *const names[NAMES] = {"station", "season", "soil", "layer", "thick", "shock", "clear", "wire", "body", "fault", "split", "xr",
                                  "across", "along", "space", "depth", "dia", "rods", "rodlen", "place", "metal", "hz"};

/* least and greatest, 0 aside where it stands for none */
static const int ranges[NAMES][2] = {{1, 65535}, {1, 4}, {10, 5000}, {100, 10000}, {20, 300}, {9, 3000}, {9, 3000}, {9, 3000}, {50, 70}, {100, 80000}, {1, 1000},
                                     {1, 40}, {2, 25}, {2, 25}, {2500, 30000}, {250, 2500}, {50, 300}, {1, 200}, {1000, 10000}, {1, 2}, {1, 11}, {50, 60}};

/* xorshift64*, after Vigna */
uint64_t next_number(struct chance *c) {
    c->state ^= c->state >> 12;
    c->state ^= c->state << 25;
    c->state ^= c->state >> 27;
    return c->state * UINT64_C(2685821657736338717);
}

int number_below(struct chance *c, int n) { return (int)(next_number(c) >> 33) % n; }

struct grounding_case random_case(struct chance *c) {
    struct grounding_case made;
    for (int i = 0; i < NAMES; i++) {
        int low = ranges[i][0], high = ranges[i][1], at_end = number_below(c, 8);
        made.value[i] = at_end == 0 ? low : at_end == 1 ? high : low + number_below(c, high - low + 1);
    }
    made.value[BODY] = number_below(c, 2) ? 50 : 70;
    made.value[HZ] = number_below(c, 2) ? 50 : 60;
    if (number_below(c, 5) == 0)
        made.value[ALONG] = made.value[ACROSS];
    if (number_below(c, 5) < 2)
        made.value[LAYER] = made.value[THICK] = 0;
    if (number_below(c, 5) < 2)
        made.value[RODS] = made.value[RODLEN] = made.value[PLACE] = 0;
    return made;
}

static char *put_decimal(char *at, int n) {
    char digits[12];
    int count = 0;
    do {
        digits[count++] = (char)('0' + n % 10);
        n /= 10;
    } while (n > 0);
    while (count > 0)
        *at++ = digits[--count];
    return at;
}

size_t write_sheet(const struct grounding_case *cases, size_t count, const int order[NAMES], char *text) {
    char *at = text;
    for (int i = 0; i < NAMES; i++) {
        size_t n = strlen(names[order[i]]);
        memcpy(at, names[order[i]], n);
        at += n;
        *at++ = i + 1 < NAMES ? ',' : '\n';
    }
    for (size_t k = 0; k < count; k++)
        for (int i = 0; i < NAMES; i++) {
            at = put_decimal(at, cases[k].value[order[i]]);
            *at++ = i + 1 < NAMES ? ',' : '\n';
        }
    return (size_t)(at - text);
}

static int place_of(const char *name, size_t n) {
    for (int i = 0; i < NAMES; i++)
        if (strlen(names[i]) == n && memcmp(names[i], name, n) == 0)
            return i;
    return 0;
}

size_t read_sheet(const char *text, size_t bytes, struct grounding_case *cases, size_t most) {
    int order[NAMES] = {0};
    const char *at = text, *end = text + bytes;
    for (int i = 0; i < NAMES; i++) {
        const char *start = at;
        while (at < end && *at != ',' && *at != '\n')
            at++;
        order[i] = place_of(start, (size_t)(at - start));
        at++;
    }
    size_t count = 0;
    for (; at < end && count < most; count++)
        for (int i = 0; i < NAMES; i++) {
            int n = 0;
            for (; at < end && *at >= '0' && *at <= '9'; at++)
                n = 10 * n + (*at - '0');
            cases[count].value[order[i]] = n;
            at++;
        }
    return count;
}
