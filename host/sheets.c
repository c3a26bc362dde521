/* Random sheets, sound and damaged. */
#include "harness.h"
#include <string.h>

static void shuffle(struct chance *c, int order[NAMES]) {
    for (int i = 0; i < NAMES; i++)
        order[i] = i;
    for (int i = NAMES - 1; i > 0 && c->state % 2; i--) {
        int k = number_below(c, i + 1), kept = order[i];
        order[i] = order[k];
        order[k] = kept;
    }
}

/* a value out of its range, a layer or rods in part, or the key of the first line */
static void damage_values(struct chance *c, struct trial *t) {
    int *value = t->cases[number_below(c, (int)t->lines)].value;
    switch (number_below(c, 4)) {
    case 0:
        value[number_below(c, NAMES)] = number_below(c, 2) ? 0 : 999999;
        break;
    case 1:
        value[LAYER] = value[LAYER] == 0 ? 100 : 0;
        break;
    case 2:
        value[RODS] = value[RODS] == 0 ? 1 : 0;
        break;
    default:
        value[STATION] = t->cases[0].value[STATION];
        value[SEASON] = t->cases[0].value[SEASON];
    }
}

/* one byte changed, taken out or put in; the end cut off; or bytes to the limit and past it */
static void damage(struct chance *c, struct trial *t) {
    static const char likely[] = ",\n0019 a";
    size_t at = (size_t)number_below(c, (int)t->bytes);
    char byte = number_below(c, 2) ? likely[number_below(c, (int)sizeof likely - 1)] : (char)number_below(c, 256);
    switch (number_below(c, 6)) {
    case 0:
    case 1:
        t->text[at] = byte;
        break;
    case 2:
        memmove(t->text + at, t->text + at + 1, --t->bytes - at);
        break;
    case 3:
        memmove(t->text + at + 1, t->text + at, t->bytes++ - at);
        t->text[at] = byte;
        break;
    case 4:
        t->bytes = at;
        break;
    default:
        if (number_below(c, 50) == 0) {
            size_t most = HOCSIMBUR_SHEET_BYTES - 1 + (size_t)number_below(c, 3);
            memset(t->text + t->bytes, byte, MOST_TEXT - t->bytes);
            t->text[most - 1] = '\n';
            t->bytes = most;
        } else
            t->text[at] = byte;
    }
}

void make_trial(struct chance *c, struct trial *t) {
    int order[NAMES], kind = number_below(c, 200);
    shuffle(c, order);
    t->lines = kind == 0 ? (size_t)(HOCSIMBUR_LINES - 1 + number_below(c, 3)) : kind < 20 ? 2 + (size_t)number_below(c, 20) : 1;
    for (size_t i = 0; i < t->lines; i++) {
        t->cases[i] = random_case(c);
        t->cases[i].value[STATION] = 1 + (int)i;
    }
    t->sound = number_below(c, 2) && t->lines <= HOCSIMBUR_LINES;
    int in_values = !t->sound && number_below(c, 3) == 0;
    if (in_values)
        damage_values(c, t);
    t->bytes = write_sheet(t->cases, t->lines, order, t->text);
    for (int times = t->sound || in_values ? 0 : 1 + number_below(c, 3); times > 0 && t->bytes > 0; times--)
        damage(c, t);
}
