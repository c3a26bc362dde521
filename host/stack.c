/* The stack that a call takes, told by what is left of a stack filled beforehand. */
#define _POSIX_C_SOURCE 200809L
#include "harness.h"
#include <pthread.h>
#include <stdio.h>
#include <string.h>

enum { STACK = 1 << 20, FILL = 0xA5, MOST_STACK = 40000, MOST_OTHER_STACK = 100000 };

struct call {
    struct trial sheet;
    uint8_t buffer[MOST_BUFFER];
    int64_t numbers[HOCSIMBUR_LINES * HOCSIMBUR_WORKING_NUMBERS], beside[HOCSIMBUR_LINES * HOCSIMBUR_RELEASE_NUMBERS];
    int64_t (*entry)(struct call *, const uint8_t *, size_t *);
    int64_t answer;
    uintptr_t top;
};

static int64_t ask_rows(struct call *call, const uint8_t *text, size_t *place) {
    return hocsimbur_rows_at(text, call->sheet.bytes, call->buffer, sizeof call->buffer, place, 2);
}

static int64_t ask_summary(struct call *call, const uint8_t *text, size_t *place) {
    size_t most = sizeof call->numbers / sizeof *call->numbers, most_beside = sizeof call->beside / sizeof *call->beside;
    return hocsimbur_summary(text, call->sheet.bytes, call->numbers, most, call->beside, most_beside, place, 2);
}

static int64_t ask_release(struct call *call, const uint8_t *text, size_t *place) {
    static uint32_t licence[HOCSIMBUR_LICENCE_NUMBERS * HOCSIMBUR_LINES];
    for (uint32_t i = 0; i < HOCSIMBUR_LINES; i++) {
        licence[3 * i] = 1 + i;
        licence[3 * i + 1] = 15;
        licence[3 * i + 2] = i;
    }
    size_t most = sizeof call->beside / sizeof *call->beside;
    return hocsimbur_release(text, call->sheet.bytes, licence, sizeof licence / sizeof *licence, call->beside, most, place, 2);
}

static int64_t ask_margins(struct call *call, const uint8_t *text, size_t *place) {
    return hocsimbur_margins(text, call->sheet.bytes, call->numbers, sizeof call->numbers / sizeof *call->numbers, place, 2);
}

static int64_t ask_working(struct call *call, const uint8_t *text, size_t *place) {
    return hocsimbur_working(text, call->sheet.bytes, call->numbers, sizeof call->numbers / sizeof *call->numbers, place, 2);
}

static int64_t ask_headroom(struct call *call, const uint8_t *text, size_t *place) {
    return hocsimbur_headroom(text, call->sheet.bytes, call->numbers, sizeof call->numbers / sizeof *call->numbers, place, 2);
}

static int64_t ask_carry_back(struct call *call, const uint8_t *text, size_t *place) {
    return hocsimbur_carry_back(text, call->sheet.bytes, call->buffer, sizeof call->buffer, place, 2);
}

static void *ask(void *at) {
    struct call *call = at;
    size_t place[2];
    call->top = (uintptr_t)place;
    call->answer = call->entry(call, (const uint8_t *)call->sheet.text, place);
    return NULL;
}

/* a sheet that can be carried back too */
static void make_longest(struct trial *t) {
    struct chance c = {1};
    int order[NAMES];
    for (int i = 0; i < NAMES; i++)
        order[i] = i;
    for (int i = 0; i < HOCSIMBUR_LINES; i++) {
        t->cases[i] = random_case(&c);
        t->cases[i].value[STATION] = 1 + i;
        t->cases[i].value[CLEAR] = t->cases[i].value[WIRE] = t->cases[i].value[SHOCK];
        t->cases[i].value[ALONG] = t->cases[i].value[ACROSS];
        t->cases[i].value[HZ] = 60;
    }
    t->bytes = write_sheet(t->cases, HOCSIMBUR_LINES, order, t->text);
}

static void take(const char *name, int64_t (*entry)(struct call *, const uint8_t *, size_t *), size_t most) {
    static struct call call;
    static uint8_t *stack;
    if (stack == NULL)
        stack = guarded(STACK) - STACK;
    pthread_attr_t how;
    pthread_t thread;
    call.entry = entry;
    make_longest(&call.sheet);
    memset(stack, FILL, STACK);
    if (pthread_attr_init(&how) != 0 || pthread_attr_setstack(&how, stack, STACK) != 0 || pthread_create(&thread, &how, ask, &call) != 0 || pthread_join(thread, NULL) != 0)
        stop("no thread");
    size_t left = 0;
    while (stack[left] == FILL)
        left++;
    size_t taken = call.top - (uintptr_t)(stack + left);
    if (call.answer < HOCSIMBUR_LINES)
        stop("another answer to the longest sheet");
    if (taken >= most)
        stop("more stack than the header says");
    printf("%s, a sheet of %d lines: %zu bytes of stack\n", name, HOCSIMBUR_LINES, taken);
}

void run_stack(void) {
    take("rows", ask_rows, MOST_STACK);
    take("summary", ask_summary, MOST_OTHER_STACK);
    take("release", ask_release, MOST_OTHER_STACK);
    take("margins", ask_margins, MOST_STACK);
    take("working", ask_working, MOST_STACK);
    take("headroom", ask_headroom, MOST_STACK);
    take("carry_back", ask_carry_back, MOST_OTHER_STACK);
}
