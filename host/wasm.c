/* A program in C for wasm32 without a C library, linked with the archive: host/wasm.mjs asks it for the verdict of a line. */
#include <hocsimbur.h>

static uint8_t sheet[HOCSIMBUR_SHEET_BYTES + 1], rows[HOCSIMBUR_LINES * HOCSIMBUR_ROW_BYTES];
static hocsimbur_size place[2];

/* what a compiler may call where there is no C library */
void *memcpy(void *to, const void *from, size_t bytes) {
    for (size_t i = 0; i < bytes; i++)
        ((uint8_t *)to)[i] = ((const uint8_t *)from)[i];
    return to;
}
void *memset(void *to, int byte, size_t bytes) {
    for (size_t i = 0; i < bytes; i++)
        ((uint8_t *)to)[i] = (uint8_t)byte;
    return to;
}
void *memmove(void *to, const void *from, size_t bytes) {
    if ((uintptr_t)to < (uintptr_t)from)
        return memcpy(to, from, bytes);
    for (size_t i = bytes; i > 0; i--)
        ((uint8_t *)to)[i - 1] = ((const uint8_t *)from)[i - 1];
    return to;
}

__attribute__((export_name("lent"))) uint8_t *lent(void) { return sheet; }
__attribute__((export_name("answer"))) int64_t answer(uint32_t bytes) {
    return hocsimbur_rows_at(sheet, bytes, rows, sizeof rows, place, 2);
}
__attribute__((export_name("verdict"))) int64_t verdict(uint32_t row) { return hocsimbur_read(rows, row, HOCSIMBUR_VERDICT); }
__attribute__((export_name("line"))) hocsimbur_size line(void) { return place[0]; }
__attribute__((export_name("column"))) hocsimbur_size column(void) { return place[1]; }
