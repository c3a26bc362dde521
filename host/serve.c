/* Sheets in, answers out. */
#include "harness.h"
#include <stdio.h>

static int read_all(void *at, size_t bytes) { return fread(at, 1, bytes, stdin) == bytes; }

/* In: two 32-bit lengths, of the sheet and of the buffer, then the sheet and the buffer. Out: the answer, line and column, each of 64 bits, then the
 * buffer. The place is filled with ones beforehand. All in the byte order of this machine, which is little-endian. */
void serve(void) {
    static uint8_t sheet[8 * HOCSIMBUR_SHEET_BYTES], buffer[2 * MOST_BUFFER];
    uint32_t lengths[2];
    while (read_all(lengths, sizeof lengths)) {
        if (lengths[0] > sizeof sheet || lengths[1] > sizeof buffer || !read_all(sheet, lengths[0]) || !read_all(buffer, lengths[1]))
            stop("a frame that is too long or cut off");
        size_t place[2] = {SIZE_MAX, SIZE_MAX};
        int64_t answer = hocsimbur_rows_at(sheet, lengths[0], buffer, lengths[1], place, 2);
        uint64_t out[3] = {(uint64_t)answer, place[0], place[1]};
        fwrite(out, 1, sizeof out, stdout);
        fwrite(buffer, 1, lengths[1], stdout);
        fflush(stdout);
    }
}
