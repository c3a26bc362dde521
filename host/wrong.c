/* Wrong entries around the right ones, by name, to see that the harness tells each. The names of the cases are the one list: the Makefile reads it
 * here. Linked with --wrap for each entry. */
#include <hocsimbur.h>

enum {
    WRONG_big_endian = 1,
    WRONG_number_not_negated,
    WRONG_refusal_that_writes,
    WRONG_byte_past_last_row,
    WRONG_short_buffer_answered,
    WRONG_row_over_the_first,
    WRONG_mesh_too_low,
    WRONG_place_with_rows,
    WRONG_place_of_one_number
};

int64_t __real_hocsimbur_rows(const uint8_t *sheet, size_t sheet_bytes, uint8_t *buffer, size_t buffer_bytes);
int64_t __real_hocsimbur_rows_at(const uint8_t *sheet, size_t sheet_bytes, uint8_t *buffer, size_t buffer_bytes, size_t *place, size_t place_numbers);
int64_t __wrap_hocsimbur_rows(const uint8_t *sheet, size_t sheet_bytes, uint8_t *buffer, size_t buffer_bytes);
int64_t __wrap_hocsimbur_rows_at(const uint8_t *sheet, size_t sheet_bytes, uint8_t *buffer, size_t buffer_bytes, size_t *place, size_t place_numbers);

static void turn_round(uint8_t *buffer, size_t numbers) {
    for (size_t i = 0; i < numbers; i++)
        for (size_t k = 0; k < 4; k++) {
            uint8_t kept = buffer[8 * i + k];
            buffer[8 * i + k] = buffer[8 * i + 7 - k];
            buffer[8 * i + 7 - k] = kept;
        }
}

static int64_t made_wrong(int64_t answer, uint8_t *buffer, size_t bytes, size_t *place, size_t place_numbers) {
    size_t written = answer > 0 ? (size_t)answer * HOCSIMBUR_ROW_BYTES : 0;
    switch (WRONG) {
    case WRONG_big_endian:
        turn_round(buffer, written / 8);
        break;
    case WRONG_number_not_negated:
        return answer < 0 ? -answer : answer;
    case WRONG_refusal_that_writes: /* a refusal 8 after the first number is written */
        if (answer == -HOCSIMBUR_REFUSED_SHORT && bytes > 0)
            buffer[0] ^= 1;
        break;
    case WRONG_byte_past_last_row:
        if (answer > 0 && written < bytes)
            buffer[written] ^= 1;
        break;
    case WRONG_short_buffer_answered: /* a buffer with room for all but one number is held to be enough */
        return answer == -HOCSIMBUR_REFUSED_SHORT && bytes % HOCSIMBUR_ROW_BYTES == HOCSIMBUR_ROW_BYTES - 8 ? 1 : answer;
    case WRONG_row_over_the_first:
        if (answer > 1)
            buffer[0] = buffer[HOCSIMBUR_ROW_BYTES];
        break;
    case WRONG_mesh_too_low:
        if (answer > 0)
            for (size_t k = 0; k < 8; k++)
                buffer[8 * HOCSIMBUR_MESH_UPPER + k] = k == 0;
        break;
    case WRONG_place_with_rows:
        if (answer > 0 && place_numbers >= 2)
            place[0] = place[1] = 0;
        break;
    case WRONG_place_of_one_number:
        if (answer < 0 && place_numbers == 1)
            place[0] = 0;
        break;
    }
    return answer;
}

int64_t __wrap_hocsimbur_rows(const uint8_t *sheet, size_t sheet_bytes, uint8_t *buffer, size_t buffer_bytes) {
    return made_wrong(__real_hocsimbur_rows(sheet, sheet_bytes, buffer, buffer_bytes), buffer, buffer_bytes, NULL, 0);
}

int64_t __wrap_hocsimbur_rows_at(const uint8_t *sheet, size_t sheet_bytes, uint8_t *buffer, size_t buffer_bytes, size_t *place, size_t place_numbers) {
    int64_t answer = __real_hocsimbur_rows_at(sheet, sheet_bytes, buffer, buffer_bytes, place, place_numbers);
    return made_wrong(answer, buffer, buffer_bytes, place, place_numbers);
}
