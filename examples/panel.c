/* A side panel: reads a sheet from a file or from standard input and prints a line for each row, or what is wrong and where.
 *
 *     panel [SHEET]
 *
 * Exit status 0 with rows, 1 with a refusal, 2 where the sheet can't be read or the lines can't be written.
 *
 * Station, season and verdict, and the margin of the nearer limit as the library answers it, in tenths of a percent: "12.3 % below" is at
 * least that far below the limit, "4.5 % above" at most that far above it. A row that is undecided has a margin about 0. */
#include <hocsimbur.h>
#include <inttypes.h>
#include <stdio.h>
#ifdef _WIN32
#include <fcntl.h>
#include <io.h>
#endif

static const char *const verdicts[] = {"", "safe", "unsafe", "undecided"};

static const char *const refusals[] = {
    "",
    "the sheet is empty, too long, or its last line has no end",
    "a name is unknown, repeated or missing",
    "a value has a wrong form, is missing, or is one too many",
    "no value line, or too many",
    "a value is out of its range",
    "layer and thick disagree, or rods, rodlen and place",
    "station and season of an earlier line",
    "the buffer is too short",
};

/* a row with its two margins: per mille above the limits, negative below */
static void print_row(const uint8_t *rows, size_t row, const int64_t *margins) {
    int64_t above = margins[0] > margins[1] ? margins[0] : margins[1];
    int64_t tenths = above < 0 ? -above : above;
    printf("station %" PRId64 " season %" PRId64 ": %s, %" PRId64 ".%" PRId64 " %% %s\n", hocsimbur_read(rows, row, HOCSIMBUR_STATION),
           hocsimbur_read(rows, row, HOCSIMBUR_SEASON), verdicts[hocsimbur_read(rows, row, HOCSIMBUR_VERDICT)], tenths / 10, tenths % 10,
           above > 0 ? "above" : "below");
}

static void print_refusal(int64_t number, const hocsimbur_size place[2]) {
    printf("refused with %" PRId64, number);
    if (place[0] != 0)
        printf(", line %" PRIu64, (uint64_t)place[0]);
    if (place[1] != 0)
        printf(", column %" PRIu64, (uint64_t)place[1]);
    printf(": %s\n", refusals[number]);
}

int main(int count, char **words) {
    static uint8_t sheet[HOCSIMBUR_SHEET_BYTES + 1]; /* one byte more, so that a longer sheet is refused */
    static uint8_t rows[HOCSIMBUR_LINES * HOCSIMBUR_ROW_BYTES];
    static int64_t margins[HOCSIMBUR_LINES * HOCSIMBUR_MARGIN_NUMBERS];
    hocsimbur_size place[2] = {0, 0};
    FILE *in = count > 1 ? fopen(words[1], "rb") : stdin;
#ifdef _WIN32
    _setmode(_fileno(stdin), _O_BINARY); /* a line ends with one byte 10, and is taken as it is */
#endif
    if (in == NULL) {
        perror(words[1]);
        return 2;
    }
    size_t bytes = fread(sheet, 1, sizeof sheet, in);
    if (ferror(in)) {
        perror("panel");
        return 2;
    }
    int64_t answer = hocsimbur_rows_at(sheet, bytes, rows, sizeof rows, place, 2);
    if (answer > 0)
        answer = hocsimbur_margins(sheet, bytes, margins, sizeof margins / sizeof *margins, place, 2);
    for (int64_t i = 0; i < answer; i++)
        print_row(rows, (size_t)i, margins + HOCSIMBUR_MARGIN_NUMBERS * i);
    if (answer < 0)
        print_refusal(-answer, place);
    if (in != stdin)
        fclose(in);
    if (fflush(stdout) != 0 || ferror(stdout)) {
        perror("panel");
        return 2;
    }
    return answer < 0;
}
