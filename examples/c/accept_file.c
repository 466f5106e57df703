/* Joins the file on standard input, of any size that the rules allow, with both engines, and says whether they agree: an
 * acceptance day's test of one file. It prints one line, as the proved program pigrozd-accept does for files of up to 65,536
 * bytes:
 *
 *     same NUMBER DETAIL ROWS                              both engines gave this answer, and both outputs are equal
 *     skipped NUMBER DETAIL ROWS NUMBER DETAIL ROWS        the slow engine refused the file with 15, so nothing is compared
 *     differ NUMBER DETAIL ROWS NUMBER DETAIL ROWS         never, which is proved
 *
 * The join's numbers stand before the slow engine's. Ends with 0 same, 1 skipped, 2 where the file could not be read or the line
 * not be written, 3 differ.
 *
 *     cc -Iinclude -o accept_file examples/c/accept_file.c target/lib/libpigrozd.a
 *     ./accept_file < crates/pigrozd/stdin
 */
#include <inttypes.h>
#include <stdio.h>
#include <stdlib.h>
#include <string.h>

#include "pigrozd.h"

/* 16 tables of 4,096 rows, each with its copies and 8 values, and a plan of 255 bytes; and one byte more: a longer file is refused,
 * and these bytes say why. */
enum {
    MOST_TABLE_BYTES = 10 + 4 * (1 + PIGROZD_MOST_TABLE_ATTRIBUTES) * PIGROZD_MOST_ROWS,
    MOST_FILE_BYTES = PIGROZD_MOST_TABLES * MOST_TABLE_BYTES + 3 + PIGROZD_MOST_PLAN_BYTES
};

static uint8_t file[MOST_FILE_BYTES + 1];
static uint32_t scratch[PIGROZD_MOST_SCRATCH_WORDS];

/* The longest output, for each engine one of its own. Both hold the same before, so that also words which must stay as they were
 * are compared. */
static uint32_t joined[PIGROZD_MOST_OUTPUT_WORDS], slow[PIGROZD_MOST_OUTPUT_WORDS];

static int fail(const char *what)
{
    fprintf(stderr, "accept_file: %s\n", what);
    return 2;
}

int main(void)
{
    pigrozd_answer one;
    pigrozd_slow_answer other;
    int status;
    size_t length = fread(file, 1, sizeof file, stdin);

    if (ferror(stdin))
        return fail("standard input cannot be read");
    memset(joined, 0x5a, sizeof joined);
    memset(slow, 0x5a, sizeof slow);

    one = pigrozd_join(file, length, scratch, PIGROZD_MOST_SCRATCH_WORDS, joined, PIGROZD_MOST_OUTPUT_WORDS);
    other = pigrozd_slow_join(file, length, slow, PIGROZD_MOST_OUTPUT_WORDS);

    if (other.number == PIGROZD_TOO_MANY_CHOICES)
        status = 1;
    else if (one.number == other.number && one.detail == other.detail && one.rows == other.rows
             && memcmp(joined, slow, sizeof joined) == 0)
        status = 0;
    else
        status = 3;

    printf("%s %" PRIu64 " %" PRIu64 " %" PRIu64, status == 0 ? "same" : status == 1 ? "skipped" : "differ",
           one.number, one.detail, one.rows);
    if (status != 0)
        printf(" %" PRIu64 " %" PRIu64 " %" PRIu64, other.number, other.detail, other.rows);
    printf("\n");

    /* What printf could not write shows here at the latest. */
    if (fflush(stdout) != 0 || ferror(stdout))
        return fail("the line cannot be written");
    return status;
}
