/* Joins the file on standard input, of any size that the rules allow, and prints what the proved program prints. Both buffers
 * are as large as the join says: it is asked without any first. Where no output fits the results, the line refused 11 says how
 * many there are. Ends with 0 joined, 1 refused, 2 where the file could not be read, memory not be had or the answer not be
 * written. A value that was not recorded is printed as the word that output holds for it, PIGROZD_NOT_RECORDED: 4294967295.
 *
 *     cc -Iinclude -o join_file examples/c/join_file.c target/lib/libpigrozd.a
 *     ./join_file < crates/pigrozd/stdin
 */
#include <inttypes.h>
#include <stdio.h>
#include <stdlib.h>

#include "pigrozd.h"

/* 16 tables of 4,096 rows, each with its copies and 8 values, and a plan of 255 bytes. */
enum {
    MOST_TABLE_BYTES = 10 + 4 * (1 + PIGROZD_MOST_TABLE_ATTRIBUTES) * PIGROZD_MOST_ROWS,
    MOST_FILE_BYTES = PIGROZD_MOST_TABLES * MOST_TABLE_BYTES + 3 + PIGROZD_MOST_PLAN_BYTES
};

/* One byte more: a longer file is refused, and these bytes say why. */
static uint8_t file[MOST_FILE_BYTES + 1];

static uint32_t word_at(size_t at)
{
    return file[at] | (uint32_t)file[at + 1] << 8 | (uint32_t)file[at + 2] << 16 | (uint32_t)file[at + 3] << 24;
}

static unsigned ones(uint32_t mask)
{
    unsigned n = 0;
    for (; mask != 0; mask &= mask - 1)
        n++;
    return n;
}

/* How many columns the table at this offset has: one for each attribute, and before them one of copies if its mark says so. */
static size_t columns(size_t at)
{
    return ones(word_at(at + 2)) + (file[at + 1] == 'C' ? 1u : 0u);
}

/* The values of a row of the result: the attributes that some table has. Only for a file that the join has not refused as a
 * file, so that each record is whole. */
static unsigned width(void)
{
    uint32_t all = 0;
    size_t at = 0;
    while (file[at] == 'T') {
        all |= word_at(at + 2);
        at += 10 + 4 * columns(at) * word_at(at + 6);
    }
    return ones(all);
}

static int fail(const char *what)
{
    fprintf(stderr, "join_file: %s\n", what);
    return 2;
}

int main(void)
{
    uint32_t nothing = 0, *scratch = &nothing, *output = &nothing;
    size_t scratch_words = 0, output_words = 0, length, i, j;
    pigrozd_answer answer;

    length = fread(file, 1, sizeof file, stdin);
    if (ferror(stdin))
        return fail("standard input cannot be read");

    answer = pigrozd_join(file, length, scratch, scratch_words, output, output_words);
    if (answer.number == PIGROZD_SCRATCH_SHORT) {
        scratch_words = answer.detail;
        scratch = malloc(4 * scratch_words);
        if (scratch == NULL)
            return fail("no memory for the scratch");
        answer = pigrozd_join(file, length, scratch, scratch_words, output, output_words);
    }
    /* Divided here, and not the number of results multiplied: that has up to 64 bits, and the product could pass them. */
    if (answer.number == PIGROZD_OUTPUT_SHORT && answer.detail <= PIGROZD_MOST_OUTPUT_WORDS / width()) {
        output_words = answer.detail * width();
        output = malloc(4 * output_words);
        if (output == NULL)
            return fail("no memory for the output");
        answer = pigrozd_join(file, length, scratch, scratch_words, output, output_words);
    }

    if (answer.number == PIGROZD_JOINED) {
        size_t values = answer.rows == 0 ? 0 : width();
        printf("rows %" PRIu64 "\n", answer.rows);
        for (i = 0; i < answer.rows; i++)
            for (j = 0; j < values; j++)
                printf("%" PRIu32 "%c", output[values * i + j], j + 1 < values ? ' ' : '\n');
        printf("steps %" PRIu64 " %" PRIu64 " %" PRIu64 " %" PRIu64 "\n",
               answer.entries, answer.lookups, answer.comparisons, answer.visits);
    } else {
        printf("refused %" PRIu64 " %" PRIu64 "\n", answer.number, answer.detail);
    }

    /* What printf could not write shows here at the latest. */
    if (fflush(stdout) != 0 || ferror(stdout))
        return fail("the answer cannot be written");
    return answer.number == PIGROZD_JOINED ? 0 : 1;
}
