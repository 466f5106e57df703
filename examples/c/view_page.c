/* Shows a page of the results of a packed file, of any size that the rules allow: forty results from number N on, from 0 if no N
 * is given, each with its row number in each table. No other result is written out. Each number is then found back from the row
 * numbers and copies. It prints
 *
 *     results OUT                      how many results there are
 *     NUMBER: VALUES (rows ROWS)       for each result of the page: values with attributes rising, row numbers by table number;
 *                                      where a table has copies, 12.3 is copy 3 of row 12
 *     NUMBER differs: ..               never, which is proved: something else than this number came back
 *
 * or, if the file is refused or N is not below OUT, one line: refused NUMBER DETAIL. Both buffers are as large as the library
 * says: it is asked without any first. Ends with 0 shown, 1 refused, 2 for wrong usage, or where the file could not be read,
 * memory not be had or the page not be written, 3 where a number differs. A value that was not recorded is printed as the word
 * that row holds for it, PIGROZD_NOT_RECORDED: 4294967295.
 *
 *     cc -Iinclude -o view_page examples/c/view_page.c target/lib/libpigrozd.a
 *     ./view_page crates/pigrozd/stdin 2
 */
#include <errno.h>
#include <inttypes.h>
#include <stdio.h>
#include <stdlib.h>

#include "pigrozd.h"

/* 16 tables of 4,096 rows, each with its copies and 8 values, and a plan of 255 bytes. */
enum {
    PAGE = 40,
    MOST_TABLE_BYTES = 10 + 4 * (1 + PIGROZD_MOST_TABLE_ATTRIBUTES) * PIGROZD_MOST_ROWS,
    MOST_FILE_BYTES = PIGROZD_MOST_TABLES * MOST_TABLE_BYTES + 3 + PIGROZD_MOST_PLAN_BYTES
};

/* One byte more: a longer file is refused, and these bytes say why. */
static uint8_t file[MOST_FILE_BYTES + 1];
static size_t length;

static uint32_t nothing, *scratch = &nothing, *row = &nothing;
static size_t scratch_words, row_words;

static uint32_t word_at(size_t at)
{
    return file[at] | (uint32_t)file[at + 1] << 8 | (uint32_t)file[at + 2] << 16 | (uint32_t)file[at + 3] << 24;
}

static unsigned ones(uint32_t mask)
{
    unsigned n = 0;
    for (; mask != 0; mask &= mask - 1)
        n++;
    return n;
}

static size_t tables;
static int has_copies[PIGROZD_MOST_TABLES];

/* How many tables the file has, and which of them have a column of copies, before those of the attributes. Only for a file that the
 * library has not refused as a file, so that each record is whole. */
static void look_at_tables(void)
{
    size_t at = 0;
    for (; file[at] == 'T'; tables++) {
        has_copies[tables] = file[at + 1] == 'C';
        at += 10 + 4 * (ones(word_at(at + 2)) + (size_t)has_copies[tables]) * word_at(at + 6);
    }
}

static int fail(const char *what)
{
    fprintf(stderr, "view_page: %s\n", what);
    return 2;
}

/* Whether text is a number of 64 bits, in digits alone, which goes to n. */
static int is_number(const char *text, uint64_t *n)
{
    char *end;
    if (*text < '0' || *text > '9')
        return 0;
    errno = 0;
    *n = strtoull(text, &end, 10);
    return *end == 0 && errno == 0;
}

static int read_file(const char *path)
{
    FILE *stream = fopen(path, "rb");
    int failed;
    if (stream == NULL)
        return 0;
    length = fread(file, 1, sizeof file, stream);
    failed = ferror(stream);
    return fclose(stream) == 0 && !failed;
}

static pigrozd_result_answer result_at(uint64_t n)
{
    return pigrozd_result_at(file, length, scratch, scratch_words, n, row, row_words);
}

/* Prints one result, and finds its number back: whether it is the same. */
static int show(uint64_t n)
{
    pigrozd_result_answer answer = result_at(n);
    pigrozd_number_answer back =
        pigrozd_number_of(file, length, scratch, scratch_words, answer.rows, tables, answer.copies, tables);
    size_t i;

    printf("%" PRIu64 ":", n);
    for (i = 0; i < row_words; i++)
        printf(" %" PRIu32, row[i]);
    printf(" (rows");
    for (i = 0; i < tables; i++) {
        printf(" %" PRIu32, answer.rows[i]);
        if (has_copies[i])
            printf(".%" PRIu32, answer.copies[i]);
    }
    printf(")\n");

    if (answer.number == PIGROZD_JOINED && back.number == PIGROZD_JOINED && back.n == n)
        return 1;
    printf("%" PRIu64 " differs: answers %" PRIu64 " and %" PRIu64 ", number %" PRIu64 "\n",
           n, answer.number, back.number, back.n);
    return 0;
}

int main(int count, char **arguments)
{
    uint64_t first = 0;
    pigrozd_result_answer answer;
    int status = 0;

    if (count < 2 || count > 3 || (count == 3 && !is_number(arguments[2], &first)))
        return fail("usage: view_page FILE [N], with N from 0 to 18446744073709551615");
    if (!read_file(arguments[1]))
        return fail("the file cannot be read");

    answer = result_at(first);
    if (answer.number == PIGROZD_SCRATCH_SHORT) {
        scratch_words = answer.detail;
        scratch = malloc(4 * scratch_words);
        if (scratch == NULL)
            return fail("no memory for the scratch");
        answer = result_at(first);
    }
    if (answer.number == PIGROZD_ROW_SHORT) {
        row_words = answer.detail;
        row = malloc(4 * row_words);
        if (row == NULL)
            return fail("no memory for a row");
        answer = result_at(first);
    }

    if (answer.number == PIGROZD_JOINED) {
        /* No result has the highest number: the answer is PIGROZD_NO_SUCH_RESULT, and says how many there are. */
        uint64_t results = result_at(UINT64_MAX).detail, n;
        look_at_tables();
        printf("results %" PRIu64 "\n", results);
        for (n = first; n < results && n - first < PAGE; n++)
            if (!show(n))
                status = 3;
    } else {
        printf("refused %" PRIu64 " %" PRIu64 "\n", answer.number, answer.detail);
        status = 1;
    }

    /* What printf could not write shows here at the latest. */
    if (fflush(stdout) != 0 || ferror(stdout))
        return fail("the page cannot be written");
    return status;
}
