/* Tests include/pigrozd.h as C99 and as C++ against the library: that each name of an answer is the number that is given under
 * its condition, that the limits are those at which answers change, that a plan is mended, or found where there is none, that a
 * value which was not recorded matches nothing, that the slow engine gives what the join gives, that a result is given by its
 * number and its number by its rows and copies, that a row can have copies, that results are counted up to 2^64 - 1, and that
 * the version is said alike everywhere.
 * make check-c runs it. It prints nothing and ends with 0, or prints each test that failed and ends with 1. */
#include "pigrozd.h"

#include <stdio.h>
#include <string.h>

static int failures;

static void expect_at(int line, const char *what, uint64_t got, uint64_t wanted)
{
    if (got != wanted) {
        printf("line %d: %s is %lu and not %lu\n", line, what, (unsigned long)got, (unsigned long)wanted);
        failures++;
    }
}

#define EXPECT(got, wanted) expect_at(__LINE__, #got, (uint64_t)(got), (uint64_t)(wanted))

/* ---- a file */
static uint8_t file[4 * 1024 * 1024];
static size_t length;

static void put_byte(unsigned byte)
{
    file[length++] = (uint8_t)byte;
}

static void put_word(uint32_t word)
{
    int i;
    for (i = 0; i < 4; i++)
        put_byte((word >> (8 * i)) & 255);
}

static void put_words(const uint32_t *words, unsigned count)
{
    unsigned i;
    for (i = 0; i < count; i++)
        put_word(words[i]);
}

static void put_head(char second, uint32_t mask, uint32_t rows)
{
    put_byte('T');
    put_byte((unsigned char)second);
    put_word(mask);
    put_word(rows);
}

static void put_table(uint32_t mask, uint32_t rows)
{
    put_head('B', mask, rows);
}

/* a table with copies, which are these; the columns of the attributes follow */
static void put_counted(uint32_t mask, uint32_t rows, const uint32_t *copies)
{
    put_head('C', mask, rows);
    put_words(copies, rows);
}

/* one column: 0, 1, and so on */
static void put_column(uint32_t rows)
{
    uint32_t i;
    for (i = 0; i < rows; i++)
        put_word(i);
}

static void put_plan(const char *code, unsigned bytes)
{
    unsigned i;
    put_byte('P');
    put_byte('L');
    put_byte(bytes);
    for (i = 0; i < bytes; i++)
        put_byte((unsigned char)code[i]);
}

/* the plan that names that many tables in rising number, joined from the left on or from the right on */
static void put_rising_plan(unsigned tables, int from_right)
{
    char code[2 * PIGROZD_MOST_TABLES];
    unsigned bytes = 0, i;
    for (i = 1; i < tables && !from_right; i++)
        code[bytes++] = '\377';
    for (i = 0; i < tables; i++) {
        if (from_right && i + 1 < tables)
            code[bytes++] = '\377';
        code[bytes++] = (char)i;
    }
    put_plan(code, bytes);
}

/* that many tables of attribute 0 with that many rows, joined from the left on */
static void put_tables(unsigned tables, uint32_t rows)
{
    unsigned i;
    length = 0;
    for (i = 0; i < tables; i++) {
        put_table(1, rows);
        put_column(rows);
    }
    put_rising_plan(tables, 0);
}

/* how many tables the file has; only for a file that is not refused as a file */
static unsigned count_tables(void)
{
    unsigned tables = 0, i;
    size_t at = 0;
    for (; file[at] == 'T'; tables++) {
        uint32_t rows = file[at + 6] | (uint32_t)file[at + 7] << 8;
        unsigned columns = file[at + 1] == 'C' ? 1 : 0;
        for (i = 0; i < 32; i++)
            columns += file[at + 2 + i / 8] >> (i % 8) & 1;
        at += 10 + 4 * columns * rows;
    }
    return tables;
}

/* ---- calls */
static uint32_t scratch[PIGROZD_MOST_SCRATCH_WORDS];
static uint32_t output[PIGROZD_MOST_OUTPUT_WORDS + 1];
static uint32_t slow_output[PIGROZD_MOST_OUTPUT_WORDS + 1];
static uint32_t row[PIGROZD_MOST_ATTRIBUTES];

/* that result number n is the one that the join wrote, of so many values, and is found back by its rows and copies */
static void expect_result(uint64_t n, size_t scratch_words, size_t width)
{
    const unsigned tables = count_tables();
    pigrozd_result_answer one = pigrozd_result_at(file, length, scratch, scratch_words, n, row, width);
    pigrozd_number_answer back = pigrozd_number_of(file, length, scratch, scratch_words, one.rows, tables, one.copies, tables);

    EXPECT(one.number, PIGROZD_JOINED);
    EXPECT(one.detail, 0);
    EXPECT(memcmp(row, output + n * width, 4 * width), 0);
    EXPECT(back.number, PIGROZD_JOINED);
    EXPECT(back.detail, 0);
    EXPECT(back.n, n);
}

/* Beside the join, which gave this answer, the two functions for one result, without a row, row numbers and copies: up to 10, with
 * 14 and with 19 they give its number and detail. Past 10 such a row is too short, and so many are the row numbers of no result,
 * unless there are too many results. Of those that the join wrote, the first, one in the middle and the last are looked at. */
static void expect_single(pigrozd_answer given, size_t scratch_words)
{
    pigrozd_result_answer one = pigrozd_result_at(file, length, scratch, scratch_words, 0, row, 0);
    pigrozd_number_answer back = pigrozd_number_of(file, length, scratch, scratch_words, row, 0, row, 0);
    uint64_t width = one.detail;

    if (given.number != PIGROZD_JOINED && (given.number != PIGROZD_OUTPUT_SHORT || given.detail == PIGROZD_HOLD_LIMIT)) {
        EXPECT(one.number, given.number);
        EXPECT(one.detail, given.detail);
        EXPECT(back.number, given.number);
        EXPECT(back.detail, given.detail);
        return;
    }
    EXPECT(one.number, PIGROZD_ROW_SHORT);
    EXPECT(back.number, PIGROZD_NOT_A_RESULT);
    EXPECT(back.detail, 0);
    EXPECT(width <= PIGROZD_MOST_ATTRIBUTES, 1);
    if (width > PIGROZD_MOST_ATTRIBUTES)
        return;
    one = pigrozd_result_at(file, length, scratch, scratch_words, PIGROZD_HOLD_LIMIT, row, width);
    EXPECT(one.number, PIGROZD_NO_SUCH_RESULT);
    EXPECT(one.detail, given.number == PIGROZD_JOINED ? given.rows : given.detail);
    if (given.rows != 0) {
        expect_result(0, scratch_words, width);
        expect_result(given.rows / 2, scratch_words, width);
        expect_result(given.rows - 1, scratch_words, width);
    }
}

/* The join; and beside it the slow engine, over an output of its own that holds the same before. Where neither says 10 or 15,
 * both answers and both outputs are the same. Then the two functions for one result, as above. */
static pigrozd_answer lent(size_t scratch_words, size_t output_words)
{
    pigrozd_slow_answer slow;
    pigrozd_answer given;

    memcpy(slow_output, output, sizeof output);
    given = pigrozd_join(file, length, scratch, scratch_words, output, output_words);
    slow = pigrozd_slow_join(file, length, slow_output, output_words);
    if (given.number != PIGROZD_SCRATCH_SHORT && slow.number != PIGROZD_TOO_MANY_CHOICES) {
        EXPECT(slow.number, given.number);
        EXPECT(slow.detail, given.detail);
        EXPECT(slow.rows, given.rows);
        EXPECT(memcmp(slow_output, output, sizeof output), 0);
    }
    EXPECT(slow.number == PIGROZD_SCRATCH_SHORT, 0);
    EXPECT(given.number >= PIGROZD_TOO_MANY_CHOICES && given.number != PIGROZD_COPIES_RANGE, 0);
    EXPECT(slow.number > PIGROZD_TOO_MANY_CHOICES && slow.number != PIGROZD_COPIES_RANGE, 0);
    expect_single(given, scratch_words);
    return given;
}

static pigrozd_answer answer(void)
{
    return lent(PIGROZD_MOST_SCRATCH_WORDS, PIGROZD_MOST_OUTPUT_WORDS);
}

#define EXPECT_ANSWER(wanted_number, wanted_detail) \
    do { \
        pigrozd_answer given = answer(); \
        EXPECT(given.number, wanted_number); \
        EXPECT(given.detail, wanted_detail); \
    } while (0)

static void test_answers(void)
{
    length = 0;
    EXPECT_ANSWER(PIGROZD_CUT_OFF, 0);
    put_byte('T');
    put_byte('D');
    EXPECT_ANSWER(PIGROZD_NO_RECORD, 0);
    file[1] = 'C';
    EXPECT_ANSWER(PIGROZD_CUT_OFF, 0);
    file[1] = 'B';
    EXPECT_ANSWER(PIGROZD_CUT_OFF, 0);

    put_tables(2, 3);
    EXPECT_ANSWER(PIGROZD_JOINED, 0);
    put_byte(0);
    EXPECT_ANSWER(PIGROZD_BEHIND_PLAN, length - 1);

    put_tables(2, 3);
    file[length - 1] = 16;
    EXPECT_ANSWER(PIGROZD_NOT_A_PLAN, 2);
    file[length - 1] = 0;
    EXPECT_ANSWER(PIGROZD_NOT_NAMED_ONCE, 2);

    length = 0;
    put_table(1, 0);
    put_table(2, 0);
    put_table(3, 0);
    put_plan("\377\377\0\1\2", 5);
    EXPECT_ANSWER(PIGROZD_NO_HOLDER, 0);
    EXPECT(PIGROZD_NOT_WELL_BEHAVED, PIGROZD_NO_HOLDER);

    put_tables(2, 3);
    EXPECT(lent(62, 3).number, PIGROZD_SCRATCH_SHORT);
    EXPECT(lent(62, 3).detail, 63);
    EXPECT(lent(63, 3).number, PIGROZD_JOINED);
    EXPECT(lent(63, 2).number, PIGROZD_OUTPUT_SHORT);
    EXPECT(lent(63, 2).detail, 3);
}

static void test_limits(void)
{
    unsigned i;

    put_tables(PIGROZD_MOST_TABLES, 1);
    EXPECT_ANSWER(PIGROZD_JOINED, 0);
    length = 0;
    for (i = 0; i < PIGROZD_MOST_TABLES + 1; i++)
        put_table(1, 0);
    EXPECT_ANSWER(PIGROZD_TOO_MANY_TABLES, 10 * PIGROZD_MOST_TABLES);

    put_tables(1, PIGROZD_MOST_ROWS);
    EXPECT_ANSWER(PIGROZD_JOINED, 0);
    put_tables(1, PIGROZD_MOST_ROWS + 1);
    EXPECT_ANSWER(PIGROZD_TOO_MANY_ROWS, 0);

    length = 0;
    put_table((1u << PIGROZD_MOST_TABLE_ATTRIBUTES) - 1, 0);
    put_plan("\0", 1);
    EXPECT_ANSWER(PIGROZD_JOINED, 0);
    length = 0;
    put_table((2u << PIGROZD_MOST_TABLE_ATTRIBUTES) - 1, 0);
    EXPECT_ANSWER(PIGROZD_ATTRIBUTE_COUNT, 0);
    length = 0;
    put_table(0, 0);
    EXPECT_ANSWER(PIGROZD_ATTRIBUTE_COUNT, 0);

    /* the last attribute */
    length = 0;
    put_table(1u << (PIGROZD_MOST_ATTRIBUTES - 1), 1);
    put_word(77);
    put_plan("\0", 1);
    EXPECT_ANSWER(PIGROZD_JOINED, 0);
    EXPECT(output[0], 77);

    /* the longest plan: FFs alone, that end early */
    length = 0;
    put_byte('P');
    put_byte('L');
    put_byte(PIGROZD_MOST_PLAN_BYTES);
    for (i = 0; i < PIGROZD_MOST_PLAN_BYTES; i++)
        put_byte(255);
    EXPECT_ANSWER(PIGROZD_NOT_A_PLAN, PIGROZD_MOST_PLAN_BYTES);

    /* the most scratch */
    put_tables(PIGROZD_MOST_TABLES, PIGROZD_MOST_ROWS);
    EXPECT(lent(PIGROZD_MOST_SCRATCH_WORDS - 1, 0).number, PIGROZD_SCRATCH_SHORT);
    EXPECT(lent(PIGROZD_MOST_SCRATCH_WORDS - 1, 0).detail, PIGROZD_MOST_SCRATCH_WORDS);
    EXPECT(answer().number, PIGROZD_JOINED);
    EXPECT(answer().rows, PIGROZD_MOST_ROWS);

    /* the most output: 1,024 * 512 results of 2 values fill it, 1,024 * 513 are too many */
    for (i = 0; i < 2; i++) {
        length = 0;
        put_table(1, 1024);
        put_column(1024);
        put_table(2, i == 0 ? 512 : 513);
        put_column(i == 0 ? 512 : 513);
        put_plan("\377\0\1", 3);
        output[PIGROZD_MOST_OUTPUT_WORDS - 1] = 5;
        output[PIGROZD_MOST_OUTPUT_WORDS] = 5;
        if (i == 0) {
            EXPECT(lent(PIGROZD_MOST_SCRATCH_WORDS, PIGROZD_MOST_OUTPUT_WORDS - 1).number, PIGROZD_OUTPUT_SHORT);
            EXPECT(lent(PIGROZD_MOST_SCRATCH_WORDS, PIGROZD_MOST_OUTPUT_WORDS + 1).number, PIGROZD_JOINED);
            EXPECT(output[PIGROZD_MOST_OUTPUT_WORDS - 1], 511);
        } else {
            EXPECT(lent(PIGROZD_MOST_SCRATCH_WORDS, PIGROZD_MOST_OUTPUT_WORDS + 1).number, PIGROZD_OUTPUT_SHORT);
            EXPECT(output[PIGROZD_MOST_OUTPUT_WORDS - 1], 5);
        }
        EXPECT(output[PIGROZD_MOST_OUTPUT_WORDS], 5);
    }
}

/* three tables, where 0 and 1 share attribute 1, and 1 and 2 attribute 2 */
static void put_chain(void)
{
    unsigned i;

    length = 0;
    put_table(3, 1);
    put_word(9);
    put_word(5);
    put_table(6, 4);
    for (i = 0; i < 4; i++)
        put_word(5);
    for (i = 0; i < 4; i++)
        put_word(i == 0 ? 7 : i == 1 ? 8 : 1);
    put_table(12, 2);
    put_word(8);
    put_word(7);
    put_word(6);
    put_word(6);
}

/* that the chain is joined by 2 with (1 with 0): the words needed are 10 * 7, and the rows of 2 and of 1 */
static void expect_chain(void)
{
    static const uint32_t wanted[] = {9, 5, 8, 6, 9, 5, 7, 6};
    unsigned i;

    EXPECT(lent(75, 8).number, PIGROZD_SCRATCH_SHORT);
    EXPECT(lent(75, 8).detail, 76);
    EXPECT(lent(76, 7).number, PIGROZD_OUTPUT_SHORT);
    EXPECT(lent(76, 7).detail, 2);
    memset(output, 0, sizeof wanted);
    EXPECT(lent(76, 8).number, PIGROZD_JOINED);
    for (i = 0; i < 8; i++)
        EXPECT(output[i], wanted[i]);
}

/* a plan that is mended: tables 0 with (2 with 1). Table 0 has one row and 2 has two, so the join follows 2 with (1 with 0) */
static void test_mended(void)
{
    put_chain();
    put_plan("\377\0\377\2\1", 5);
    expect_chain();
}

/* whether so many words still hold what memset put into each of their bytes */
static int is_filled(const uint32_t *words, size_t count, unsigned byte)
{
    size_t i;
    for (i = 0; i < count; i++)
        if (words[i] != byte * 0x1010101u)
            return 0;
    return 1;
}

/* tables without rows and without a plan, by their masks */
static void put_masks(const uint32_t *masks, unsigned tables)
{
    unsigned i;
    length = 0;
    for (i = 0; i < tables; i++)
        put_table(masks[i], 0);
    put_plan("", 0);
}

/* a plan of no bytes: one is found */
static void test_found(void)
{
    pigrozd_answer found, given;
    unsigned i;

    put_chain();
    put_plan("", 0);
    expect_chain();
    found = answer();
    put_chain();
    put_plan("\377\2\377\1\0", 5);
    given = answer();
    EXPECT(memcmp(&found, &given, sizeof found), 0);

    length = 0;
    put_table(1, 1);
    put_word(77);
    put_plan("", 0);
    EXPECT_ANSWER(PIGROZD_JOINED, 0);
    EXPECT(output[0], 77);

    length = 0;
    put_plan("", 0);
    EXPECT_ANSWER(PIGROZD_NOT_A_PLAN, 0);

    /* the most tables, rows and scratch */
    length = 0;
    for (i = 0; i < PIGROZD_MOST_TABLES; i++) {
        put_table(1, PIGROZD_MOST_ROWS);
        put_column(PIGROZD_MOST_ROWS);
    }
    put_plan("", 0);
    EXPECT(lent(PIGROZD_MOST_SCRATCH_WORDS - 1, 0).number, PIGROZD_SCRATCH_SHORT);
    EXPECT(lent(PIGROZD_MOST_SCRATCH_WORDS - 1, 0).detail, PIGROZD_MOST_SCRATCH_WORDS);
    EXPECT(answer().number, PIGROZD_JOINED);
    EXPECT(answer().rows, PIGROZD_MOST_ROWS);
}

/* tables for which no plan is found: three that share in a ring, alone and behind two that can be hung */
static void test_not_found(void)
{
    static const uint32_t ring[] = {3, 5, 6}, behind[] = {1, 9, 3, 6, 5};
    pigrozd_answer given;
    unsigned i;

    EXPECT(PIGROZD_NO_PLAN_FOUND, 14);
    put_masks(ring, 3);
    EXPECT_ANSWER(PIGROZD_NO_PLAN_FOUND, 0);
    put_byte(0);
    EXPECT_ANSWER(PIGROZD_BEHIND_PLAN, length - 1);
    put_masks(behind, 5);
    EXPECT_ANSWER(PIGROZD_NO_PLAN_FOUND, 2);

    /* with rows, and too little scratch or enough: the buffers are as they were, and all else is 0 */
    length = 0;
    for (i = 0; i < 3; i++) {
        put_table(ring[i], 1);
        put_word(7);
        put_word(7);
    }
    put_plan("", 0);
    for (i = 0; i < 2; i++) {
        memset(scratch, 0xa5, sizeof scratch);
        memset(output, 0x5a, sizeof output);
        given = lent(i == 0 ? 0 : PIGROZD_MOST_SCRATCH_WORDS, i == 0 ? 0 : PIGROZD_MOST_OUTPUT_WORDS);
        EXPECT(given.number, PIGROZD_NO_PLAN_FOUND);
        EXPECT(given.detail, 0);
        EXPECT(given.rows, 0);
        EXPECT(given.entries + given.lookups + given.comparisons + given.visits, 0);
        EXPECT(is_filled(scratch, PIGROZD_MOST_SCRATCH_WORDS, 0xa5), 1);
        EXPECT(is_filled(output, PIGROZD_MOST_OUTPUT_WORDS + 1, 0x5a), 1);
    }
}

/* a table of one row, with these values in the attributes of its mask */
static void put_row(uint32_t mask, uint32_t first, uint32_t second)
{
    put_table(mask, 1);
    put_word(first);
    put_word(second);
}

/* a value that was not recorded: in a shared attribute it matches nothing, in one table alone it passes through */
static void test_not_recorded(void)
{
    pigrozd_answer given;

    EXPECT(PIGROZD_NOT_RECORDED, (uint32_t)-1);

    length = 0;
    put_row(3, 7, PIGROZD_NOT_RECORDED);
    put_row(6, PIGROZD_NOT_RECORDED, 9);
    put_plan("\377\0\1", 3);
    given = answer();
    EXPECT(given.number, PIGROZD_JOINED);
    EXPECT(given.rows, 0);
    EXPECT(given.entries, 0);
    EXPECT(given.lookups, 1);
    EXPECT(given.comparisons, 0);

    length = 0;
    put_row(3, PIGROZD_NOT_RECORDED, 8);
    put_row(6, 8, PIGROZD_NOT_RECORDED);
    put_plan("\377\0\1", 3);
    given = answer();
    EXPECT(given.number, PIGROZD_JOINED);
    EXPECT(given.rows, 1);
    EXPECT(output[0], PIGROZD_NOT_RECORDED);
    EXPECT(output[1], 8);
    EXPECT(output[2], PIGROZD_NOT_RECORDED);

    length = 0;
    put_table(1, 1);
    put_word(PIGROZD_NOT_RECORDED);
    put_plan("\0", 1);
    EXPECT(answer().rows, 1);
    EXPECT(output[0], PIGROZD_NOT_RECORDED);
}

/* tables of one attribute each, with these row counts; together they have every choice as a result */
static void put_apart(const uint32_t *rows, unsigned tables, const char *code, unsigned bytes)
{
    unsigned i;
    length = 0;
    for (i = 0; i < tables; i++) {
        put_table(1u << i, rows[i]);
        put_column(rows[i]);
    }
    put_plan(code, bytes);
}

/* what the slow engine says, over an output that must be as it was where it refuses */
static pigrozd_slow_answer slow_answer(size_t output_words)
{
    pigrozd_slow_answer given;
    memset(slow_output, 0x5a, sizeof slow_output);
    given = pigrozd_slow_join(file, length, slow_output, output_words);
    if (given.number != PIGROZD_JOINED) {
        EXPECT(given.rows, 0);
        EXPECT(is_filled(slow_output, PIGROZD_MOST_OUTPUT_WORDS + 1, 0x5a), 1);
    }
    return given;
}

#define EXPECT_SLOW(output_words, wanted_number, wanted_detail, wanted_rows) \
    do { \
        pigrozd_slow_answer given = slow_answer(output_words); \
        EXPECT(given.number, wanted_number); \
        EXPECT(given.detail, wanted_detail); \
        EXPECT(given.rows, wanted_rows); \
    } while (0)

/* the slow engine alone: the most choices, and no scratch */
static void test_slow(void)
{
    static const uint32_t most[] = {1024, 1024}, past[] = {1025, 1024}, none[] = {4096, 4096, 0}, huge[] = {4096, 4096, 4096};
    unsigned i;

    EXPECT(PIGROZD_TOO_MANY_CHOICES, 15);
    EXPECT(PIGROZD_MOST_CHOICES, 1024 * 1024);

    put_apart(most, 2, "\377\0\1", 3);
    EXPECT_SLOW(PIGROZD_MOST_OUTPUT_WORDS, PIGROZD_OUTPUT_SHORT, PIGROZD_MOST_CHOICES, 0);
    EXPECT_SLOW(0, PIGROZD_OUTPUT_SHORT, PIGROZD_MOST_CHOICES, 0);
    put_apart(past, 2, "\377\0\1", 3);
    EXPECT_SLOW(PIGROZD_MOST_OUTPUT_WORDS, PIGROZD_TOO_MANY_CHOICES, 0, 0);
    EXPECT_SLOW(0, PIGROZD_TOO_MANY_CHOICES, 0, 0);
    put_apart(none, 3, "\377\0\377\1\2", 5);
    EXPECT_SLOW(0, PIGROZD_JOINED, 0, 0);
    put_apart(huge, 3, "\377\0\377\1\2", 5);
    EXPECT_SLOW(PIGROZD_MOST_OUTPUT_WORDS, PIGROZD_TOO_MANY_CHOICES, 0, 0);
    put_byte(0);
    EXPECT_SLOW(PIGROZD_MOST_OUTPUT_WORDS, PIGROZD_BEHIND_PLAN, length - 1, 0);
    put_apart(huge, 3, "\377\0\1", 3);
    EXPECT_SLOW(PIGROZD_MOST_OUTPUT_WORDS, PIGROZD_NOT_NAMED_ONCE, 3, 0);

    /* the most choices and the most output: each of 1,024 rows with each of 1,024, all of one value */
    length = 0;
    for (i = 0; i < 2; i++) {
        unsigned y;
        put_table(1, 1024);
        for (y = 0; y < 1024; y++)
            put_word(7);
    }
    put_plan("\377\0\1", 3);
    EXPECT_SLOW(PIGROZD_MOST_OUTPUT_WORDS - 1, PIGROZD_OUTPUT_SHORT, PIGROZD_MOST_CHOICES, 0);
    EXPECT_SLOW(PIGROZD_MOST_OUTPUT_WORDS + 1, PIGROZD_JOINED, 0, PIGROZD_MOST_CHOICES);
    EXPECT(slow_output[0], 7);
    EXPECT(slow_output[PIGROZD_MOST_OUTPUT_WORDS - 1], 7);
    EXPECT(slow_output[PIGROZD_MOST_OUTPUT_WORDS], 0x5a5a5a5au);

    /* where the join needs 76 words of scratch */
    put_chain();
    put_plan("\377\0\377\2\1", 5);
    EXPECT(lent(75, 8).number, PIGROZD_SCRATCH_SHORT);
    EXPECT_SLOW(8, PIGROZD_JOINED, 0, 2);
    EXPECT(slow_output[2], 8);
    EXPECT(slow_output[6], 7);
    EXPECT(slow_output[8], 0x5a5a5a5au);
    EXPECT_SLOW(7, PIGROZD_OUTPUT_SHORT, 2, 0);
}

/* the sample file of docs/SPECIFICATION.md, section 12: frames, exposures and readings, with this plan */
static void put_sample(const char *code, unsigned bytes)
{
    static const uint32_t frames[] = {10, 11, 12, 13, 1, 2, 2, 4}, exposures[] = {1, 2, 2, 3, 7, 8, 9, 7};
    static const uint32_t readings[] = {7, 7, 9, 29510, 29510, 29530};

    length = 0;
    put_table(3, 4);
    put_words(frames, 8);
    put_table(6, 4);
    put_words(exposures, 8);
    put_table(12, 3);
    put_words(readings, 6);
    put_plan(code, bytes);
}

/* that after this answer so many words of scratch are zero past 10, and else as they were; and those behind them in any case */
static void expect_scratch(uint64_t number, size_t words)
{
    int past_10 = number == PIGROZD_JOINED
                  || (number > PIGROZD_SCRATCH_SHORT && number != PIGROZD_NO_PLAN_FOUND && number != PIGROZD_COPIES_RANGE);
    EXPECT(is_filled(scratch, words, past_10 ? 0 : 0xa5), 1);
    EXPECT(is_filled(scratch + words, PIGROZD_MOST_SCRATCH_WORDS - words, 0xa5), 1);
}

/* result number n. A refusal gives no row numbers and no copies, and leaves the row as it was */
static pigrozd_result_answer result_lent(size_t scratch_words, uint64_t n, size_t row_words)
{
    pigrozd_result_answer given;
    unsigned i;

    memset(scratch, 0xa5, sizeof scratch);
    memset(row, 0x5a, sizeof row);
    given = pigrozd_result_at(file, length, scratch, scratch_words, n, row, row_words);
    expect_scratch(given.number, scratch_words);
    if (given.number != PIGROZD_JOINED) {
        EXPECT(is_filled(row, PIGROZD_MOST_ATTRIBUTES, 0x5a), 1);
        for (i = 0; i < PIGROZD_MOST_TABLES; i++)
            EXPECT(given.rows[i] + given.copies[i], 0);
    }
    return given;
}

/* copy 0 of each row */
static const uint32_t first_copies[PIGROZD_MOST_TABLES] = {0};

/* the way back. A refusal gives 0 as n */
static pigrozd_number_answer number_lent(size_t scratch_words, const uint32_t *rows, size_t rows_count, const uint32_t *copies,
                                         size_t copies_count)
{
    pigrozd_number_answer given;

    memset(scratch, 0xa5, sizeof scratch);
    given = pigrozd_number_of(file, length, scratch, scratch_words, rows, rows_count, copies, copies_count);
    expect_scratch(given.number, scratch_words);
    if (given.number != PIGROZD_JOINED)
        EXPECT(given.n, 0);
    return given;
}

#define EXPECT_RESULT(scratch_words, n, row_words, wanted_number, wanted_detail) \
    do { \
        pigrozd_result_answer given = result_lent(scratch_words, n, row_words); \
        EXPECT(given.number, wanted_number); \
        EXPECT(given.detail, wanted_detail); \
    } while (0)

#define EXPECT_NUMBER_OF_COPIES(scratch_words, rows, count, copies, copies_count, wanted_number, wanted_detail, wanted_n) \
    do { \
        pigrozd_number_answer given = number_lent(scratch_words, rows, count, copies, copies_count); \
        EXPECT(given.number, wanted_number); \
        EXPECT(given.detail, wanted_detail); \
        EXPECT(given.n, wanted_n); \
    } while (0)

/* of copy 0 of each row */
#define EXPECT_NUMBER(scratch_words, rows, count, wanted_number, wanted_detail, wanted_n) \
    EXPECT_NUMBER_OF_COPIES(scratch_words, rows, count, first_copies, count, wanted_number, wanted_detail, wanted_n)

/* that result number n has these values and, by table number, these rows and copies; and that these have the number n. The words
 * of the row behind the values are as they were, and the places behind the last table are 0 */
static void expect_pairs(size_t scratch_words, uint64_t n, const uint32_t *values, unsigned width, const uint32_t *rows,
                         const uint32_t *copies, unsigned tables)
{
    pigrozd_result_answer given = result_lent(scratch_words, n, width + 1);
    unsigned i;

    EXPECT(given.number, PIGROZD_JOINED);
    EXPECT(given.detail, 0);
    EXPECT(memcmp(row, values, 4 * width), 0);
    EXPECT(is_filled(row + width, PIGROZD_MOST_ATTRIBUTES - width, 0x5a), 1);
    for (i = 0; i < PIGROZD_MOST_TABLES; i++) {
        EXPECT(given.rows[i], i < tables ? rows[i] : 0);
        EXPECT(given.copies[i], i < tables ? copies[i] : 0);
    }
    EXPECT_NUMBER_OF_COPIES(scratch_words, rows, tables, copies, tables, PIGROZD_JOINED, 0, n);
}

/* that, of tables without copies: each copy is 0 */
static void expect_there_and_back(size_t scratch_words, uint64_t n, const uint32_t *values, unsigned width, const uint32_t *rows,
                                  unsigned tables)
{
    expect_pairs(scratch_words, n, values, width, rows, first_copies, tables);
}

/* results of the sample by their numbers, and back */
static void test_one_result(void)
{
    static const uint32_t values[4][4] = {{10, 1, 7, 29510}, {10, 1, 7, 29510}, {11, 2, 9, 29530}, {12, 2, 9, 29530}};
    static const uint32_t rows[4][3] = {{0, 0, 0}, {0, 0, 1}, {1, 2, 2}, {2, 2, 2}};
    static const uint32_t chain_values[2][4] = {{9, 5, 8, 6}, {9, 5, 7, 6}}, chain_rows[2][3] = {{0, 1, 0}, {0, 0, 1}};
    unsigned n;

    EXPECT(PIGROZD_NO_SUCH_RESULT, 16);
    EXPECT(PIGROZD_NOT_A_RESULT, 17);
    EXPECT(PIGROZD_ROW_SHORT, 18);

    put_sample("\377\0\377\1\2", 5);
    EXPECT(length, 126);
    EXPECT_ANSWER(PIGROZD_JOINED, 0);
    EXPECT(lent(117, 16).number, PIGROZD_SCRATCH_SHORT);
    EXPECT(lent(117, 16).detail, 118);
    EXPECT(lent(118, 16).number, PIGROZD_JOINED);
    for (n = 0; n < 4; n++) {
        expect_there_and_back(118, n, values[n], 4, rows[n], 3);
        expect_there_and_back(122, n, values[n], 4, rows[n], 3);
    }

    /* the chain is joined by 2 with (1 with 0), mended or found: rows are told by table number all the same */
    for (n = 0; n < 2; n++) {
        put_chain();
        put_plan("\377\0\377\2\1", 5);
        expect_there_and_back(76, n, chain_values[n], 4, chain_rows[n], 3);
        put_chain();
        put_plan("", 0);
        expect_there_and_back(76, n, chain_values[n], 4, chain_rows[n], 3);
    }
}

/* what the two functions refuse past 9 and 14, in the order of the answers */
static void test_no_result(void)
{
    static const uint32_t zeros[PIGROZD_MOST_TABLES] = {0}, masks[] = {1, 3};
    static const uint32_t wrong[][3] = {
        {4, 0, 0}, {0, 4, 0}, {0, 0, 3}, {PIGROZD_NOT_RECORDED, 0, 0}, /* no such row */
        {1, 0, 0}, {0, 1, 0}, {0, 0, 2}, {3, 0, 0}, {2, 1, 2}          /* rows that do not agree */
    };
    unsigned i;

    put_sample("\377\0\377\1\2", 5);
    EXPECT_RESULT(117, 0, 4, PIGROZD_SCRATCH_SHORT, 118);
    EXPECT_RESULT(117, 4, 3, PIGROZD_SCRATCH_SHORT, 118);
    EXPECT_RESULT(0, 0, 0, PIGROZD_SCRATCH_SHORT, 118);
    EXPECT_RESULT(118, 0, 3, PIGROZD_ROW_SHORT, 4);
    EXPECT_RESULT(118, 4, 3, PIGROZD_ROW_SHORT, 4);
    EXPECT_RESULT(118, 0, 0, PIGROZD_ROW_SHORT, 4);
    EXPECT_RESULT(118, 4, 4, PIGROZD_NO_SUCH_RESULT, 4);
    EXPECT_RESULT(118, (uint64_t)1 << 32, 4, PIGROZD_NO_SUCH_RESULT, 4);
    EXPECT_RESULT(118, (uint64_t)-1, 4, PIGROZD_NO_SUCH_RESULT, 4);

    EXPECT_NUMBER(117, zeros, 3, PIGROZD_SCRATCH_SHORT, 118, 0);
    EXPECT_NUMBER(117, zeros, 2, PIGROZD_SCRATCH_SHORT, 118, 0);
    for (i = 0; i <= PIGROZD_MOST_TABLES; i++)
        if (i != 3)
            EXPECT_NUMBER(118, zeros, i, PIGROZD_NOT_A_RESULT, 0, 0);
    for (i = 0; i < sizeof wrong / sizeof wrong[0]; i++)
        EXPECT_NUMBER(118, wrong[i], 3, PIGROZD_NOT_A_RESULT, 0, 0);

    /* no result at all, and no scratch needed: the row comes first */
    put_masks(masks, 2);
    EXPECT_RESULT(0, 0, 1, PIGROZD_ROW_SHORT, 2);
    EXPECT_RESULT(0, 0, 2, PIGROZD_NO_SUCH_RESULT, 0);
    EXPECT_NUMBER(0, zeros, 2, PIGROZD_NOT_A_RESULT, 0, 0);

    /* what was not recorded does not agree with itself */
    length = 0;
    put_row(3, 7, PIGROZD_NOT_RECORDED);
    put_row(6, PIGROZD_NOT_RECORDED, 9);
    put_plan("\377\0\1", 3);
    EXPECT_RESULT(21, 0, 3, PIGROZD_NO_SUCH_RESULT, 0);
    EXPECT_NUMBER(21, zeros, 2, PIGROZD_NOT_A_RESULT, 0, 0);
}

/* ---- copies */

/* one row with so many copies, behind a table without copies and before another one; where it begins */
static uint64_t put_one_count(uint32_t copies)
{
    uint64_t at;
    length = 0;
    put_table(1, 1);
    put_word(7);
    at = length;
    put_counted(1, 1, &copies);
    put_word(7);
    put_table(1, 1);
    put_word(7);
    put_plan("\377\0\377\1\2", 5);
    return at;
}

/* how many copies a row can have: 19 else, before the next record is looked at, and behind a record that is cut */
static void test_copies_range(void)
{
    static const uint32_t within[] = {1, 2, PIGROZD_MOST_COPIES};
    static const uint32_t outside[] = {0, PIGROZD_MOST_COPIES + 1, 1u << 31, PIGROZD_NOT_RECORDED};
    unsigned i;

    EXPECT(PIGROZD_COPIES_RANGE, 19);
    EXPECT(PIGROZD_MOST_COPIES, 65535);
    for (i = 0; i < 3; i++) {
        put_one_count(within[i]);
        EXPECT(answer().number, PIGROZD_JOINED);
        EXPECT(answer().rows, within[i]);
    }
    for (i = 0; i < 4; i++) {
        uint64_t at = put_one_count(outside[i]);
        EXPECT_ANSWER(PIGROZD_COPIES_RANGE, at);
        EXPECT(lent(0, 0).number, PIGROZD_COPIES_RANGE);
        EXPECT_RESULT(0, 0, 0, PIGROZD_COPIES_RANGE, at);
        EXPECT_NUMBER(0, first_copies, 3, PIGROZD_COPIES_RANGE, at, 0);
        file[at + 18] = 'X';
        EXPECT_ANSWER(PIGROZD_COPIES_RANGE, at);
        length = at + 18;
        EXPECT_ANSWER(PIGROZD_COPIES_RANGE, at);
        length = at + 17;
        EXPECT_ANSWER(PIGROZD_CUT_OFF, at);
        length = at + 13;
        EXPECT_ANSWER(PIGROZD_CUT_OFF, at);
    }
}

/* Two tables of attribute 0, whose rows have copies: pairs of a row and a copy are chosen, the first table's change last. The
 * values of the first one are 7 8 7, of the second one 7 8. */
static void test_copies(void)
{
    static const uint32_t first[] = {2, 1, 1, 7, 8, 7}, second[] = {1, 3, 7, 8};
    static const uint32_t values[] = {7, 7, 8, 8, 8, 7}, rows[][2] = {{0, 0}, {0, 0}, {1, 1}, {1, 1}, {1, 1}, {2, 0}};
    static const uint32_t copies[][2] = {{0, 0}, {1, 0}, {0, 0}, {0, 1}, {0, 2}, {0, 0}};
    static const uint32_t wrong[][2] = {{2, 0}, {0, 1}, {0, 3}, {PIGROZD_NOT_RECORDED, 0}, {1, PIGROZD_MOST_COPIES}};
    static const uint32_t second_copies[] = {0, 1, 0};
    pigrozd_answer given;
    unsigned n;

    length = 0;
    put_counted(1, 3, first);
    put_words(first + 3, 3);
    put_counted(1, 2, second);
    put_words(second + 2, 2);
    put_plan("\377\0\1", 3);

    /* IN is 5: the scratch is that of 5 rows */
    EXPECT(lent(52, 6).number, PIGROZD_SCRATCH_SHORT);
    EXPECT(lent(52, 6).detail, 53);
    EXPECT(lent(53, 5).number, PIGROZD_OUTPUT_SHORT);
    EXPECT(lent(53, 5).detail, 6);
    given = lent(53, 6);
    EXPECT(given.number, PIGROZD_JOINED);
    EXPECT(given.rows, 6);
    EXPECT(given.visits, 10); /* both tables for 4 of the results, and the second one alone for 2 */
    EXPECT(memcmp(output, values, sizeof values), 0);
    for (n = 0; n < 6; n++)
        expect_pairs(53, n, &values[n], 1, rows[n], copies[n], 2);
    EXPECT_RESULT(53, 6, 1, PIGROZD_NO_SUCH_RESULT, 6);

    /* a copy that a row does not have, and copies that are not one for each table */
    for (n = 0; n < 5; n++)
        EXPECT_NUMBER_OF_COPIES(53, rows[0], 2, wrong[n], 2, PIGROZD_NOT_A_RESULT, 0, 0);
    for (n = 0; n <= PIGROZD_MOST_TABLES; n++)
        if (n != 2)
            EXPECT_NUMBER_OF_COPIES(53, rows[0], 2, first_copies, n, PIGROZD_NOT_A_RESULT, 0, 0);
    EXPECT_NUMBER_OF_COPIES(53, rows[0], 2, first_copies, 2, PIGROZD_JOINED, 0, 0);
    EXPECT_NUMBER_OF_COPIES(53, rows[0], 1, first_copies, 2, PIGROZD_NOT_A_RESULT, 0, 0);
    EXPECT_NUMBER_OF_COPIES(53, rows[0], 2, first_copies, 1, PIGROZD_NOT_A_RESULT, 0, 0);

    /* a row of a table without copies has copy 0 alone */
    put_sample("\377\0\377\1\2", 5);
    EXPECT_NUMBER_OF_COPIES(118, first_copies, 3, first_copies, 3, PIGROZD_JOINED, 0, 0);
    EXPECT_NUMBER_OF_COPIES(118, first_copies, 3, second_copies, 3, PIGROZD_NOT_A_RESULT, 0, 0);
}

/* ---- many results */

/* the number of results, by an output of no words */
static void expect_results(uint64_t wanted)
{
    pigrozd_answer given = lent(PIGROZD_MOST_SCRATCH_WORDS, 0);
    EXPECT(given.number, PIGROZD_OUTPUT_SHORT);
    EXPECT(given.detail, wanted);
    EXPECT(given.rows, 0);
    EXPECT(given.entries + given.lookups + given.comparisons + given.visits, 0);
}

/* so many results that they have no numbers: both functions say so before they look at n, the row or the row numbers */
static void expect_too_many(void)
{
    static const uint32_t zeros[PIGROZD_MOST_TABLES] = {0};
    const size_t words = PIGROZD_MOST_SCRATCH_WORDS;

    expect_results(PIGROZD_HOLD_LIMIT);
    EXPECT_RESULT(words, 0, PIGROZD_MOST_ATTRIBUTES, PIGROZD_OUTPUT_SHORT, PIGROZD_HOLD_LIMIT);
    EXPECT_RESULT(words, PIGROZD_HOLD_LIMIT, 0, PIGROZD_OUTPUT_SHORT, PIGROZD_HOLD_LIMIT);
    EXPECT_NUMBER(words, zeros, count_tables(), PIGROZD_OUTPUT_SHORT, PIGROZD_HOLD_LIMIT, 0);
    EXPECT_NUMBER(words, zeros, 0, PIGROZD_OUTPUT_SHORT, PIGROZD_HOLD_LIMIT, 0);
}

/* that many tables of attribute 0 with 16 rows of one value: 16^tables results */
static void put_equal(unsigned tables, int from_right)
{
    unsigned i, y;
    length = 0;
    for (i = 0; i < tables; i++) {
        put_table(1, 16);
        for (y = 0; y < 16; y++)
            put_word(7);
    }
    put_rising_plan(tables, from_right);
}

/* results are counted without an output, exactly up to the limit */
static void test_counted(void)
{
    static const uint32_t most[] = {4096, 4096, 4096, 4096, 4096, 4096};
    int from_right;
    unsigned tables;

    EXPECT(PIGROZD_HOLD_LIMIT, (uint64_t)-1);
    EXPECT(sizeof PIGROZD_HOLD_LIMIT, 8);

    put_sample("\377\0\377\1\2", 5);
    expect_results(4);
    put_tables(2, 0);
    EXPECT(lent(0, 0).number, PIGROZD_JOINED);
    EXPECT(lent(0, 0).rows, 0);

    for (from_right = 0; from_right < 2; from_right++) {
        for (tables = 1; tables < 16; tables++) {
            put_equal(tables, from_right);
            expect_results((uint64_t)1 << (4 * tables));
        }
        put_equal(16, from_right);
        expect_too_many();
    }

    put_apart(most, 5, "\377\0\377\1\377\2\377\3\4", 9);
    expect_results((uint64_t)1 << 60);
    put_apart(most, 6, "\377\0\377\1\377\2\377\3\377\4\5", 11);
    expect_too_many();
}

/* The slow engine multiplies the sums of copies: 1,024 by 1,024, and one more. Five tables of 65,535 copies have more results than
 * have numbers, and four have fewer. */
static void test_many_copies(void)
{
    static const uint32_t most[] = {1000, 24}, past[] = {1000, 25}, all[] = {PIGROZD_MOST_COPIES};
    unsigned i, tables;

    for (i = 0; i < 2; i++) {
        length = 0;
        put_counted(1, 2, most);
        put_word(7);
        put_word(7);
        put_counted(1, 2, i == 0 ? most : past);
        put_word(7);
        put_word(7);
        put_plan("\377\0\1", 3);
        if (i == 0)
            EXPECT_SLOW(0, PIGROZD_OUTPUT_SHORT, PIGROZD_MOST_CHOICES, 0);
        else
            EXPECT_SLOW(0, PIGROZD_TOO_MANY_CHOICES, 0, 0);
    }
    for (tables = 4; tables <= 5; tables++) {
        uint64_t results = 1;
        length = 0;
        for (i = 0; i < tables; i++) {
            put_counted(1, 1, all);
            put_word(7);
            results *= PIGROZD_MOST_COPIES;
        }
        put_rising_plan(tables, 1);
        if (tables == 4)
            expect_results(results);
        else
            expect_too_many();
    }
}

/* how many rows of a key a table of put_powers has */
static unsigned power_rows(unsigned table, unsigned key, unsigned first)
{
    if (table == 0)
        return key == 0 ? first : 15;
    return table <= key ? 16 : 1;
}

/* 16 tables of attribute 0 with so many keys, from 0 on. Of key j the first table has 15 rows, the next j tables have
 * 16 and the others one. So key j has 15 * 16^j results, and all keys together have 16^keys - 1. But of key 0 the first
 * table has as many rows as first says */
static void put_powers(unsigned keys, unsigned first, int from_right)
{
    unsigned table, key, y;
    length = 0;
    for (table = 0; table < PIGROZD_MOST_TABLES; table++) {
        uint32_t rows = 0;
        for (key = 0; key < keys; key++)
            rows += power_rows(table, key, first);
        put_table(1, rows);
        for (key = 0; key < keys; key++)
            for (y = 0; y < power_rows(table, key, first); y++)
                put_word(key);
    }
    put_rising_plan(PIGROZD_MOST_TABLES, from_right);
}

/* Result number n of such a file, there and back. n + 16 - first has key + 1 hexadecimal digits. The highest one says
 * which row of the first table the result has, among those of its key, and the others say it of the next tables */
static void expect_power(uint64_t n, unsigned first)
{
    uint64_t digits = n + 16 - first;
    uint32_t rows[PIGROZD_MOST_TABLES], key = 0;
    unsigned table;

    while (digits >> (4 * key) >= 16)
        key++;
    rows[0] = 15 * key + (uint32_t)(digits >> (4 * key)) + first - 16;
    for (table = 1; table < PIGROZD_MOST_TABLES; table++) {
        rows[table] = key;
        if (table <= key)
            rows[table] = table + 16 * (key - table) + (uint32_t)(digits >> (4 * (key - table)) & 15);
    }
    expect_there_and_back(PIGROZD_MOST_SCRATCH_WORDS, n, &key, 1, rows, PIGROZD_MOST_TABLES);
}

/* such a file, if it has fewer results than the limit: their number, and results from both ends and from the middle */
static void expect_powers(unsigned keys, unsigned first, int from_right)
{
    const uint64_t results = ((uint64_t)-1 >> (64 - 4 * keys)) + first - 15;
    uint64_t power;

    put_powers(keys, first, from_right);
    expect_results(results);
    for (power = 1; power < results / 8; power *= 8) {
        expect_power(power - 1, first);
        expect_power(power, first);
        expect_power(results - power, first);
    }
    expect_power(results / 2, first);
    EXPECT_RESULT(PIGROZD_MOST_SCRATCH_WORDS, results, 1, PIGROZD_NO_SUCH_RESULT, results);
    EXPECT_RESULT(PIGROZD_MOST_SCRATCH_WORDS, PIGROZD_HOLD_LIMIT, 1, PIGROZD_NO_SUCH_RESULT, results);
}

/* around 2^32 results, which all have numbers, and around 2^64: 2^64 - 2 are the most that have numbers */
static void test_most_results(void)
{
    int from_right;

    for (from_right = 0; from_right < 2; from_right++) {
        expect_powers(8, 14, from_right);
        expect_powers(8, 15, from_right);
        put_powers(8, 16, from_right);
        expect_results((uint64_t)1 << 32);
        expect_powers(9, 15, from_right);
        expect_powers(16, 14, from_right);
        put_powers(16, 15, from_right);
        expect_too_many();
        put_powers(16, 16, from_right);
        expect_too_many();
    }
}

/* A group whose total is held, and which no result uses: 15 tables have 64 rows of key 0 and one of key 1, and the first
 * table has key 1 alone. So there is one result, which is written and has a number */
static void test_held_group(void)
{
    static const uint32_t rows[PIGROZD_MOST_TABLES] = {0, 64, 64, 64, 64, 64, 64, 64, 64, 64, 64, 64, 64, 64, 64, 64};
    static const uint32_t key = 1;
    unsigned table, y;
    pigrozd_answer given;

    length = 0;
    put_table(1, 1);
    put_word(key);
    for (table = 1; table < PIGROZD_MOST_TABLES; table++) {
        put_table(1, 65);
        for (y = 0; y < 65; y++)
            put_word(y < 64 ? 0 : key);
    }
    put_rising_plan(PIGROZD_MOST_TABLES, 1);
    expect_results(1);
    given = lent(PIGROZD_MOST_SCRATCH_WORDS, 1);
    EXPECT(given.number, PIGROZD_JOINED);
    EXPECT(given.rows, 1);
    EXPECT(output[0], key);
    expect_there_and_back(PIGROZD_MOST_SCRATCH_WORDS, 0, &key, 1, rows, PIGROZD_MOST_TABLES);
}

/* three tables of attribute 0. Each has rows for each of so many keys, and counts says how many */
static void put_groups(const uint32_t (*counts)[3], unsigned keys)
{
    unsigned table, i;
    uint32_t y;

    length = 0;
    for (table = 0; table < 3; table++) {
        uint32_t rows = 0;
        for (i = 0; i < keys; i++)
            rows += counts[i][table];
        put_table(1, rows);
        for (i = 0; i < keys; i++)
            for (y = 0; y < counts[i][table]; y++)
                put_word(i);
    }
    put_plan("\377\0\377\1\2", 5);
}

/* result number n of such a file: the results of a key stand behind those of the keys before it */
static void expect_in_group(const uint32_t (*counts)[3], uint64_t n)
{
    uint32_t rows[3] = {0, 0, 0}, key;
    uint64_t rest = n;
    unsigned i;

    for (key = 0; rest >= (uint64_t)counts[key][0] * counts[key][1] * counts[key][2]; key++) {
        rest -= (uint64_t)counts[key][0] * counts[key][1] * counts[key][2];
        for (i = 0; i < 3; i++)
            rows[i] += counts[key][i];
    }
    rows[0] += (uint32_t)(rest / counts[key][2] / counts[key][1]);
    rows[1] += (uint32_t)(rest / counts[key][2] % counts[key][1]);
    rows[2] += (uint32_t)(rest % counts[key][2]);
    expect_there_and_back(PIGROZD_MOST_SCRATCH_WORDS, n, &key, 1, rows, 3);
}

/* three keys, of which the first and the last have more than 2^32 results each */
static void test_large_groups(void)
{
    static const uint32_t counts[3][3] = {{2000, 1999, 1997}, {3, 2, 1}, {2090, 2087, 2083}};
    const uint64_t before = (uint64_t)2000 * 1999 * 1997, results = before + 6 + (uint64_t)2090 * 2087 * 2083;
    const uint64_t numbers[] = {
        0, 4000, (uint64_t)1 << 32, before - 1, before, before + 5, before + 6, results / 2 + 4000, results - 1
    };
    unsigned i;

    put_groups(counts, 3);
    expect_results(results);
    for (i = 0; i < sizeof numbers / sizeof numbers[0]; i++)
        expect_in_group(counts, numbers[i]);
    EXPECT_RESULT(PIGROZD_MOST_SCRATCH_WORDS, results, 1, PIGROZD_NO_SUCH_RESULT, results);
}

static void test_lengths(void)
{
    EXPECT(PIGROZD_MOST_BYTES, (uint64_t)-1 / 2);
    EXPECT(PIGROZD_MOST_WORDS, PIGROZD_MOST_BYTES / 4);
    EXPECT(sizeof(size_t), 8);
    EXPECT(sizeof(pigrozd_answer), 56);
    EXPECT(sizeof(pigrozd_slow_answer), 24);
    EXPECT(sizeof(pigrozd_result_answer), 144);
    EXPECT(offsetof(pigrozd_result_answer, number), 0);
    EXPECT(offsetof(pigrozd_result_answer, detail), 8);
    EXPECT(offsetof(pigrozd_result_answer, rows), 16);
    EXPECT(offsetof(pigrozd_result_answer, copies), 80);
    EXPECT(sizeof(pigrozd_number_answer), 24);
    EXPECT(offsetof(pigrozd_number_answer, number), 0);
    EXPECT(offsetof(pigrozd_number_answer, detail), 8);
    EXPECT(offsetof(pigrozd_number_answer, n), 16);
}

static void test_version(void)
{
    char text[64];
    sprintf(text, "%d.%d.%d", PIGROZD_VERSION_MAJOR, PIGROZD_VERSION_MINOR, PIGROZD_VERSION_PATCH);
    EXPECT(strcmp(text, PIGROZD_VERSION), 0);
}

int main(void)
{
    test_answers();
    test_limits();
    test_mended();
    test_found();
    test_not_found();
    test_not_recorded();
    test_slow();
    test_one_result();
    test_no_result();
    test_copies_range();
    test_copies();
    test_counted();
    test_many_copies();
    test_most_results();
    test_held_group();
    test_large_groups();
    test_lengths();
    test_version();
    return failures == 0 ? 0 : 1;
}
