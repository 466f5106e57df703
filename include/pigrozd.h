/* Pigrozd: joins the tables of a file by its plan, or by one that it finds. For x86-64 Linux; numbers in a file are
 * little-endian. pigrozd_join is the join. pigrozd_slow_join, for acceptance days, goes through every choice of rows and gives
 * the same. pigrozd_result_at gives one result by its number, and pigrozd_number_of the number of a result by its rows and copies;
 * neither writes out the others. A program that was compiled before counted rows must be compiled again:
 * pigrozd_result_answer and pigrozd_number_of have changed.
 *
 * What the caller owes:
 * - No pointer is NULL, also where the length beside it is 0.
 * - file has file_bytes readable bytes, rows and copies have rows_count and copies_count readable words; scratch, output and row
 *   have scratch_words, output_words and row_words writable words. Words are of 32 bits, aligned to 4 bytes.
 * - file_bytes is at most PIGROZD_MOST_BYTES, and each number of words is at most PIGROZD_MOST_WORDS: no buffer has 2^63 bytes
 *   or more. (No memory of such a size can be had on x86-64; a length that was worked out wrong can be one.)
 * - The buffers of a call do not overlap, and nothing else writes to them during the call.
 * - 64 KB of stack are free (measured: 24 KB at most, by the slow engine for a plan of 255 bytes FF).
 * Nothing is asked of what they hold. The functions call nothing but memcpy and memset and keep nothing, so that calls with
 * buffers of their own may run side by side.
 *
 * What they do is proved (Calls.antt of crates/capi/specs, crates/capi_slow/specs and crates/capi_access/specs).
 * docs/SPECIFICATION.md says it in words, docs/answers/README.md says what each answer means and what to look at, docs/TRUST.md
 * what is assumed.
 */
#ifndef PIGROZD_H
#define PIGROZD_H

#include <stddef.h>
#include <stdint.h>

/* The version of this header. The library has no function that tells its own; the name that a program loads it by has the
 * major number: libpigrozd.so.0. */
#define PIGROZD_VERSION_MAJOR 0
#define PIGROZD_VERSION_MINOR 1
#define PIGROZD_VERSION_PATCH 0
#define PIGROZD_VERSION "0.1.0"

/* Limits of a file. What passes one is refused. */
#define PIGROZD_MOST_TABLES 16
#define PIGROZD_MOST_ROWS 4096           /* of one table */
#define PIGROZD_MOST_COPIES 65535        /* of one row; it has at least 1 */
#define PIGROZD_MOST_TABLE_ATTRIBUTES 8  /* of one table; it has at least 1 */
#define PIGROZD_MOST_ATTRIBUTES 32       /* of all tables together, and the values of a row of the result; numbered from 0 */
#define PIGROZD_MOST_PLAN_BYTES 255      /* that the plan's record can hold; a plan of 16 tables has 31, or none */

/* The most words of scratch that any file needs: 10 for each of 16 * 4,096 rows, and 4,096 for each of 15 joins. */
#define PIGROZD_MOST_SCRATCH_WORDS 716800

/* The most words of output that are used. A longer output is taken, and its rest is left as it was. */
#define PIGROZD_MOST_OUTPUT_WORDS 1048576

/* The most choices that pigrozd_slow_join goes through. There are as many as the product of all tables' copies, those of a table's
 * rows added up: in a table without copies these are its rows. */
#define PIGROZD_MOST_CHOICES 1048576

/* 2^64 - 1. As the detail of PIGROZD_OUTPUT_SHORT: so many results or more. A lower detail is their number, and exact.
 * pigrozd_result_at and pigrozd_number_of refuse so many. */
#define PIGROZD_HOLD_LIMIT 18446744073709551615u

/* As a value, in a file, in output and in row: not recorded. It matches nothing, not even itself: no result uses a row that
 * holds it in an attribute that two tables of the plan share. In an attribute of one table alone it passes through. */
#define PIGROZD_NOT_RECORDED 4294967295u

/* The largest lengths that a caller may give: bytes of file; words of any other buffer. */
#define PIGROZD_MOST_BYTES 9223372036854775807u
#define PIGROZD_MOST_WORDS 2305843009213693951u

#ifdef __cplusplus
extern "C" {
#endif

/* The answers, by number. 15 is pigrozd_slow_join's alone, and stands there in the place of 10. 16 and 18 are
 * pigrozd_result_at's alone, and 17 is pigrozd_number_of's alone. 13 is no answer of the library: the programs give it where
 * their standard input is too long. 12 is retired: no call gives it, which is proved, and it is not used again. */
enum pigrozd_number {
    PIGROZD_JOINED = 0,
    PIGROZD_CUT_OFF = 1,           /* the file is cut off; detail: offset of the record that is cut */
    PIGROZD_NO_RECORD = 2,         /* none of the three marks stands here; detail: offset */
    PIGROZD_ATTRIBUTE_COUNT = 3,   /* a table with no attribute, or with more than 8; detail: offset of its record */
    PIGROZD_TOO_MANY_ROWS = 4,     /* a table with more than 4,096 rows; detail: offset of its record */
    PIGROZD_TOO_MANY_TABLES = 5,   /* a 17th table; detail: offset of its record */
    PIGROZD_BEHIND_PLAN = 6,       /* something stands behind the plan; detail: offset of the first byte too many */
    PIGROZD_NOT_A_PLAN = 7,        /* the plan's bytes are not a plan; detail: index in the plan */
    PIGROZD_NOT_NAMED_ONCE = 8,    /* the plan does not name each table once; detail: index in the plan */
    PIGROZD_NO_HOLDER = 9,         /* a join has a side where no table holds its join attributes; detail: index of its FF */
    PIGROZD_SCRATCH_SHORT = 10,    /* the scratch is too short; detail: words needed */
    PIGROZD_OUTPUT_SHORT = 11,     /* more results than the output fits; detail: number of results, or PIGROZD_HOLD_LIMIT */
    PIGROZD_NO_PLAN_FOUND = 14,    /* no plan can be found for these tables; detail: lowest number of a table that remains */
    PIGROZD_TOO_MANY_CHOICES = 15, /* more choices than the slow engine goes through; detail: 0 */
    PIGROZD_NO_SUCH_RESULT = 16,   /* n is not below the number of results; detail: number of results */
    PIGROZD_NOT_A_RESULT = 17,     /* the row numbers and copies are those of no result; detail: 0 */
    PIGROZD_ROW_SHORT = 18,        /* the row buffer is shorter than the values of a row; detail: values of a row */
    PIGROZD_COPIES_RANGE = 19      /* a row of no copies, or of more than 65,535; detail: offset of its table's record */
};

/* The name that 9 had before plans were mended; a plan that is not well-behaved is no longer refused for that. */
#define PIGROZD_NOT_WELL_BEHAVED PIGROZD_NO_HOLDER

/* number: 0 to 11, 14 or 19. After PIGROZD_JOINED detail is 0, and rows and the four counts follow. Any other number is a refusal:
 * detail says where or how much, and the rest is 0. */
typedef struct pigrozd_answer {
    uint64_t number;
    uint64_t detail;
    uint64_t rows;
    uint64_t entries;
    uint64_t lookups;
    uint64_t comparisons;
    uint64_t visits;
} pigrozd_answer;

/* A plan that is not well-behaved is mended first: the join follows the mended plan, and a well-behaved plan as it is
 * (docs/SPECIFICATION.md, section 3). The order of the rows, the words of scratch needed and the counts are those of the plan
 * that is followed. The detail of PIGROZD_NO_HOLDER is an index in the plan of the file.
 *
 * A caller need not have a plan. One of no bytes, a plan's record that is 'P', 'L', 0, asks the join to find one, from the
 * attributes of the tables alone. It is well-behaved, and names the last table of the file first. PIGROZD_NO_PLAN_FOUND says
 * that no well-behaved plan of these tables exists; three that share attributes in a ring have none. It is given in the place of
 * PIGROZD_NOT_NAMED_ONCE and PIGROZD_NO_HOLDER, so before PIGROZD_SCRATCH_SHORT. Without tables a plan of no bytes is
 * PIGROZD_NOT_A_PLAN with detail 0.
 *
 * After PIGROZD_JOINED output begins with the rows: each has one word for every attribute that some table has, attributes
 * rising. The words behind them, and after any other number all of output, are as they were.
 *
 * Too little scratch is PIGROZD_SCRATCH_SHORT: lend as many words as detail says and call again. Too short an output is
 * PIGROZD_OUTPUT_SHORT: detail times the values of a row are the words to lend. Where these are more than
 * PIGROZD_MOST_OUTPUT_WORDS, no output is long enough. This product can pass 64 bits: before it is formed, compare detail with
 * PIGROZD_MOST_OUTPUT_WORDS divided by the values of a row. After PIGROZD_JOINED and PIGROZD_OUTPUT_SHORT all of scratch is zero;
 * after 1 to 10, 14 and 19 it is as it was. What scratch and output hold before the call changes no answer.
 *
 * To learn how many results a file has, lend the scratch and an output of 0 words, by a pointer that is not NULL. The answer is
 * PIGROZD_OUTPUT_SHORT, and detail is the number of results. It is exact, unless it is PIGROZD_HOLD_LIMIT: then there are at
 * least so many. Or the answer is PIGROZD_JOINED, and there are none. Written out, the results take detail times the values of a
 * row times 4 bytes. This product can pass 64 bits too; below 2^57 results it does not. */
pigrozd_answer pigrozd_join(const uint8_t *file, size_t file_bytes,
                            uint32_t *scratch, size_t scratch_words,
                            uint32_t *output, size_t output_words);

/* number: 0 to 9, 11, 14, 15 or 19. After PIGROZD_JOINED detail is 0 and rows follows. Any other number is a refusal: detail says
 * where or how much, and rows is 0. */
typedef struct pigrozd_slow_answer {
    uint64_t number;
    uint64_t detail;
    uint64_t rows;
} pigrozd_slow_answer;

/* The slow engine, for acceptance days. A choice takes one row of each table, and one copy of that row. It goes through every
 * choice, in the order of the plan that pigrozd_join follows, and keeps those that agree. It needs no scratch and reports no
 * counts.
 *
 * Given the same file and output, number, detail, rows and output are those of pigrozd_join wherever neither of the two gives
 * PIGROZD_SCRATCH_SHORT or PIGROZD_TOO_MANY_CHOICES. So what stands above of plans, of output and of PIGROZD_OUTPUT_SHORT holds
 * here too.
 *
 * PIGROZD_TOO_MANY_CHOICES says that there are more than PIGROZD_MOST_CHOICES choices; just so many are gone through. A table of
 * no rows leaves no choice, however many rows the others have. It stands in the place of PIGROZD_SCRATCH_SHORT: behind
 * PIGROZD_NO_HOLDER and PIGROZD_NO_PLAN_FOUND, before PIGROZD_OUTPUT_SHORT. No output changes it, and pigrozd_join takes such a
 * file. */
pigrozd_slow_answer pigrozd_slow_join(const uint8_t *file, size_t file_bytes,
                                      uint32_t *output, size_t output_words);

/* number: 0 to 11, 14, 16, 18 or 19. After PIGROZD_JOINED, which is 0, detail is 0, rows has the result's row number in each
 * table, and copies which copy of that row it is, by table number: tables are numbered from 0 in the order of the file, whatever
 * the plan is, and rows from 0 in each table, copies from 0 in each row. The places behind the last table are 0, and so is the
 * copy of a row in a table without copies.
 * Any other number is a refusal: detail says where or how much, and all of rows and copies is 0. */
typedef struct pigrozd_result_answer {
    uint64_t number;
    uint64_t detail;
    uint32_t rows[PIGROZD_MOST_TABLES];
    uint32_t copies[PIGROZD_MOST_TABLES];
} pigrozd_result_answer;

/* Result number n, without writing out the others. Results are numbered from 0 in the order in which pigrozd_join writes them;
 * so what stands above of plans holds here too.
 *
 * After PIGROZD_JOINED row begins with the values of the result: one word for every attribute that some table has, attributes
 * rising. The words behind them, and after any other number all of row, are as they were.
 *
 * 1 to 10, 14 and 19 are those of pigrozd_join, with the same details: the same scratch is needed. Then come, in this order:
 * - PIGROZD_OUTPUT_SHORT, if there are PIGROZD_HOLD_LIMIT results or more, and only then; detail is this limit.
 * - PIGROZD_ROW_SHORT, if row_words is less than the values of a row, also where there is no result; detail is how many values
 *   a row has.
 * - PIGROZD_NO_SUCH_RESULT, if n is not below the number of results; detail is this number.
 * After 1 to 10, 14 and 19 scratch is as it was; after any other number all of it is zero. What scratch and row hold before the
 * call changes no answer.
 *
 * To size both buffers, call without them: PIGROZD_SCRATCH_SHORT says how many words of scratch to lend, and then
 * PIGROZD_ROW_SHORT how many of row. A file of no rows needs no scratch. With both buffers, and 18446744073709551615 as n,
 * PIGROZD_NO_SUCH_RESULT says how many results there are.
 *
 * A call reads the file and groups its rows, as pigrozd_join does before it writes. Then it goes through the rows of one list
 * for each table, and never through results. Nothing is kept for the next call: a page of 40 results takes 40 calls. */
pigrozd_result_answer pigrozd_result_at(const uint8_t *file, size_t file_bytes,
                                        uint32_t *scratch, size_t scratch_words,
                                        uint64_t n,
                                        uint32_t *row, size_t row_words);

/* number: 0 to 11, 14, 17 or 19. After PIGROZD_JOINED, which is 0, detail is 0 and n is the number of the result. Any other number
 * is a refusal: detail says where or how much, and n is 0. */
typedef struct pigrozd_number_answer {
    uint64_t number;
    uint64_t detail;
    uint64_t n;
} pigrozd_number_answer;

/* The way back: from the row number of each table and the copy of that row, by table number, the number n of the result. rows_count
 * and copies_count are the number of tables. So of the 16 places that pigrozd_result_at gives, as many are handed on as the file
 * has tables.
 *
 * 1 to 10, 14 and 19 are those of pigrozd_join, with the same details: the same scratch is needed. Then come, in this order:
 * - PIGROZD_OUTPUT_SHORT, if there are PIGROZD_HOLD_LIMIT results or more, and only then; detail is this limit.
 * - PIGROZD_NOT_A_RESULT, if rows_count or copies_count is not the number of tables, or a number names no row of its table, or a
 *   copy is not below the number of its row's copies, or the rows do not agree: two tables that share an attribute have values in
 *   it there that do not match. detail is 0.
 * After 1 to 10, 14 and 19 scratch is as it was; after any other number all of it is zero. What scratch holds before the call
 * changes no answer.
 *
 * The two functions undo each other on every result, wherever neither is refused by 1 to 11, 14, 18 or 19. For the row numbers
 * and copies that pigrozd_result_at gives for n, this one gives n; and for the n that this one gives for them, pigrozd_result_at
 * gives these row numbers and copies.
 *
 * The work of a call is that of pigrozd_result_at: the file is read and grouped, then one list for each table is gone through. */
pigrozd_number_answer pigrozd_number_of(const uint8_t *file, size_t file_bytes,
                                        uint32_t *scratch, size_t scratch_words,
                                        const uint32_t *rows, size_t rows_count,
                                        const uint32_t *copies, size_t copies_count);

#ifdef __cplusplus
}
#endif

#endif
