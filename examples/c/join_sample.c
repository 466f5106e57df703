/* Joins the tables of the sample of docs/SPECIFICATION.md, made here from columns, without a plan: the join finds one. It prints
 * what the proved program prints of such a file.
 *
 *     cc -Iinclude -o join_sample examples/c/join_sample.c target/lib/libpigrozd.a
 *
 * Once the library is installed: cc -o join_sample join_sample.c $(pkg-config --cflags --libs pigrozd)
 */
#include <inttypes.h>
#include <stdio.h>
#include <stdlib.h>

#include "pigrozd.h"

/* Attributes: 0 frame, 1 exposure, 2 reading, 3 hundredths of a kelvin. */
enum { WIDTH = 4 };

/* The columns of each table, one behind the other, attributes rising. */
static const uint32_t frames[] = {10, 11, 12, 13, 1, 2, 2, 4};
static const uint32_t exposures[] = {1, 2, 2, 3, 7, 8, 9, 7};
static const uint32_t readings[] = {7, 7, 9, 29510, 29510, 29530};

static uint8_t file[1024];
static size_t length;

static void put_byte(uint8_t byte)
{
    file[length++] = byte;
}

static void put_word(uint32_t word)
{
    int i;
    for (i = 0; i < 4; i++)
        put_byte((uint8_t)(word >> (8 * i)));
}

/* mask: bit i for attribute i. */
static void put_table(uint32_t mask, uint32_t rows, const uint32_t *values, size_t count)
{
    size_t i;
    put_byte('T');
    put_byte('B');
    put_word(mask);
    put_word(rows);
    for (i = 0; i < count; i++)
        put_word(values[i]);
}

/* A plan of no bytes: the join finds one, readings with (exposures with frames). As bytes it would be 255, 2, 255, 1, 0: 255 is a
 * join, and the left and the right plan follow. So the rows come in the order of the readings. */
static void put_no_plan(void)
{
    put_byte('P');
    put_byte('L');
    put_byte(0);
}

int main(void)
{
    static uint32_t output[64];
    uint32_t nothing = 0, *scratch = &nothing;
    pigrozd_answer answer;
    size_t i, j;

    put_table(3, 4, frames, 8);
    put_table(6, 4, exposures, 8);
    put_table(12, 3, readings, 6);
    put_no_plan();

    /* Asked without scratch, the join says how much it needs. */
    answer = pigrozd_join(file, length, scratch, 0, output, 64);
    if (answer.number == PIGROZD_SCRATCH_SHORT) {
        size_t words = answer.detail;
        scratch = malloc(4 * words);
        if (scratch == NULL)
            return 1;
        answer = pigrozd_join(file, length, scratch, words, output, 64);
        free(scratch);
    }

    /* If no plan could be found, the number would be PIGROZD_NO_PLAN_FOUND. */
    if (answer.number != PIGROZD_JOINED) {
        printf("refused %" PRIu64 " %" PRIu64 "\n", answer.number, answer.detail);
        return 1;
    }
    printf("rows %" PRIu64 "\n", answer.rows);
    for (i = 0; i < answer.rows; i++)
        for (j = 0; j < WIDTH; j++)
            printf("%" PRIu32 "%c", output[WIDTH * i + j], j + 1 < WIDTH ? ' ' : '\n');
    printf("steps %" PRIu64 " %" PRIu64 " %" PRIu64 " %" PRIu64 "\n",
           answer.entries, answer.lookups, answer.comparisons, answer.visits);
    return 0;
}
