/* Prints X and Y of spirals from the unit spiral table, in metres, and rows of the table; then calls that are refused.
 *
 * Exit status: 0 they are printed, 1 one of them is refused.
 */
#include "show.h"

#include <inttypes.h>
#include <stdio.h>

/* Prints X and Y of a spiral of a length in mm, or the refusal. Returns whether it is refused. */
static int print_offsets(const char *name, uint32_t thousandth, uint32_t length, size_t room) {
    uint64_t offsets[POKYANDI_OFFSET_NUMBERS];
    uint64_t answer = pokyandi_unit_spiral(thousandth, length, offsets, room);
    printf("%s: ", name);
    if (pokyandi_refusal(answer) != POKYANDI_DONE) {
        print_refusal(answer);
        return 1;
    }
    uint64_t x = offsets[POKYANDI_X], y = offsets[POKYANDI_Y];
    printf("X %" PRIu64 ".%06" PRIu64 " Y %" PRIu64 ".%06" PRIu64 "\n", x / 1000000, x % 1000000, y / 1000000, y % 1000000);
    return 0;
}

/* Prints rows 0, 250 and 500, or the refusal. Returns whether it is refused. */
static int print_rows(size_t room) {
    uint64_t ratios[POKYANDI_TABLE_NUMBERS];
    uint64_t answer = pokyandi_unit_spiral_table(ratios, room);
    if (pokyandi_refusal(answer) != POKYANDI_DONE) {
        print_refusal(answer);
        return 1;
    }
    uint32_t rows = pokyandi_count(answer) / POKYANDI_OFFSET_NUMBERS;
    printf("%" PRIu32 " rows\n", rows);
    for (uint32_t i = 0; i < rows; i += 250) {
        const uint64_t *row = ratios + POKYANDI_OFFSET_NUMBERS * i;
        printf("row %" PRIu32 ": x %" PRIu64 " y %" PRIu64 "\n", i, row[POKYANDI_X], row[POKYANDI_Y]);
    }
    return 0;
}

int main(void) {
    if (print_offsets("80 m at 250 thousandths", 250, 80000, POKYANDI_OFFSET_NUMBERS) ||
        print_offsets("500 m at 500 thousandths", 500, 500000, POKYANDI_OFFSET_NUMBERS) || print_rows(POKYANDI_TABLE_NUMBERS)) {
        return 1;
    }
    print_offsets("501 thousandths", 501, 500001, POKYANDI_OFFSET_NUMBERS);
    print_offsets("500.001 m", 500, 500001, 0);
    print_offsets("room for X alone", 500, 500000, 1);
    printf("room for 1001 numbers: ");
    print_rows(POKYANDI_TABLE_NUMBERS - 1);
    return 0;
}
