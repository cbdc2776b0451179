/* Prints the line of a packed sheet, makes its last distance 100 m longer, writes the sheet of that line in the same edition and prints its
 * stations; then calls that are refused.
 *
 *     line [FILE]     without FILE the sheet is read from standard input
 *
 * Exit status: 0 the stations are printed, 1 sheet or line is refused, 2 the sheet cannot be read.
 */
#include "show.h"

#include <inttypes.h>
#include <stdio.h>

/* mm */
#define LONGER 100000

static void print_curve(uint32_t i, const uint32_t *curve) {
    printf("curve %" PRIu32 ": %s", i, curve[POKYANDI_CURVE_SIDE] == POKYANDI_LEFT ? "left" : "right");
    printf(", deflection %" PRIu32 " seconds", curve[POKYANDI_CURVE_DEFLECTION]);
    printf(", radius %" PRIu32 " mm", curve[POKYANDI_CURVE_RADIUS]);
    printf(", spiral %" PRIu32 " mm\n", curve[POKYANDI_CURVE_SPIRAL]);
}

static void print_line(const uint32_t *line) {
    uint32_t n = line[POKYANDI_LINE_CURVES];
    printf("curves %" PRIu32 "\n", n);
    printf("speed %" PRIu32 " km/h\n", line[POKYANDI_LINE_SPEED]);
    printf("crossfall %" PRIu32 " percent\n", line[POKYANDI_LINE_CROSSFALL]);
    printf("start %" PRIu32 " mm\n", line[POKYANDI_LINE_START]);
    for (uint32_t i = 0; i <= n; i++) {
        if (i > 0) {
            print_curve(i, line + pokyandi_curve(i));
        }
        printf("distance %" PRIu32 ": %" PRIu32 " mm\n", i, line[pokyandi_distance(i)]);
    }
}

/* Writes the line's sheet and prints its stations. Returns whether one of the two is refused. */
static int print_written(uint32_t edition, const uint32_t *line, size_t count) {
    uint8_t sheet[POKYANDI_SHEET_BYTES];
    uint64_t answer = pokyandi_write(edition, line, count, sheet, POKYANDI_SHEET_BYTES);
    if (pokyandi_refusal(answer) != POKYANDI_DONE) {
        print_refusal(answer);
        return 1;
    }
    printf("a sheet of %" PRIu32 " bytes:\n", pokyandi_count(answer));
    return print_stations(sheet, pokyandi_count(answer));
}

/* What is answered to edition 3, to a line cut short by a number, to no line, to a room of 9 bytes, which is too small for every sheet, and
 * to side 2. */
static void print_refused(uint32_t edition, uint32_t *line, size_t count) {
    uint8_t sheet[POKYANDI_SHEET_BYTES];
    printf("edition 3: ");
    print_refusal(pokyandi_write(3, line, count, sheet, POKYANDI_SHEET_BYTES));
    printf("one number less: ");
    print_refusal(pokyandi_write(edition, line, count - 1, sheet, POKYANDI_SHEET_BYTES));
    printf("no number: ");
    print_refusal(pokyandi_write(edition, line, 0, sheet, POKYANDI_SHEET_BYTES));
    printf("9 bytes: ");
    print_refusal(pokyandi_write(edition, line, count, sheet, 9));
    if (line[POKYANDI_LINE_CURVES] > 0) {
        line[pokyandi_curve(1) + POKYANDI_CURVE_SIDE] = 2;
        printf("side 2: ");
        print_refusal(pokyandi_write(edition, line, count, sheet, POKYANDI_SHEET_BYTES));
    }
}

int main(int argc, char **argv) {
    uint8_t sheet[MOST_READ];
    int size = take_sheet("line", argc > 1 ? argv[1] : NULL, sheet);
    if (size < 0) {
        return 2;
    }

    uint32_t line[POKYANDI_LINE_NUMBERS];
    uint64_t answer = pokyandi_read(sheet, (size_t)size, line, POKYANDI_LINE_NUMBERS);
    if (pokyandi_refusal(answer) != POKYANDI_DONE) {
        print_refusal(answer);
        return 1;
    }
    print_line(line);

    line[pokyandi_distance(line[POKYANDI_LINE_CURVES])] += LONGER;
    printf("the last distance 100 m longer: ");
    uint32_t edition = pokyandi_count(pokyandi_edition(sheet, (size_t)size));
    int refused = print_written(edition, line, pokyandi_count(answer));
    print_refused(edition, line, pokyandi_count(answer));
    return refused;
}
