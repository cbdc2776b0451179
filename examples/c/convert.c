/* Prints a packed sheet and the sheet of the same line in the other edition, converted and converted back; then the line moved past
 * kilometre 200, which edition 1 does not hold, and other calls that are refused.
 *
 *     convert [FILE]     without FILE the sheet is read from standard input
 *
 * Exit status: 0 the sheet is converted, 1 it is refused, 2 it cannot be read.
 */
#include "show.h"

#include <inttypes.h>
#include <stdio.h>
#include <string.h>

/* mm: kilometre 1,234 */
#define FAR_START 1234000000

static uint32_t other(uint32_t edition) { return edition == 1 ? 2 : 1; }

/* The sheet's edition, its length, and its bytes in hexadecimal. */
static void print_sheet(const uint8_t *sheet, size_t size) {
    printf("edition %" PRIu32 ", %zu bytes:", pokyandi_count(pokyandi_edition(sheet, size)), size);
    for (size_t i = 0; i < size; i++) {
        printf(" %02x", sheet[i]);
    }
    printf("\n");
}

/* Prints the sheet in the other edition, and whether it comes back as it was. Returns whether it is refused. */
static int print_converted(uint32_t edition, const uint8_t *sheet, size_t size) {
    uint8_t converted[POKYANDI_SHEET_BYTES];
    uint64_t answer = pokyandi_convert(sheet, size, other(edition), converted, POKYANDI_SHEET_BYTES);
    if (pokyandi_refusal(answer) != POKYANDI_DONE) {
        print_refusal(answer);
        return 1;
    }
    uint32_t count = pokyandi_count(answer);
    print_sheet(converted, count);

    uint8_t back[POKYANDI_SHEET_BYTES];
    answer = pokyandi_convert(converted, count, edition, back, POKYANDI_SHEET_BYTES);
    int same = answer == size && memcmp(back, sheet, size) == 0;
    printf("and back: %s\n", same ? "the same bytes" : "other bytes");
    return 0;
}

/* The line that starts at kilometre 1,234: its sheet in edition 2, which is not converted to edition 1, nor written in it. */
static void print_far(const uint8_t *sheet, size_t size) {
    uint32_t line[POKYANDI_LINE_NUMBERS];
    uint32_t count = pokyandi_count(pokyandi_read(sheet, size, line, POKYANDI_LINE_NUMBERS));
    line[POKYANDI_LINE_START] = FAR_START;
    uint8_t far[POKYANDI_SHEET_BYTES];
    uint64_t answer = pokyandi_write(2, line, count, far, POKYANDI_SHEET_BYTES);
    printf("from kilometre 1,234: ");
    print_sheet(far, pokyandi_count(answer));
    printf("converted to edition 1: ");
    uint8_t bytes[POKYANDI_SHEET_BYTES];
    print_refusal(pokyandi_convert(far, pokyandi_count(answer), 1, bytes, POKYANDI_SHEET_BYTES));
    printf("written in edition 1: ");
    print_refusal(pokyandi_write(1, line, count, bytes, POKYANDI_SHEET_BYTES));
}

/* What is answered where the sheet's own edition or edition 3 is asked for, and to a room of 9 bytes, which is too small for every sheet. */
static void print_refused(uint32_t edition, const uint8_t *sheet, size_t size) {
    uint8_t bytes[POKYANDI_SHEET_BYTES];
    printf("edition %" PRIu32 ": ", edition);
    print_refusal(pokyandi_convert(sheet, size, edition, bytes, POKYANDI_SHEET_BYTES));
    printf("edition 3: ");
    print_refusal(pokyandi_convert(sheet, size, 3, bytes, POKYANDI_SHEET_BYTES));
    printf("9 bytes: ");
    print_refusal(pokyandi_convert(sheet, size, other(edition), bytes, 9));
}

int main(int argc, char **argv) {
    uint8_t sheet[MOST_READ];
    int size = take_sheet("convert", argc > 1 ? argv[1] : NULL, sheet);
    if (size < 0) {
        return 2;
    }

    uint64_t answer = pokyandi_edition(sheet, (size_t)size);
    if (pokyandi_refusal(answer) != POKYANDI_DONE) {
        print_refusal(answer);
        return 1;
    }
    uint32_t edition = pokyandi_count(answer);
    print_sheet(sheet, (size_t)size);
    int refused = print_converted(edition, sheet, (size_t)size);
    print_far(sheet, (size_t)size);
    print_refused(edition, sheet, (size_t)size);
    return refused;
}
