/* Prints the stations of a packed sheet, or why it is refused, and the elements of one curve.
 *
 *     stations [FILE]     without FILE the sheet is read from standard input
 *
 * Exit status: 0 the stations are printed, 1 the sheet is refused, 2 it cannot be read.
 */
#include "show.h"

#include <inttypes.h>
#include <stdio.h>

/* The elements of the curve of document 01's case 1: 177,764 seconds, radius 350 m, spirals of 40 m. */
static void print_elements(void) {
    uint64_t elements[POKYANDI_ELEMENT_NUMBERS];
    uint64_t answer = pokyandi_elements(177764, 350000, 40000, elements, POKYANDI_ELEMENT_NUMBERS);
    if (pokyandi_refusal(answer) != POKYANDI_DONE) {
        print_refusal(answer);
        return;
    }
    printf("elements of case 1's curve, in µm: X %" PRIu64 " Y %" PRIu64, elements[POKYANDI_X], elements[POKYANDI_Y]);
    printf(" k %" PRIu64 " p %" PRIu64, elements[POKYANDI_K], elements[POKYANDI_P]);
    printf(" D %" PRIu64 " TT %" PRIu64 "\n", elements[POKYANDI_D], elements[POKYANDI_TT]);
}

int main(int argc, char **argv) {
    uint8_t sheet[MOST_READ];
    int size = take_sheet("stations", argc > 1 ? argv[1] : NULL, sheet);
    if (size < 0) {
        return 2;
    }
    int refused = print_stations(sheet, (size_t)size);
    print_elements();
    return refused;
}
