/* Prints the element under each station of a packed sheet, or why it is refused.
 *
 *     peg FILE STATION..     a station is in metres, with six decimals at most
 *
 * Exit status: 0 all are printed, 1 one is refused, 2 the sheet cannot be read, or a station is none.
 */
#include "show.h"

#include <inttypes.h>
#include <stdio.h>
#include <string.h>

#define DIGITS "0123456789"

/* The station of a word in um. Returns whether it is one. */
static int take_station(const char *word, uint64_t *station) {
    size_t whole = strspn(word, DIGITS);
    const char *decimals = word + whole + (word[whole] == '.');
    size_t count = strspn(decimals, DIGITS);
    if (whole == 0 || whole > 12 || count > 6 || decimals[count] != '\0') {
        return 0;
    }
    *station = 0;
    for (size_t i = 0; i < whole; i++) {
        *station = 10 * *station + (uint64_t)(word[i] - '0');
    }
    for (size_t i = 0; i < 6; i++) {
        *station = 10 * *station + (i < count ? (uint64_t)(decimals[i] - '0') : 0);
    }
    return 1;
}

static void print_metres(const char *name, int64_t um) {
    uint64_t size = um < 0 ? 0 - (uint64_t)um : (uint64_t)um;
    printf(", %s %s%" PRIu64 ".%06" PRIu64, name, um < 0 ? "-" : "", size / 1000000, size % 1000000);
}

/* Returns whether the station is refused. */
static int print_peg(const uint8_t *sheet, size_t size, uint64_t station) {
    static const char *const KINDS[] = {
        [POKYANDI_STRAIGHT] = "straight", [POKYANDI_SPIRAL_IN] = "spiral in", [POKYANDI_ARC] = "arc", [POKYANDI_SPIRAL_OUT] = "spiral out"};
    int64_t peg[POKYANDI_PEG_NUMBERS];
    uint64_t answer = pokyandi_peg(sheet, size, station, peg, POKYANDI_PEG_NUMBERS);
    if (pokyandi_refusal(answer) != POKYANDI_DONE) {
        print_refusal(answer);
        return 1;
    }
    printf("%s %" PRId64, KINDS[peg[POKYANDI_PEG_KIND]], peg[POKYANDI_PEG_NUMBER]);
    print_metres("length", peg[POKYANDI_PEG_LENGTH]);
    print_metres("x", peg[POKYANDI_PEG_X]);
    print_metres("y", peg[POKYANDI_PEG_Y]);
    printf("\n");
    return 0;
}

int main(int argc, char **argv) {
    uint8_t sheet[MOST_READ];
    int size = take_sheet("peg", argc > 1 ? argv[1] : NULL, sheet);
    if (size < 0) {
        return 2;
    }
    int refused = 0;
    for (int i = 2; i < argc; i++) {
        uint64_t station;
        if (!take_station(argv[i], &station)) {
            fprintf(stderr, "peg: %s: no station in metres\n", argv[i]);
            return 2;
        }
        refused |= print_peg(sheet, (size_t)size, station);
    }
    return refused;
}
