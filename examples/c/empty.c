/* Calls with buffers of no entries, given as null pointers. Exit status: 0 where each answers as the header says. */
#include "pokyandi.h"

#include <stdio.h>

/* Document 01's case 9: speed 70, crossfall 8, start 0, no curve, a distance of 500 m. */
static const uint8_t SHEET[] = {0x10, 0x11, 0xA0, 0x00, 0x00, 0x00, 0x00, 0xF4, 0x24, 0x00};
static const uint32_t LINE[] = {0, 70, 8, 0, 500000};
static const int64_t POINTS[] = {0, 0, 300000, 400000};
/* Speed 40, start 0, height 0, a grade of 1 percent, no vertex. */
static const int64_t PROFILE[] = {40, 0, 0, 10000};
#define POINT_NUMBERS (sizeof POINTS / sizeof *POINTS)
#define PROFILE_NUMBERS (sizeof PROFILE / sizeof *PROFILE)

static int wrong(const char *call, uint64_t answer, uint32_t refusal) {
    if (pokyandi_refusal(answer) == refusal && pokyandi_place(answer) == 0) {
        return 0;
    }
    fprintf(stderr, "empty: %s answers %llx\n", call, (unsigned long long)answer);
    return 1;
}

int main(void) {
    int faults = 0;
    faults += wrong("stations of no bytes", pokyandi_stations(NULL, 0, NULL, 0), POKYANDI_TRUNCATED);
    faults += wrong("check of no bytes", pokyandi_check(NULL, 0), POKYANDI_TRUNCATED);
    faults += wrong("rewrite of no bytes", pokyandi_rewrite(NULL, 0, NULL, 0), POKYANDI_TRUNCATED);
    faults += wrong("text of no bytes", pokyandi_text(NULL, 0, NULL, 0), POKYANDI_SMALL_BUFFER);
    faults += wrong("peg of no bytes", pokyandi_peg(NULL, 0, 0, NULL, 0), POKYANDI_TRUNCATED);
    faults += wrong("read of no bytes", pokyandi_read(NULL, 0, NULL, 0), POKYANDI_TRUNCATED);
    faults += wrong("write of no numbers", pokyandi_write(1, NULL, 0, NULL, 0), POKYANDI_CURVE_COUNT);
    faults += wrong("write in edition 0", pokyandi_write(0, NULL, 0, NULL, 0), POKYANDI_EDITION);
    faults += wrong("edition of no bytes", pokyandi_edition(NULL, 0), POKYANDI_TRUNCATED);
    faults += wrong("convert of no bytes", pokyandi_convert(NULL, 0, 2, NULL, 0), POKYANDI_TRUNCATED);
    faults += wrong("stations into nothing", pokyandi_stations(SHEET, sizeof SHEET, NULL, 0), POKYANDI_SMALL_BUFFER);
    faults += wrong("rewrite into nothing", pokyandi_rewrite(SHEET, sizeof SHEET, NULL, 0), POKYANDI_SMALL_BUFFER);
    faults += wrong("peg into nothing", pokyandi_peg(SHEET, sizeof SHEET, 0, NULL, 0), POKYANDI_SMALL_BUFFER);
    faults += wrong("peg outside the line", pokyandi_peg(SHEET, sizeof SHEET, 500000001, NULL, 0), POKYANDI_STATION);
    faults += wrong("elements into nothing", pokyandi_elements(177764, 350000, 40000, NULL, 0), POKYANDI_SMALL_BUFFER);
    faults += wrong("read into nothing", pokyandi_read(SHEET, sizeof SHEET, NULL, 0), POKYANDI_SMALL_BUFFER);
    faults += wrong("write into nothing", pokyandi_write(1, LINE, sizeof LINE / sizeof *LINE, NULL, 0), POKYANDI_SMALL_BUFFER);
    faults += wrong("convert into nothing", pokyandi_convert(SHEET, sizeof SHEET, 2, NULL, 0), POKYANDI_SMALL_BUFFER);
    faults += wrong("convert to its own edition", pokyandi_convert(SHEET, sizeof SHEET, 1, NULL, 0), POKYANDI_EDITION);
    faults += wrong("line of no points", pokyandi_from_points(70, 8, 0, NULL, 0, NULL, 0, NULL, 0), POKYANDI_CURVE_COUNT);
    faults += wrong("line into nothing", pokyandi_from_points(70, 8, 0, POINTS, POINT_NUMBERS, NULL, 0, NULL, 0), POKYANDI_SMALL_BUFFER);
    faults += wrong("height of no profile", pokyandi_height(NULL, 0, 0, NULL, 0), POKYANDI_CURVE_COUNT);
    faults += wrong("height outside the profile", pokyandi_height(PROFILE, PROFILE_NUMBERS, 200000001, NULL, 0), POKYANDI_STATION);
    faults += wrong("height into nothing", pokyandi_height(PROFILE, PROFILE_NUMBERS, 0, NULL, 0), POKYANDI_SMALL_BUFFER);
    faults += wrong("look-up into nothing", pokyandi_unit_spiral(500, 500000, NULL, 0), POKYANDI_SMALL_BUFFER);
    faults += wrong("look-up behind the last row", pokyandi_unit_spiral(501, 500001, NULL, 0), POKYANDI_THOUSANDTH);
    faults += wrong("look-up of a long spiral", pokyandi_unit_spiral(500, 500001, NULL, 0), POKYANDI_SPIRAL);
    faults += wrong("table into nothing", pokyandi_unit_spiral_table(NULL, 0), POKYANDI_SMALL_BUFFER);
    return faults != 0;
}
