/* Prints the line through four points: its distances, and side and deflection of its curves; then why it is refused where a PI lies
 * halfway between its neighbours.
 *
 * Exit status: 0 the line is printed, 1 it is refused.
 */
#include "show.h"

#include <inttypes.h>
#include <stdio.h>

/* Speed in km/h, crossfall in percent, start in mm. */
#define SPEED 40
#define CROSSFALL 8
#define START 12340500

/* mm: east and north of start, PI 1, PI 2 and end; radius and spiral of PI 1 and PI 2. */
static int64_t points[] = {-120250, 85000, 90100, 259120, 332230, 241755, 528000, 408900};
static const uint32_t CURVES[] = {120000, 40000, 100000, 40000};

static uint64_t make_line(uint32_t line[POKYANDI_LINE_NUMBERS]) {
    return pokyandi_from_points(SPEED, CROSSFALL, START, points, sizeof points / sizeof *points, CURVES, sizeof CURVES / sizeof *CURVES,
                                line, POKYANDI_LINE_NUMBERS);
}

static void print_curve(uint32_t i, const uint32_t *curve) {
    const char *side = curve[POKYANDI_CURVE_SIDE] == POKYANDI_LEFT ? "left" : "right";
    printf("curve %" PRIu32 ": %s, deflection %" PRIu32 " seconds\n", i, side, curve[POKYANDI_CURVE_DEFLECTION]);
}

static void print_line(const uint32_t *line) {
    for (uint32_t i = 0; i <= line[POKYANDI_LINE_CURVES]; i++) {
        if (i > 0) {
            print_curve(i, line + pokyandi_curve(i));
        }
        printf("distance %" PRIu32 ": %" PRIu32 " mm\n", i, line[pokyandi_distance(i)]);
    }
}

int main(void) {
    uint32_t line[POKYANDI_LINE_NUMBERS];
    uint64_t answer = make_line(line);
    if (pokyandi_refusal(answer) != POKYANDI_DONE) {
        print_refusal(answer);
        return 1;
    }
    print_line(line);

    points[2] = (points[0] + points[4]) / 2;
    points[3] = (points[1] + points[5]) / 2;
    printf("PI 1 halfway: ");
    print_refusal(make_line(line));
    return 0;
}
