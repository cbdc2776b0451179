/* Prints the heights of a profile at its start and where each of its curves begins, has its vertex and ends; then why it is refused where a
 * curve is shorter, and the height of a station before the start.
 *
 * Exit status: 0 the heights are printed, 1 the profile is refused.
 */
#include "show.h"

#include <inttypes.h>
#include <stdio.h>

/* Speed in km/h, start and its height in mm, the first grade in millionths; of each vertex station, grade and curve length. */
static int64_t profile[] = {40, 12340500, 845250, -35000, 12520000, 42500, 80000, 13140000, -60000, 120000, 13420000, -15000, 60000};
#define NUMBERS (sizeof profile / sizeof *profile)
#define VERTICES ((NUMBERS - 4) / 3)

static void print_metres(int64_t mm) {
    uint64_t size = mm < 0 ? 0 - (uint64_t)mm : (uint64_t)mm;
    printf("%s%" PRIu64 ".%03" PRIu64, mm < 0 ? "-" : "", size / 1000, size % 1000);
}

/* Returns whether it is refused. */
static int print_height(const char *name, int64_t station) {
    int64_t height[POKYANDI_HEIGHT_NUMBERS];
    uint64_t answer = pokyandi_height(profile, NUMBERS, (uint64_t)station, height, POKYANDI_HEIGHT_NUMBERS);
    printf("%s ", name);
    print_metres(station);
    printf(": ");
    if (pokyandi_refusal(answer) != POKYANDI_DONE) {
        print_refusal(answer);
        return 1;
    }
    print_metres(height[0]);
    printf("\n");
    return 0;
}

static int print_heights(void) {
    int refused = print_height("start", profile[POKYANDI_PROFILE_START]);
    for (size_t i = 1; i <= VERTICES && !refused; i++) {
        const int64_t *vertex = profile + pokyandi_vertex(i);
        int64_t station = vertex[POKYANDI_VERTEX_STATION];
        int64_t half = vertex[POKYANDI_VERTEX_LENGTH] / 2;
        refused = print_height("begin", station - half) || print_height("vertex", station) || print_height("end", station + half);
    }
    return refused;
}

int main(void) {
    if (print_heights()) {
        return 1;
    }
    int64_t start = profile[POKYANDI_PROFILE_START];
    print_height("before", start - 1);
    profile[pokyandi_vertex(2) + POKYANDI_VERTEX_LENGTH] = 50000;
    print_height("curve 2 of 50 m", start);
    return 0;
}
