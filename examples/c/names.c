/* Prints every name of the header that the Rust crate has too, with its number, and the words of refusals 0 to 26.
 * bindings/rust/examples/names.rs prints the same from the crate. */
#include "pokyandi.h"

#include <inttypes.h>
#include <stdio.h>

static void show(const char *name, uint64_t number) { printf("%s %" PRIu64 "\n", name, number); }

#define SHOW(name) show(#name, POKYANDI_##name)

static void show_sizes(void) {
    SHOW(VERSION);
    SHOW(STACK_BYTES);
    SHOW(SHEET_BYTES);
    SHOW(LINE_NUMBERS);
    SHOW(POINT_NUMBERS);
    SHOW(CURVE_NUMBERS);
    SHOW(ROW_NUMBERS);
    SHOW(TEXT_BYTES);
    SHOW(PEG_NUMBERS);
    SHOW(ELEMENT_NUMBERS);
    SHOW(PROFILE_NUMBERS);
    SHOW(HEIGHT_NUMBERS);
    SHOW(OFFSET_NUMBERS);
    SHOW(TABLE_NUMBERS);
}

static void show_indexes(void) {
    SHOW(X);
    SHOW(Y);
    SHOW(K);
    SHOW(P);
    SHOW(D);
    SHOW(TT);
    SHOW(PEG_KIND);
    SHOW(PEG_NUMBER);
    SHOW(PEG_LENGTH);
    SHOW(PEG_X);
    SHOW(PEG_Y);
    SHOW(LINE_CURVES);
    SHOW(LINE_SPEED);
    SHOW(LINE_CROSSFALL);
    SHOW(LINE_START);
    SHOW(CURVE_SIDE);
    SHOW(CURVE_DEFLECTION);
    SHOW(CURVE_RADIUS);
    SHOW(CURVE_SPIRAL);
    SHOW(PROFILE_SPEED);
    SHOW(PROFILE_START);
    SHOW(PROFILE_HEIGHT);
    SHOW(PROFILE_GRADE);
    SHOW(VERTEX_STATION);
    SHOW(VERTEX_GRADE);
    SHOW(VERTEX_LENGTH);
    SHOW(RIGHT);
    SHOW(LEFT);
    SHOW(STRAIGHT);
    SHOW(SPIRAL_IN);
    SHOW(ARC);
    SHOW(SPIRAL_OUT);
    for (size_t i = 0; i <= 64; i++) {
        show("curve", pokyandi_curve(i));
        show("distance", pokyandi_distance(i));
    }
    for (size_t i = 1; i <= 33; i++) {
        show("vertex", pokyandi_vertex(i));
    }
}

static void show_refusals(void) {
    SHOW(DONE);
    SHOW(TRUNCATED);
    SHOW(EDITION);
    SHOW(CURVE_COUNT);
    SHOW(SPEED);
    SHOW(CROSSFALL);
    SHOW(START);
    SHOW(TRAILING);
    SHOW(DISTANCE);
    SHOW(DEFLECTION);
    SHOW(RADIUS);
    SHOW(SPIRAL);
    SHOW(LEAST_RADIUS);
    SHOW(LEAST_SPIRAL);
    SHOW(SHORT_ARC);
    SHOW(SHORT_STRAIGHT);
    SHOW(SMALL_BUFFER);
    SHOW(STATION);
    SHOW(COORDINATE);
    SHOW(NO_TURN);
    SHOW(WIDE_TURN);
    SHOW(VERTICAL_CURVE);
    SHOW(GRADE);
    SHOW(SIGHT);
    SHOW(FAR_START);
    SHOW(THOUSANDTH);
    for (uint32_t number = 0; number <= 26; number++) {
        printf("%" PRIu32 ": %s\n", number, pokyandi_words(number));
    }
}

int main(void) {
    show("version", pokyandi_version());
    show_sizes();
    show_indexes();
    show_refusals();
    return 0;
}
