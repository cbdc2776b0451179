/* Measures how much stack a call takes: it is made on a stack filled with a pattern, with the sheet of each file, with a line of 64
 * curves or its points, with a profile of 32 vertices, or with a row of the unit spiral table, into no room and into enough. No call is
 * made before, so that what the dynamic linker takes when memcpy is first used counts too.
 *
 *     stack CALL FILE..     CALL is stations, check, text, peg, elements, edition, read, write, rewrite,
 *                           convert, from_points, height, unit_spiral, unit_spiral_table or version
 *
 * Prints the most bytes. Exit status: 0 they are at most POKYANDI_STACK_BYTES, 1 they are more, 2 a call or file is none.
 */
#define _XOPEN_SOURCE 700
#include "show.h"

#include <stdio.h>
#include <string.h>
#include <ucontext.h>

#define PATTERN UINT64_C(0xA5C35A3C96E10F87)
#define WORDS POKYANDI_STACK_BYTES
/* um; in document 01's case 1 it lies on the spiral in. */
#define STATION 339000000
/* mm; behind every curve of the profile. */
#define LAST_STATION 200000000

static uint64_t stack[WORDS];
static ucontext_t outside;

/* The call that is measured, whether it has room, and where its stack begins. */
static int call;
static int roomy;
static const char *top;
static uint64_t answer;

static uint8_t sheet[MOST_READ];
static size_t sheet_bytes;
static uint32_t line[POKYANDI_LINE_NUMBERS];
static int64_t points[POKYANDI_POINT_NUMBERS];
static uint32_t curves[POKYANDI_CURVE_NUMBERS];
static uint64_t row[POKYANDI_ROW_NUMBERS];
static int64_t peg[POKYANDI_PEG_NUMBERS];
static int64_t profile[POKYANDI_PROFILE_NUMBERS];
static int64_t height[POKYANDI_HEIGHT_NUMBERS];
static uint64_t ratios[POKYANDI_TABLE_NUMBERS];
static uint8_t bytes[POKYANDI_TEXT_BYTES];

enum {
    STATIONS, CHECK, TEXT, PEG, ELEMENTS, EDITION, READ, WRITE, REWRITE, CONVERT, FROM_POINTS, HEIGHT, UNIT_SPIRAL, UNIT_SPIRAL_TABLE,
    VERSION, CALLS
};
static const char *const NAMES[CALLS] = {
    "stations", "check", "text", "peg", "elements", "edition", "read", "write", "rewrite", "convert", "from_points", "height",
    "unit_spiral", "unit_spiral_table", "version",
};

/* The edition that the sheet does not have; it is the first four bits. */
static uint32_t other_edition(void) { return sheet_bytes > 0 && sheet[0] >> 4 == 2 ? 1 : 2; }

static uint64_t make_call(void) {
    switch (call) {
    case STATIONS: return pokyandi_stations(sheet, sheet_bytes, row, roomy ? POKYANDI_ROW_NUMBERS : 0);
    case CHECK: return pokyandi_check(sheet, sheet_bytes);
    case TEXT: return pokyandi_text(sheet, sheet_bytes, bytes, roomy ? POKYANDI_TEXT_BYTES : 0);
    case PEG: return pokyandi_peg(sheet, sheet_bytes, STATION, peg, roomy ? POKYANDI_PEG_NUMBERS : 0);
    case ELEMENTS: return pokyandi_elements(177764, 350000, 40000, row, roomy ? POKYANDI_ELEMENT_NUMBERS : 0);
    case EDITION: return pokyandi_edition(sheet, sheet_bytes);
    case READ: return pokyandi_read(sheet, sheet_bytes, line, roomy ? POKYANDI_LINE_NUMBERS : 0);
    case WRITE: return pokyandi_write(2, line, POKYANDI_LINE_NUMBERS, bytes, roomy ? POKYANDI_SHEET_BYTES : 0);
    case REWRITE: return pokyandi_rewrite(sheet, sheet_bytes, bytes, roomy ? POKYANDI_SHEET_BYTES : 0);
    case CONVERT: return pokyandi_convert(sheet, sheet_bytes, other_edition(), bytes, roomy ? POKYANDI_SHEET_BYTES : 0);
    case FROM_POINTS:
        return pokyandi_from_points(40, 8, 0, points, POKYANDI_POINT_NUMBERS, curves, POKYANDI_CURVE_NUMBERS, line,
                                    roomy ? POKYANDI_LINE_NUMBERS : 0);
    case HEIGHT: return pokyandi_height(profile, POKYANDI_PROFILE_NUMBERS, LAST_STATION, height, roomy ? POKYANDI_HEIGHT_NUMBERS : 0);
    case UNIT_SPIRAL: return pokyandi_unit_spiral(500, 500000, ratios, roomy ? POKYANDI_OFFSET_NUMBERS : 0);
    case UNIT_SPIRAL_TABLE: return pokyandi_unit_spiral_table(ratios, roomy ? POKYANDI_TABLE_NUMBERS : 0);
    default: return pokyandi_version();
    }
}

/* What runs on the painted stack. */
static void inside(void) {
    char here;
    top = &here;
    answer = make_call();
}

/* Bytes of stack that the call takes. */
static size_t measure(void) {
    ucontext_t context;
    for (size_t i = 0; i < WORDS; i++) {
        stack[i] = PATTERN;
    }
    getcontext(&context);
    context.uc_stack.ss_sp = stack;
    context.uc_stack.ss_size = sizeof stack;
    context.uc_link = &outside;
    makecontext(&context, inside, 0);
    swapcontext(&outside, &context);

    size_t deepest = 0;
    while (stack[deepest] == PATTERN) {
        deepest++;
    }
    return (size_t)(top - (const char *)(stack + deepest));
}

/* A line of 64 curves, all as in document 01's case 1. */
static void make_line(void) {
    static const uint32_t HEAD[] = {64, 70, 8, 0, 500000};
    static const uint32_t CURVE[] = {POKYANDI_RIGHT, 177764, 350000, 40000, 400000};
    memcpy(line, HEAD, sizeof HEAD);
    for (size_t i = 1; i <= 64; i++) {
        memcpy(line + pokyandi_curve(i), CURVE, sizeof CURVE);
    }
}

/* Points of 64 curves that turn left and right by 23 degrees, 296 m apart. */
static void make_points(void) {
    for (size_t i = 0; i < POKYANDI_POINT_NUMBERS; i += 2) {
        points[i] = 145000 * (int64_t)i - 9500000;
        points[i + 1] = i % 4 ? 60000 : 0;
    }
    for (size_t i = 0; i < POKYANDI_CURVE_NUMBERS; i += 2) {
        curves[i] = 120000;
        curves[i + 1] = 40000;
    }
}

/* A profile of 32 vertices, up and down by 4 percent, 500 m apart. */
static void make_profile(void) {
    static const int64_t HEAD[] = {70, 0, -500000, 40000};
    memcpy(profile, HEAD, sizeof HEAD);
    for (size_t i = 1; i <= 32; i++) {
        int64_t *vertex = profile + pokyandi_vertex(i);
        vertex[POKYANDI_VERTEX_STATION] = 500000 * (int64_t)i;
        vertex[POKYANDI_VERTEX_GRADE] = i % 2 ? -40000 : 40000;
        vertex[POKYANDI_VERTEX_LENGTH] = 300000;
    }
}

/* The call of this name, or CALLS. */
static int call_named(const char *name) {
    int found = 0;
    while (found < CALLS && strcmp(name, NAMES[found]) != 0) {
        found++;
    }
    return found;
}

int main(int argc, char **argv) {
    call = argc > 1 ? call_named(argv[1]) : CALLS;
    if (call == CALLS) {
        fprintf(stderr, "stack: a call is wanted\n");
        return 2;
    }
    make_line();
    make_points();
    make_profile();
    size_t most = 0;
    for (int i = 2; i < argc; i++) {
        int size = take_sheet("stack", argv[i], sheet);
        if (size < 0) {
            return 2;
        }
        sheet_bytes = (size_t)size;
        for (roomy = 0; roomy <= 1; roomy++) {
            size_t taken = measure();
            most = taken > most ? taken : most;
        }
    }
    printf("%zu\n", most);
    return most > POKYANDI_STACK_BYTES;
}
