/* Pokyandi: the stations of a road alignment from its packed sheet (document 01), the element under a station, its line in numbers, the
 * sheet in its other edition (document 02), a line from the coordinates of its points, the elements of one curve, the unit spiral table
 * and X and Y from it, the height of a profile at a station.
 *
 * Link target/staticlib/libpokyandi.a, which `tools/build` makes for Linux on x86-64. There is no state; any number of
 * threads may call at once. A call allocates nothing and takes at most POKYANDI_STACK_BYTES of stack.
 *
 * Memory is the caller's. A buffer is a pointer and the number of its entries; the pointer may be null only where that number is 0.
 * A buffer that is written to overlaps no other. A call writes its count of entries at the buffer's front and nothing behind them; after a
 * refusal every entry is what it was. Any bytes and numbers are taken, and every call returns.
 *
 * An answer holds two numbers of 32 bits:
 *   upper 0            done, the lower is the count of entries, of pokyandi_edition the edition
 *   upper 1 to 25      refused, the upper is the refusal's number, the lower its place: the index of a distance (0 to n) for 8
 *                      and 15, the number of a curve (1 to n) for 9 to 14, 19 and 20, of a vertex (1 to n) for 21 to 23 (0 for the
 *                      first grade), else 0; of several refusals the first in order
 */
#ifndef POKYANDI_H
#define POKYANDI_H

#include <stddef.h>
#include <stdint.h>

#ifdef __cplusplus
extern "C" {
#endif

/* The version of this header, 0.9.0: major x 1,000,000 + minor x 1,000 + patch. A later library may have more refusals. */
#define POKYANDI_VERSION 9000

/* The version of the library that is linked. */
uint64_t pokyandi_version(void);

/* Bytes of stack that are enough for every call, with what the dynamic linker takes when a call first uses memcpy. */
#define POKYANDI_STACK_BYTES 16384

enum pokyandi_reason {
    POKYANDI_DONE = 0, POKYANDI_TRUNCATED = 1, POKYANDI_EDITION = 2, POKYANDI_CURVE_COUNT = 3, POKYANDI_SPEED = 4, POKYANDI_CROSSFALL = 5,
    POKYANDI_START = 6, POKYANDI_TRAILING = 7, POKYANDI_DISTANCE = 8, POKYANDI_DEFLECTION = 9, POKYANDI_RADIUS = 10, POKYANDI_SPIRAL = 11,
    POKYANDI_LEAST_RADIUS = 12, POKYANDI_LEAST_SPIRAL = 13, POKYANDI_SHORT_ARC = 14, POKYANDI_SHORT_STRAIGHT = 15, POKYANDI_SMALL_BUFFER = 16,
    POKYANDI_STATION = 17, POKYANDI_COORDINATE = 18, POKYANDI_NO_TURN = 19, POKYANDI_WIDE_TURN = 20,
    POKYANDI_VERTICAL_CURVE = 21, POKYANDI_GRADE = 22, POKYANDI_SIGHT = 23, POKYANDI_FAR_START = 24,
    POKYANDI_THOUSANDTH = 25
};

static inline uint32_t pokyandi_refusal(uint64_t answer) { return (uint32_t)(answer >> 32); }
static inline uint32_t pokyandi_place(uint64_t answer) { return (uint32_t)answer; }
static inline uint32_t pokyandi_count(uint64_t answer) { return (uint32_t)answer; }

/* What a refusal's number means. */
static inline const char *pokyandi_words(uint32_t refusal) {
    switch (refusal) {
    case POKYANDI_DONE: return "not refused";
    case POKYANDI_TRUNCATED: return "under 7 bytes, or fewer than n curves need";
    case POKYANDI_EDITION: return "edition other than 1 and 2, or, to convert, not the other one";
    case POKYANDI_CURVE_COUNT:
        return "over 64 curves or 32 vertices, fewer than 2 or over 66 points, or other than "
               "5 + 5 x n numbers of a line, 2 of each point and PI, 4 + 3 x n of a profile";
    case POKYANDI_SPEED: return "design speed other than 40, 50, .. 120 km/h";
    case POKYANDI_CROSSFALL: return "crossfall outside 2 to 12 percent";
    case POKYANDI_START:
        return "start over 200,000,000 mm in edition 1 or 4,000,000,000 mm in edition 2, "
               "profile's start or vertex over 200,000,000 mm, or start height beyond 10,000,000 mm either way";
    case POKYANDI_TRAILING: return "more bytes than n curves need, or a fill bit set";
    case POKYANDI_DISTANCE: return "distance outside 1 to 20,000,000 mm";
    case POKYANDI_DEFLECTION: return "deflection outside 1 to 432,000 seconds, or side other than 0 and 1";
    case POKYANDI_RADIUS: return "radius outside 20,000 to 5,000,000 mm";
    case POKYANDI_SPIRAL: return "spiral over 500,000 mm, or longer than the radius";
    case POKYANDI_LEAST_RADIUS: return "radius below the least for design speed and crossfall";
    case POKYANDI_LEAST_SPIRAL: return "spiral below the least for design speed and radius";
    case POKYANDI_SHORT_ARC: return "arc under 1 mm";
    case POKYANDI_SHORT_STRAIGHT: return "straight under 1 mm";
    case POKYANDI_SMALL_BUFFER: return "buffer too small for the answer";
    case POKYANDI_STATION: return "station below the start or beyond the end: the line's own, or 200,000,000 mm of a profile";
    case POKYANDI_COORDINATE: return "coordinate beyond 10,000,000 mm either way";
    case POKYANDI_NO_TURN: return "no turn of a second at the PI; leave the point out";
    case POKYANDI_WIDE_TURN: return "turn over 216,000 seconds (60 degrees) at the PI";
    case POKYANDI_VERTICAL_CURVE:
        return "vertical curve of odd length, outside 2 to 2,000,000 mm, or reaching past the curve before it or the start";
    case POKYANDI_GRADE: return "grade beyond 120,000 millionths (12 percent) either way";
    case POKYANDI_SIGHT: return "vertical curve shorter than the stopping distance needs";
    case POKYANDI_FAR_START: return "start over 200,000,000 mm, the greatest of edition 1";
    case POKYANDI_THOUSANDTH: return "spiral angle over 500 thousandths of a radian; take a row of the table, 0 to 500";
    default: return "unknown refusal";
    }
}

/* Entries that are enough for every sheet, line, list of points, curve, profile and look-up, and for the unit spiral table. */
#define POKYANDI_SHEET_BYTES 706
#define POKYANDI_LINE_NUMBERS 325
#define POKYANDI_POINT_NUMBERS 132
#define POKYANDI_CURVE_NUMBERS 128
#define POKYANDI_ROW_NUMBERS 257
#define POKYANDI_TEXT_BYTES 5417
#define POKYANDI_PEG_NUMBERS 5
#define POKYANDI_ELEMENT_NUMBERS 6
#define POKYANDI_PROFILE_NUMBERS 100
#define POKYANDI_HEIGHT_NUMBERS 1
#define POKYANDI_OFFSET_NUMBERS 2
#define POKYANDI_TABLE_NUMBERS 1002

/* The stations of a sheet in um: TS, SC, CS, ST of each curve in order, then the end. Count: 4 x n + 1. Refusals: 1 to 15, then 16. */
uint64_t pokyandi_stations(const uint8_t *sheet, size_t sheet_bytes, uint64_t *row, size_t row_numbers);

/* The same checks, 1 to 15, without a row. Count: how many numbers the stations of the sheet are, 4 x n + 1. */
uint64_t pokyandi_check(const uint8_t *sheet, size_t sheet_bytes);

/* What the program `stations` prints for a sheet: the list of stations in metres, or the line of a refusal 1 to 15; no zero byte
 * behind it. Count: its bytes. Refusal: 16. */
uint64_t pokyandi_text(const uint8_t *sheet, size_t sheet_bytes, uint8_t *text, size_t text_bytes);

/* The element under a station, by the indexes below: its kind, its number (distance 0 to n of a straight, else curve 1 to n), the length
 * from its beginning in um, and on a spiral x along the tangent and y square to it, in um, y negative on a left curve; elsewhere both are
 * 0. On the spiral out the length runs back from ST, and x and y are seen from there. The station is in um, from the start (mm x 1,000) to
 * the end, both included; one that two elements share belongs to the one that begins there, and the end to the last straight. Count: 5.
 * Refusals: 1 to 15, then 17 for a station outside the line, then 16. */
uint64_t pokyandi_peg(const uint8_t *sheet, size_t sheet_bytes, uint64_t station, int64_t *peg, size_t peg_numbers);
enum { POKYANDI_PEG_KIND = 0, POKYANDI_PEG_NUMBER = 1, POKYANDI_PEG_LENGTH = 2, POKYANDI_PEG_X = 3, POKYANDI_PEG_Y = 4 };
enum { POKYANDI_STRAIGHT = 0, POKYANDI_SPIRAL_IN = 1, POKYANDI_ARC = 2, POKYANDI_SPIRAL_OUT = 3 };

/* The elements of one curve in um, by the indexes below. The deflection is in seconds of arc, radius and spiral in mm. Count: 6.
 * Refusals: 9, 10, 11, 14, then 16, all with place 0. */
uint64_t pokyandi_elements(uint32_t deflection, uint32_t radius, uint32_t spiral, uint64_t *numbers, size_t numbers_room);
enum { POKYANDI_X = 0, POKYANDI_Y = 1, POKYANDI_K = 2, POKYANDI_P = 3, POKYANDI_D = 4, POKYANDI_TT = 5 };

/* X and Y of a spiral in um, from the unit spiral table; the indexes are POKYANDI_X and POKYANDI_Y. The thousandth is the spiral's angle,
 * L / 2R, in thousandths of a radian, 0 to 500; the length is in mm. They are X and Y of the elements of a curve whose spiral has this
 * length and this angle. Count: 2. Refusals: 25 for a thousandth over 500, 11 for a length over 500,000, then 16, all with place 0. */
uint64_t pokyandi_unit_spiral(uint32_t thousandth, uint32_t length, uint64_t *offsets, size_t offsets_numbers);

/* The unit spiral table: x and y of the spiral of length one at 0, 1, .. 500 thousandths of a radian, in billionths. Row i has x at 2 x i
 * and y at 2 x i + 1. Count: 1,002. Refusal: 16. */
uint64_t pokyandi_unit_spiral_table(uint64_t *ratios, size_t ratios_numbers);

/* A line in numbers has five for its head, n, V (km/h), e (percent), start (mm) and distance 0 (mm), and then five for each curve: side,
 * A (seconds of arc), R, L and the distance behind it (mm). */
enum { POKYANDI_LINE_CURVES = 0, POKYANDI_LINE_SPEED = 1, POKYANDI_LINE_CROSSFALL = 2, POKYANDI_LINE_START = 3 };
enum { POKYANDI_CURVE_SIDE = 0, POKYANDI_CURVE_DEFLECTION = 1, POKYANDI_CURVE_RADIUS = 2, POKYANDI_CURVE_SPIRAL = 3 };
enum { POKYANDI_RIGHT = 0, POKYANDI_LEFT = 1 };

/* Where the numbers of curve i begin, 1 to n: its radius is line[pokyandi_curve(i) + POKYANDI_CURVE_RADIUS]. */
static inline size_t pokyandi_curve(size_t i) { return 5 * i; }

/* Where distance i stands, 0 to n. */
static inline size_t pokyandi_distance(size_t i) { return 5 * i + 4; }

/* The editions of the packed sheet, 1 and 2, differ in the start alone: it has 28 bits and may reach 200,000,000 mm in edition 1, 32 bits
 * and 4,000,000,000 mm in edition 2. Every call takes sheets of either; refusal 6 of a sheet follows its edition. */

/* The edition of a sheet. Count: 1 or 2, the edition itself. Refusals: 1 to 11. */
uint64_t pokyandi_edition(const uint8_t *sheet, size_t sheet_bytes);

/* The line of a sheet. Count: 5 + 5 x n. Refusals: 1 to 11, then 16. */
uint64_t pokyandi_read(const uint8_t *sheet, size_t sheet_bytes, uint32_t *line, size_t line_numbers);

/* The sheet of a line in an edition. Count: its bytes. Refusals: 2 for any edition but 1 and 2; 3 to 6, 6 by the edition; 8 to 11; then 16.
 * The line has 5 + 5 x n numbers, neither fewer nor more, else it is refused 3; a side other than 0 and 1 is refused as a deflection out of
 * range is, 9 at its curve in its turn. */
uint64_t pokyandi_write(uint32_t edition, const uint32_t *line, size_t line_numbers, uint8_t *bytes, size_t bytes_room);

/* The sheet read and written again in its edition, which are the same bytes. Count: its bytes. Refusals: 1 to 11, then 16. */
uint64_t pokyandi_rewrite(const uint8_t *sheet, size_t sheet_bytes, uint8_t *bytes, size_t bytes_room);

/* The sheet of the same line in the other edition; there and back are the same bytes. Count: its bytes. Refusals: 1 to 11; 2 where the
 * edition asked for is not the other one; 24 for edition 1 where the start is over 200,000,000 mm; then 16. */
uint64_t pokyandi_convert(const uint8_t *sheet, size_t sheet_bytes, uint32_t edition, uint8_t *bytes, size_t bytes_room);

/* The line through points: east and north of the start, of each PI and of the end in turn; radius and spiral of each PI in turn; all in mm.
 * Speed, crossfall and start are those of a line. Distances are rounded down to the mm, deflections to the second. Count: 5 + 5 x n.
 * Refusals: 3 for an odd count of point numbers or other than two curve numbers for each PI; 3 for fewer than 2 or more than 66 points; 18;
 * 8 of each distance; point by point 20 and 19; 4 to 6, 6 for a start over 4,000,000,000, 10 to 15 of the line so made; then 16. */
uint64_t pokyandi_from_points(uint32_t speed, uint32_t crossfall, uint32_t start, const int64_t *points, size_t point_numbers,
                              const uint32_t *curves, size_t curve_numbers, uint32_t *line, size_t line_numbers);

/* The height of a profile at a station, in mm, rounded once, down. A profile has four numbers for its head, V (km/h), start (mm), height of
 * the start (mm) and first grade (millionths), and then three for each vertex: station (mm), the grade that goes out of it (millionths) and
 * the length of its curve (mm), half of it before the vertex. Count: 1. Refusals: 3 for other than 4 + 3 x n numbers and for more than 32
 * vertices; 4; 6 for a start or a vertex outside 0 to 200,000,000 or a height beyond 10,000,000 either way; 22, 21 and 23, each vertex by
 * vertex; 17 for a station below the start or over 200,000,000; then 16. */
uint64_t pokyandi_height(const int64_t *profile, size_t profile_numbers, uint64_t station, int64_t *height, size_t height_numbers);
enum { POKYANDI_PROFILE_SPEED = 0, POKYANDI_PROFILE_START = 1, POKYANDI_PROFILE_HEIGHT = 2, POKYANDI_PROFILE_GRADE = 3 };
enum { POKYANDI_VERTEX_STATION = 0, POKYANDI_VERTEX_GRADE = 1, POKYANDI_VERTEX_LENGTH = 2 };

/* Where the numbers of vertex i begin, 1 to n: its curve's length is profile[pokyandi_vertex(i) + POKYANDI_VERTEX_LENGTH]. */
static inline size_t pokyandi_vertex(size_t i) { return 3 * i + 1; }

#ifdef __cplusplus
}
#endif

#endif
