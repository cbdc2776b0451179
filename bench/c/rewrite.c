/* A sheet read into a line and written again, in its own edition or in the other, from document 01's packed sheet and document 02's edition 2:
 * every check of the reader in its order, the fields of a curve taken and put in two groups by words of 64 bits. What the library's calls cost in
 * plain C. */
#include <stdbool.h>
#include <stddef.h>
#include <stdint.h>

enum { MOST_CURVES = 64, GREATEST_DISTANCE = 20000000 };
enum { GREATEST_DEFLECTION = 432000, SMALLEST_RADIUS = 20000, GREATEST_RADIUS = 5000000, GREATEST_SPIRAL = 500000 };

/* What is an edition's own: its number, the bits of its start, and the greatest start. */
struct edition {
    uint32_t number, start_bits, greatest_start;
};
static const struct edition EDITIONS[2] = {{1, 28, 200000000}, {2, 32, 4000000000}};

/* Bits of the other fields. */
enum { EDITION_BITS = 4, COUNT_BITS = 7, SPEED_BITS = 7, CROSSFALL_BITS = 4 };
enum { DISTANCE_BITS = 25, DEFLECTION_BITS = 19, SPIRAL_BITS = 19 };
/* Bits before the start, of the two groups of a curve, and of both. */
enum { FRONT_BITS = EDITION_BITS + COUNT_BITS + SPEED_BITS + CROSSFALL_BITS };
enum { LEG_BITS = 45, BEND_BITS = 42, CURVE_BITS = LEG_BITS + BEND_BITS };
enum { HEADING_BYTES = 7, WORD_BYTES = 8, WORD_BITS = 64 };

struct heading {
    const struct edition *edition;
    uint32_t n, speed, crossfall, start;
};

/* A curve in two groups, as they stand in the sheet: the distance before it, side and deflection; radius and spiral. */
struct curve {
    uint64_t leg, bend;
};

struct line {
    struct heading heading;
    struct curve curves[MOST_CURVES];
    uint32_t last_distance;
};

/* A check answers 0, or number and place of its refusal. */
static uint64_t refused(uint64_t number, size_t place) { return number << 32 | place; }

/* ---- words of bytes, the first byte highest ---- */

static inline uint64_t half_word(const uint8_t *bytes) {
    return (uint64_t)bytes[0] << 24 | (uint64_t)bytes[1] << 16 | (uint64_t)bytes[2] << 8 | bytes[3];
}

static inline uint64_t word(const uint8_t *bytes) { return half_word(bytes) << 32 | half_word(bytes + 4); }

static inline void store_word(uint8_t *bytes, uint64_t word) {
    bytes[0] = (uint8_t)(word >> 56);
    bytes[1] = (uint8_t)(word >> 48);
    bytes[2] = (uint8_t)(word >> 40);
    bytes[3] = (uint8_t)(word >> 32);
    bytes[4] = (uint8_t)(word >> 24);
    bytes[5] = (uint8_t)(word >> 16);
    bytes[6] = (uint8_t)(word >> 8);
    bytes[7] = (uint8_t)word;
}

/* The last `bits` bits of a number. */
static inline uint32_t low(uint64_t number, unsigned bits) { return (uint32_t)(number & ((1ULL << bits) - 1)); }

/* ---- the fields of a curve ---- */

static inline uint32_t distance(struct curve curve) { return (uint32_t)(curve.leg >> (LEG_BITS - DISTANCE_BITS)); }
static inline uint32_t deflection(struct curve curve) { return low(curve.leg, DEFLECTION_BITS); }
static inline uint32_t radius(struct curve curve) { return (uint32_t)(curve.bend >> SPIRAL_BITS); }
static inline uint32_t spiral(struct curve curve) { return low(curve.bend, SPIRAL_BITS); }

/* One comparison for both ends of a range: what lies below it wraps round. */
static inline bool within(uint32_t number, uint32_t least, uint32_t most) { return number - least <= most - least; }

static inline bool good_distance(uint32_t distance) { return within(distance, 1, GREATEST_DISTANCE); }
static inline bool good_deflection(uint32_t deflection) { return within(deflection, 1, GREATEST_DEFLECTION); }
static inline bool good_radius(uint32_t radius) { return within(radius, SMALLEST_RADIUS, GREATEST_RADIUS); }
static inline bool good_spiral(uint32_t spiral, uint32_t radius) { return (spiral <= GREATEST_SPIRAL) & (spiral <= radius); }

static inline bool good_curve(struct curve curve) {
    return good_distance(distance(curve)) & good_deflection(deflection(curve)) & good_radius(radius(curve))
           & good_spiral(spiral(curve), radius(curve));
}

/* ---- the reader ---- */

/* The edition of a sheet, or none. */
static inline const struct edition *edition_of(const uint8_t *sheet) {
    uint32_t number = sheet[0] >> 4;
    return within(number, 1, 2) ? &EDITIONS[number - 1] : NULL;
}

/* Bits of the heading, edition to start. */
static inline unsigned heading_length(const struct edition *edition) { return FRONT_BITS + edition->start_bits; }

/* Seven bytes, by two halves that share the fourth. */
static inline struct heading take_heading(const uint8_t *sheet, const struct edition *edition) {
    uint64_t bits = (half_word(sheet) << 24 | half_word(sheet + 3)) >> (8 * HEADING_BYTES - heading_length(edition));
    struct heading heading;
    heading.edition = edition;
    heading.start = low(bits, edition->start_bits);
    bits >>= edition->start_bits;
    heading.crossfall = low(bits, CROSSFALL_BITS);
    bits >>= CROSSFALL_BITS;
    heading.speed = low(bits, SPEED_BITS);
    bits >>= SPEED_BITS;
    heading.n = low(bits, COUNT_BITS);
    return heading;
}

/* Checks 3 to 6. */
static inline uint64_t check_heading(const struct heading *heading) {
    if (heading->n > MOST_CURVES) return refused(3, 0);
    if (heading->speed < 40 || heading->speed > 120 || heading->speed % 10 != 0) return refused(4, 0);
    if (!within(heading->crossfall, 2, 12)) return refused(5, 0);
    if (heading->start > heading->edition->greatest_start) return refused(6, 0);
    return 0;
}

static inline size_t bit_count(const struct heading *heading) {
    return heading_length(heading->edition) + (size_t)CURVE_BITS * heading->n + DISTANCE_BITS;
}
static inline size_t byte_count(const struct heading *heading) { return (bit_count(heading) + 7) / 8; }
static inline unsigned fill_bits(const struct heading *heading) { return (unsigned)(8 * byte_count(heading) - bit_count(heading)); }

/* Checks 1 (full length) and 7. */
static inline uint64_t check_end(const uint8_t *sheet, size_t sheet_bytes, const struct heading *heading) {
    size_t bytes = byte_count(heading);
    if (sheet_bytes < bytes) return refused(1, 0);
    if (sheet_bytes > bytes || low(sheet[bytes - 1], fill_bits(heading)) != 0) return refused(7, 0);
    return 0;
}

/* A group of at most 57 bits; the word from its first byte on lies within the sheet. */
static inline uint64_t take(const uint8_t *sheet, size_t first_bit, unsigned bits) {
    return word(sheet + first_bit / 8) << first_bit % 8 >> (WORD_BITS - bits);
}

/* Takes the distances and curves, and tells whether all are in range. */
static inline bool take_entries(const uint8_t *sheet, size_t sheet_bytes, struct line *line) {
    size_t n = line->heading.n, bit = heading_length(line->heading.edition);
    bool good = true;
    for (size_t i = 0; i < n; i++, bit += CURVE_BITS) {
        struct curve curve = {take(sheet, bit, LEG_BITS), take(sheet, bit + LEG_BITS, BEND_BITS)};
        good &= good_curve(curve);
        line->curves[i] = curve;
    }
    line->last_distance = low(word(sheet + sheet_bytes - WORD_BYTES) >> fill_bits(&line->heading), DISTANCE_BITS);
    return good & good_distance(line->last_distance);
}

/* Checks 8 to 11 in the order of the sheet, of a line that one of them refuses. */
static uint64_t first_refusal(const struct line *line) {
    size_t n = line->heading.n;
    for (size_t i = 0; i < n; i++) {
        struct curve curve = line->curves[i];
        if (!good_distance(distance(curve))) return refused(8, i);
        if (!good_deflection(deflection(curve))) return refused(9, i + 1);
        if (!good_radius(radius(curve))) return refused(10, i + 1);
        if (!good_spiral(spiral(curve), radius(curve))) return refused(11, i + 1);
    }
    return refused(8, n);
}

static inline uint64_t read_line(const uint8_t *sheet, size_t sheet_bytes, struct line *line) {
    uint64_t refusal;
    const struct edition *edition;
    if (sheet_bytes < HEADING_BYTES) return refused(1, 0);
    if (!(edition = edition_of(sheet))) return refused(2, 0);
    line->heading = take_heading(sheet, edition);
    if ((refusal = check_heading(&line->heading))) return refusal;
    if ((refusal = check_end(sheet, sheet_bytes, &line->heading))) return refusal;
    return take_entries(sheet, sheet_bytes, line) ? 0 : first_refusal(line);
}

/* ---- the writer ---- */

/* The last `count` bits held, fewer than 64, are to be stored at `next`; those above them are stored. */
struct pen {
    uint8_t *next;
    uint64_t held;
    unsigned count;
};

/* Puts a group of fewer than 64 bits, and stores a word when it is full. */
static inline void put(struct pen *pen, uint64_t group, unsigned bits) {
    unsigned count = pen->count + bits;
    if (count < WORD_BITS) {
        pen->held = pen->held << bits | group;
        pen->count = count;
        return;
    }
    unsigned left = count - WORD_BITS;
    store_word(pen->next, pen->held << (bits - left) | group >> left);
    pen->next += WORD_BYTES;
    pen->held = group;
    pen->count = left;
}

/* Stores the bits held, and fills the last byte with zeros. */
static inline void finish(struct pen *pen) {
    if (pen->count == 0) return;
    uint64_t rest = pen->held << (WORD_BITS - pen->count);
    for (unsigned done = 0; done < pen->count; done += 8, rest <<= 8) *pen->next++ = (uint8_t)(rest >> 56);
}

static inline uint64_t heading_bits(const struct heading *heading) {
    uint64_t bits = heading->edition->number;
    bits = bits << COUNT_BITS | heading->n;
    bits = bits << SPEED_BITS | heading->speed;
    bits = bits << CROSSFALL_BITS | heading->crossfall;
    return bits << heading->edition->start_bits | heading->start;
}

static inline void write_line(const struct line *line, uint8_t *bytes) {
    struct pen pen = {bytes, heading_bits(&line->heading), heading_length(line->heading.edition)};
    for (size_t i = 0; i < line->heading.n; i++) {
        put(&pen, line->curves[i].leg, LEG_BITS);
        put(&pen, line->curves[i].bend, BEND_BITS);
    }
    put(&pen, line->last_distance, DISTANCE_BITS);
    finish(&pen);
}

/* ---- the calls ---- */

/* The sheet read and written again at the front of `bytes`. Answers the count of its bytes, or a refusal, its number in the upper 32 bits
 * and its place in the lower; after a refusal nothing is stored. */
uint64_t baseline_rewrite(const uint8_t *sheet, size_t sheet_bytes, uint8_t *bytes, size_t bytes_room) {
    struct line line;
    uint64_t refusal = read_line(sheet, sheet_bytes, &line);
    if (refusal) return refusal;
    if (bytes_room < sheet_bytes) return refused(16, 0);
    write_line(&line, bytes);
    return sheet_bytes;
}

/* The sheet of the same line in the edition asked for, which must be the other one, at the front of `bytes`. Answers as above. */
uint64_t baseline_convert(const uint8_t *sheet, size_t sheet_bytes, uint32_t asked, uint8_t *bytes, size_t bytes_room) {
    struct line line;
    uint64_t refusal = read_line(sheet, sheet_bytes, &line);
    if (refusal) return refusal;
    const struct edition *other = &EDITIONS[line.heading.edition == EDITIONS];
    if (asked != other->number) return refused(2, 0);
    if (line.heading.start > other->greatest_start) return refused(24, 0);
    line.heading.edition = other;
    if (bytes_room < byte_count(&line.heading)) return refused(16, 0);
    write_line(&line, bytes);
    return byte_count(&line.heading);
}
