/* A line from the coordinates of its points, written from document 02's N2 and N4 and document 01's checks and working rule: 64-bit whole numbers,
 * libm's square root and arc tangent as guesses, each made exact, and every check. What the library's call costs in plain C. */
#include <math.h>
#include <stdbool.h>
#include <stddef.h>
#include <stdint.h>

__extension__ typedef unsigned __int128 product;

#define SCALE 1000000000ULL
#define PI 3141592654ULL
enum { LEAST_POINTS = 2, MOST_POINTS = 66, MOST_CURVES = 64 };
enum { GREATEST_COORDINATE = 10000000, GREATEST_DISTANCE = 20000000 };
static const uint32_t GREATEST_START = 4000000000;
enum { WIDE_TURN = 216001 };
enum { SMALLEST_RADIUS = 20000, GREATEST_RADIUS = 5000000, GREATEST_SPIRAL = 500000 };
enum { LEAST_ARC = 1000, LEAST_STRAIGHT = 1000 };

static const uint8_t FRICTION[] = {18, 16, 15, 15, 14, 14, 13, 12, 11};
static const uint8_t LEAST_SPIRAL[] = {30, 30, 30, 40, 40, 50, 60, 60, 70};

/* What is found of the points: distances and turns are those of a line, legs in mm. */
struct found {
    int64_t east[MOST_POINTS - 1], north[MOST_POINTS - 1];
    uint32_t distance[MOST_POINTS - 1];
    uint32_t side[MOST_CURVES], deflection[MOST_CURVES];
};

/* A check answers 0, or number and place of its refusal. */
static uint64_t refused(uint64_t number, size_t place) { return number << 32 | place; }

/* ---- the working rule ---- */

static inline uint64_t next_term(uint64_t term, uint64_t z, uint64_t divisor) { return term * z / (SCALE * divisor); }

static inline uint64_t sine(uint64_t q) {
    uint64_t z = q * q / SCALE;
    uint64_t t1 = next_term(q, z, 2 * 3);
    uint64_t t2 = next_term(t1, z, 4 * 5);
    uint64_t t3 = next_term(t2, z, 6 * 7);
    uint64_t t4 = next_term(t3, z, 8 * 9);
    uint64_t t5 = next_term(t4, z, 10 * 11);
    uint64_t t6 = next_term(t5, z, 12 * 13);
    return q - t1 + t2 - t3 + t4 - t5 + t6;
}

static inline uint64_t cosine(uint64_t q) {
    uint64_t z = q * q / SCALE;
    uint64_t t1 = z / 2;
    uint64_t t2 = next_term(t1, z, 3 * 4);
    uint64_t t3 = next_term(t2, z, 5 * 6);
    uint64_t t4 = next_term(t3, z, 7 * 8);
    uint64_t t5 = next_term(t4, z, 9 * 10);
    uint64_t t6 = next_term(t5, z, 11 * 12);
    return SCALE - t1 + t2 - t3 + t4 - t5 + t6;
}

static inline uint64_t full_angle(uint64_t seconds) { return seconds * PI / 648000; }

/* A quotient to the nearest, halves up; the divisor is even. */
static inline uint64_t nearest(uint64_t upper, uint64_t lower) { return (upper + lower / 2) / lower; }

/* D, um. */
static inline int64_t arc(uint64_t a, uint64_t r, uint64_t l) { return (int64_t)(nearest(r * full_angle(a), 1000000) - 1000 * l); }

/* TT, um; without spirals k and p are 0. */
static inline int64_t tangent(uint64_t a, uint64_t r, uint64_t l) {
    uint64_t half = a * PI / 1296000;
    uint64_t tan = sine(half) * SCALE / cosine(half);
    uint64_t k = 0, p = 0; /* differences below zero wrap round, and back in the sums */
    if (l > 0) {
        uint64_t t = l * (SCALE / 2) / r;
        uint64_t t2 = t * t / SCALE, t3 = t2 * t / SCALE, t4 = t2 * t2 / SCALE;
        uint64_t t5 = t4 * t / SCALE, t6 = t4 * t2 / SCALE;
        k = nearest(l * (SCALE - t2 / 10 + t4 / 216 - t6 / 9360), 1000000) - nearest(r * sine(t), 1000000);
        p = nearest(l * (t / 3 - t3 / 42 + t5 / 1320), 1000000) - nearest(r * (SCALE - cosine(t)), 1000000);
    }
    return (int64_t)(k + nearest((1000 * r + p) * tan, SCALE));
}

/* ---- distances and turns ---- */

static inline uint64_t root(uint64_t square) {
    uint64_t r = (uint64_t)sqrt((double)square);
    while (r * r > square) r--;
    while ((r + 1) * (r + 1) <= square) r++;
    return r;
}

static inline bool reached(uint64_t cross, uint64_t dot, uint32_t seconds) {
    uint64_t q = full_angle(seconds);
    return (product)cross * cosine(q) >= (product)dot * sine(q);
}

/* The largest second that is reached, up to the first that is too wide. Second 0 always is. */
static inline uint32_t turn(uint64_t cross, uint64_t dot) {
    double guess = atan2((double)cross, (double)dot) * 206264.80624709636;
    uint32_t seconds = guess < WIDE_TURN ? (uint32_t)guess : WIDE_TURN;
    while (seconds < WIDE_TURN && reached(cross, dot, seconds + 1)) seconds++;
    while (!reached(cross, dot, seconds)) seconds--;
    return seconds;
}

static uint64_t check_coordinates(const int64_t *points, size_t numbers) {
    for (size_t i = 0; i < numbers; i++)
        if (points[i] < -GREATEST_COORDINATE || points[i] > GREATEST_COORDINATE) return refused(18, 0);
    return 0;
}

static uint64_t find_distances(const int64_t *points, size_t n, struct found *found) {
    for (size_t i = 0; i <= n; i++) {
        int64_t east = points[2 * i + 2] - points[2 * i], north = points[2 * i + 3] - points[2 * i + 1];
        uint64_t distance = root((uint64_t)(east * east + north * north));
        if (distance < 1 || distance > GREATEST_DISTANCE) return refused(8, i);
        found->east[i] = east;
        found->north[i] = north;
        found->distance[i] = (uint32_t)distance;
    }
    return 0;
}

static uint64_t find_turns(size_t n, struct found *found) {
    for (size_t i = 0; i < n; i++) {
        int64_t east_in = found->east[i], north_in = found->north[i];
        int64_t east_out = found->east[i + 1], north_out = found->north[i + 1];
        int64_t cross = east_in * north_out - north_in * east_out;
        int64_t dot = east_in * east_out + north_in * north_out;
        if (dot <= 0) return refused(20, i + 1);
        uint32_t seconds = turn((uint64_t)(cross < 0 ? -cross : cross), (uint64_t)dot);
        if (seconds == WIDE_TURN) return refused(20, i + 1);
        if (seconds == 0) return refused(19, i + 1);
        found->side[i] = cross > 0;
        found->deflection[i] = seconds;
    }
    return 0;
}

/* ---- the calculator's checks; those of distances and deflections have been made ---- */

static uint64_t check_heading(uint32_t speed, uint32_t crossfall, uint32_t start) {
    if (speed < 40 || speed > 120 || speed % 10 != 0) return refused(4, 0);
    if (crossfall < 2 || crossfall > 12) return refused(5, 0);
    if (start > GREATEST_START) return refused(6, 0);
    return 0;
}

static uint64_t check_ranges(const uint32_t *curves, size_t n) {
    for (size_t i = 0; i < n; i++) {
        uint32_t r = curves[2 * i], l = curves[2 * i + 1];
        if (r < SMALLEST_RADIUS || r > GREATEST_RADIUS) return refused(10, i + 1);
        if (l > GREATEST_SPIRAL || l > r) return refused(11, i + 1);
    }
    return 0;
}

/* Checks 12 to 14. */
static uint64_t check_curves(uint64_t speed, uint64_t crossfall, const uint32_t *curves, size_t n, const struct found *found) {
    size_t row = speed / 10 - 4;
    uint64_t radius_factor = 127 * (crossfall + FRICTION[row]), least_radius = 100000 * speed * speed;
    uint64_t least_spiral = 1000 * (uint64_t)LEAST_SPIRAL[row], least_product = 36000 * speed * speed * speed;
    for (size_t i = 0; i < n; i++) {
        uint64_t r = curves[2 * i], l = curves[2 * i + 1];
        if (radius_factor * r < least_radius) return refused(12, i + 1);
        if (l > 0 && (l < least_spiral || l * r < least_product)) return refused(13, i + 1);
        if (arc(found->deflection[i], r, l) < LEAST_ARC) return refused(14, i + 1);
    }
    return 0;
}

/* Check 15. */
static uint64_t check_straights(const uint32_t *curves, size_t n, const struct found *found) {
    int64_t behind = 0;
    for (size_t i = 0; i <= n; i++) {
        int64_t ahead = i < n ? tangent(found->deflection[i], curves[2 * i], curves[2 * i + 1]) : 0;
        if (1000 * (int64_t)found->distance[i] - behind - ahead < LEAST_STRAIGHT) return refused(15, i);
        behind = ahead;
    }
    return 0;
}

/* ---- the call ---- */

static uint64_t check_counts(size_t point_numbers, size_t curve_numbers) {
    size_t points = point_numbers / 2;
    bool right = point_numbers % 2 == 0 && points >= LEAST_POINTS && points <= MOST_POINTS && curve_numbers == 2 * (points - 2);
    return right ? 0 : refused(3, 0);
}

static void write_curves(const uint32_t *curves, size_t n, const struct found *found, uint32_t *line) {
    for (size_t i = 0; i < n; i++, line += 5) {
        line[0] = found->side[i];
        line[1] = found->deflection[i];
        line[2] = curves[2 * i];
        line[3] = curves[2 * i + 1];
        line[4] = found->distance[i + 1];
    }
}

/* The numbers of the line at the front of `line`: n, V, e, start and distance 0; side, A, R, L and the distance behind it of each curve.
 * Answers their count, or a refusal, its number in the upper 32 bits and its place in the lower. */
uint64_t baseline_from_points(uint32_t speed, uint32_t crossfall, uint32_t start, const int64_t *points, size_t point_numbers,
                              const uint32_t *curves, size_t curve_numbers, uint32_t *line, size_t line_numbers) {
    struct found found;
    uint64_t refusal = check_counts(point_numbers, curve_numbers);
    if (refusal) return refusal;
    size_t n = point_numbers / 2 - 2, count = 5 + 5 * n;
    if ((refusal = check_coordinates(points, point_numbers))) return refusal;
    if ((refusal = find_distances(points, n, &found))) return refusal;
    if ((refusal = find_turns(n, &found))) return refusal;
    if ((refusal = check_heading(speed, crossfall, start))) return refusal;
    if ((refusal = check_ranges(curves, n))) return refusal;
    if ((refusal = check_curves(speed, crossfall, curves, n, &found))) return refusal;
    if ((refusal = check_straights(curves, n, &found))) return refusal;
    if (line_numbers < count) return refused(16, 0);
    line[0] = (uint32_t)n;
    line[1] = speed;
    line[2] = crossfall;
    line[3] = start;
    line[4] = found.distance[0];
    write_curves(curves, n, &found, line + 5);
    return count;
}
