/* The height of a profile at a station, written from document 02's N5 and source document 001's sight: 64-bit whole numbers, 128 bits for the
 * height alone, and every check. What the library's call costs in plain C. */
#include <stdbool.h>
#include <stddef.h>
#include <stdint.h>

__extension__ typedef __int128 wide;

enum { HEAD = 4, OF_A_VERTEX = 3, MOST_VERTICES = 32 };
enum { GREATEST_STATION = 200000000, GREATEST_HEIGHT = 10000000, GREATEST_GRADE = 120000, GREATEST_LENGTH = 2000000 };
enum { MILLION = 1000000 };

/* Stopping distances at 40, 50, .. 120 km/h, m. */
static const int16_t STOPPING_DISTANCE[] = {45, 64, 85, 111, 140, 173, 211, 267, 310};

struct vertex {
    int64_t station, grade, length;
};

/* A check answers 0, or number and place of its refusal. */
static uint64_t refused(uint64_t number, size_t place) { return number << 32 | place; }

static inline bool within(int64_t number, int64_t most) { return number >= -most && number <= most; }

static inline bool is_station(int64_t station) { return station >= 0 && station <= GREATEST_STATION; }

static uint64_t check_ranges(const int64_t *profile, const struct vertex *vertices, size_t n) {
    if (!is_station(profile[1]) || !within(profile[2], GREATEST_HEIGHT)) return refused(6, 0);
    for (size_t i = 0; i < n; i++)
        if (!is_station(vertices[i].station)) return refused(6, 0);
    return 0;
}

static uint64_t check_grades(int64_t first, const struct vertex *vertices, size_t n) {
    if (!within(first, GREATEST_GRADE)) return refused(22, 0);
    for (size_t i = 0; i < n; i++)
        if (!within(vertices[i].grade, GREATEST_GRADE)) return refused(22, i + 1);
    return 0;
}

static uint64_t check_curves(int64_t start, const struct vertex *vertices, size_t n) {
    int64_t free_from = start;
    for (size_t i = 0; i < n; i++) {
        int64_t length = vertices[i].length;
        if (length < 1 || length > GREATEST_LENGTH || length % 2 != 0) return refused(21, i + 1);
        if (vertices[i].station - length / 2 < free_from) return refused(21, i + 1);
        free_from = vertices[i].station + length / 2;
    }
    return 0;
}

/* Lengths in mm, g in millionths; the factor is 5 times twice 412, or twice 122 + 3.5 D. */
static uint64_t check_sight(int64_t speed, int64_t first, const struct vertex *vertices, size_t n) {
    int64_t d = STOPPING_DISTANCE[speed / 10 - 4];
    int64_t crest = 5 * 2 * 412, sag = 5 * (2 * 122 + 7 * d);
    int64_t incoming = first;
    for (size_t i = 0; i < n; i++) {
        int64_t g = incoming - vertices[i].grade, length = vertices[i].length;
        int64_t factor = g > 0 ? crest : sag, size = g > 0 ? g : -g;
        bool enough = 1000 * d <= length ? length * factor >= d * d * size : (length - 2000 * d) * size + MILLION * factor >= 0;
        if (!enough) return refused(23, i + 1);
        incoming = vertices[i].grade;
    }
    return 0;
}

static inline int64_t rounded_down(wide upper, int64_t lower) {
    wide quotient = upper / lower;
    return (int64_t)(quotient - (upper % lower < 0));
}

/* The height at a station of a profile that has passed every check. */
static int64_t height_at(const int64_t *profile, const struct vertex *vertices, size_t n, int64_t station) {
    int64_t at = profile[1], height = MILLION * profile[2], grade = profile[3];
    for (size_t i = 0; i < n; i++) {
        struct vertex vertex = vertices[i];
        int64_t begin = vertex.station - vertex.length / 2;
        if (station < begin) break;
        int64_t x = station - begin;
        if (x < vertex.length) {
            int64_t on_grade = height + grade * (station - at);
            wide upper = (wide)on_grade * (2 * vertex.length) - (wide)(grade - vertex.grade) * x * x;
            return rounded_down(upper, 2 * vertex.length * MILLION);
        }
        height += grade * (vertex.station - at);
        at = vertex.station;
        grade = vertex.grade;
    }
    int64_t upper = height + grade * (station - at);
    return upper / MILLION - (upper % MILLION < 0);
}

/* The height, mm, as one number. Answers 1, or a refusal, its number in the upper 32 bits and its place in the lower. */
uint64_t baseline_height(const int64_t *profile, size_t profile_numbers, uint64_t station, int64_t *height, size_t height_numbers) {
    if (profile_numbers < HEAD || (profile_numbers - HEAD) % OF_A_VERTEX != 0) return refused(3, 0);
    size_t n = (profile_numbers - HEAD) / OF_A_VERTEX;
    if (n > MOST_VERTICES) return refused(3, 0);
    const struct vertex *vertices = (const struct vertex *)(profile + HEAD);
    int64_t speed = profile[0], start = profile[1];
    if (speed < 40 || speed > 120 || speed % 10 != 0) return refused(4, 0);
    uint64_t refusal;
    if ((refusal = check_ranges(profile, vertices, n))) return refusal;
    if ((refusal = check_grades(profile[3], vertices, n))) return refusal;
    if ((refusal = check_curves(start, vertices, n))) return refusal;
    if ((refusal = check_sight(speed, profile[3], vertices, n))) return refusal;
    if (station < (uint64_t)start || station > GREATEST_STATION) return refused(17, 0);
    if (height_numbers < 1) return refused(16, 0);
    height[0] = height_at(profile, vertices, n, (int64_t)station);
    return 1;
}
