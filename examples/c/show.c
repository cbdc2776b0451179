#include "show.h"

#include <errno.h>
#include <inttypes.h>
#include <stdio.h>
#include <string.h>

/* Reads at most MOST_READ bytes. Returns 0, or the number of the error. */
static int read_bytes(const char *path, uint8_t *sheet, size_t *size) {
    FILE *file = path ? fopen(path, "rb") : stdin;
    if (!file) {
        return errno;
    }
    errno = 0;
    *size = fread(sheet, 1, MOST_READ, file);
    int error = ferror(file) ? (errno ? errno : EIO) : 0;
    if (path) {
        fclose(file);
    }
    return error;
}

int take_sheet(const char *program, const char *path, uint8_t sheet[MOST_READ]) {
    size_t size = 0;
    int error = read_bytes(path, sheet, &size);
    if (error) {
        fprintf(stderr, "%s: %s: %s\n", program, path ? path : "standard input", strerror(error));
        return -1;
    }
    return (int)size;
}

void print_refusal(uint64_t answer) {
    uint32_t number = pokyandi_refusal(answer);
    printf("refused %" PRIu32 " at place %" PRIu32 ": %s\n", number, pokyandi_place(answer), pokyandi_words(number));
}

int print_stations(const uint8_t *sheet, size_t size) {
    static const char *const NAMES[] = {"TS", "SC", "CS", "ST"};
    uint64_t row[POKYANDI_ROW_NUMBERS];
    uint64_t answer = pokyandi_stations(sheet, size, row, POKYANDI_ROW_NUMBERS);
    if (pokyandi_refusal(answer) != POKYANDI_DONE) {
        print_refusal(answer);
        return 1;
    }
    uint32_t count = pokyandi_count(answer);
    for (uint32_t i = 0; i < count; i++) {
        int end = i + 1 == count;
        printf("%" PRIu32 " %s %" PRIu64 ".%06" PRIu64 "\n", end ? 0 : i / 4 + 1, end ? "END" : NAMES[i % 4], row[i] / 1000000,
               row[i] % 1000000);
    }
    return 0;
}
