/* What the examples share: taking a sheet from a file, printing refusals and stations. */
#ifndef SHOW_H
#define SHOW_H

#include "pokyandi.h"

/* One byte more than the longest sheet, so that a longer file is refused. */
#define MOST_READ (POKYANDI_SHEET_BYTES + 1)

/* Takes the sheet's bytes from a file, or from standard input where `path` is null. Returns how many they are, or -1 after telling the
 * error. */
int take_sheet(const char *program, const char *path, uint8_t sheet[MOST_READ]);

void print_refusal(uint64_t answer);

/* A line for each station of the sheet: the number of its curve, the name of the point, metres; the end has curve 0. Or the refusal.
 * Returns whether it is refused. */
int print_stations(const uint8_t *sheet, size_t size);

#endif
