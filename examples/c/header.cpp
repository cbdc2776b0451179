// The header in C++: every inline function, and variables called after the enum.
#include "pokyandi.h"

#include <cstdint>

int main() {
    pokyandi_reason pokyandi_reason = POKYANDI_DONE;
    std::uint32_t pokyandi_line[POKYANDI_LINE_NUMBERS] = {0, 70, 8, 0, 500000};
    std::uint8_t sheet[POKYANDI_SHEET_BYTES];
    std::uint64_t answer = pokyandi_write(2, pokyandi_line, pokyandi_distance(0) + 1, sheet, sizeof sheet);
    bool done = pokyandi_refusal(answer) == pokyandi_reason && pokyandi_count(answer) == 10;
    bool second = pokyandi_count(pokyandi_edition(sheet, 10)) == 2;
    bool told = pokyandi_place(pokyandi_check(sheet, 9)) == 0 && pokyandi_words(POKYANDI_VERSION)[0] == 'u';
    bool placed = pokyandi_curve(1) == 5 && pokyandi_vertex(1) == 4;
    return done && second && told && placed && pokyandi_version() == POKYANDI_VERSION ? 0 : 1;
}
