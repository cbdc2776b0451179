/* The elements of one curve in f64 with the C library's sine, cosine and tangent, unchecked: what the rule costs without whole
 * numbers, checks and proofs. The formulas are those of document 01's "Clerk's sums", with the terms of document 02's N7. */
#include <math.h>
#include <stdint.h>

static const double PI = 3.141592653589793;

/* X, Y, k, p, D, TT in um. The deflection is in seconds of arc, radius and spiral in mm. */
void baseline_elements(uint32_t deflection, uint32_t radius, uint32_t spiral, double elements[6]) {
    double angle = deflection * PI / 648000;
    double r = 1000.0 * radius;
    double l = 1000.0 * spiral;
    double s = l / (2 * r);
    double s2 = s * s;

    double s4 = s2 * s2;
    double x = l * (1 - s2 / 10 + s4 / 216 - s4 * s2 / 9360);
    double y = l * (s / 3 - s2 * s / 42 + s4 * s / 1320);
    double k = x - r * sin(s);
    double p = y - r * (1 - cos(s));
    elements[0] = x;
    elements[1] = y;
    elements[2] = k;
    elements[3] = p;
    elements[4] = r * angle - l;
    elements[5] = k + (r + p) * tan(angle / 2);
}
