/* Asks a sphere and a polygon about a point each. */
#include <inttypes.h>
#include <stdio.h>
#include "zirwennach.h"

int main(void) {
    const double square[] = {0, 0, 1, 0, 1, 1, 0, 1};
    printf("sphere %" PRIu64 "\n", csx_sphere(0, 0, 0, 1, 0.5, 0.5, 0.5));
    printf("square %" PRIu64 "\n", csx_polygon(2, 0, square, 8, 1.5, 0.5, 0));
    printf("half a vertex %" PRIu64 "\n", csx_polygon(2, 0, square, 7, 1.5, 0.5, 0));
}
