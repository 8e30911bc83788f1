/* Roots and distances by the proved library, each with the bits of its answer. */
#include "watered.h"

#include <inttypes.h>
#include <stdio.h>
#include <string.h>

static void show(const char *what, double value) {
    uint64_t bits;
    memcpy(&bits, &value, sizeof bits);
    printf("%-24s %.17g  %016" PRIX64 "\n", what, value, bits);
}

int main(void) {
    show("root of 2", watered_root(2.0));
    show("root of 1600000000", watered_root(1600000000.0));
    show("root of -1", watered_root(-1.0));
    show("distance of (3, 4) to 0", watered_hypot(3.0, 4.0));
    return 0;
}
