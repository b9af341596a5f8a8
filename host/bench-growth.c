#define _POSIX_C_SOURCE 199309L /* clock_gettime */
/* How the library's time grows: with the points of the frame, and with the side of a full square. A line for each measurement: what grows, depth, side, points, microseconds of the best
 * run, nanoseconds for each point. tools/plot draws it. */
#include "inputs.h"
#include "qiksavlut.h"

#include <stdio.h>

static uint8_t target[MOST];

static int erode(void) {
    return (depth == 1 ? qik_erode1 : qik_erode8)((uint64_t)W, (uint64_t)H, source, source_len, element, element_len, target, MOST) == QIK_DONE;
}

static int measure(const char *grows, int side) {
    batch = W * H < 10000 ? 50 : 1;
    make_source();
    start_element(side, side, side / 2, side / 2);
    for (int r = 0; r < side; r++)
        for (int c = 0; c < side; c++) set(c, r);
    double t = best(erode);
    printf("%-7s %5d %5d %7d %10.2f %9.4f\n", grows, depth, side, W * H, t * 1e6, t * 1e9 / (W * H));
    fflush(stdout);
    return t >= 0;
}

int main(void) {
    int good = 1;
    printf("%-7s %5s %5s %7s %10s %9s\n", "grows", "depth", "side", "points", "us", "ns/point");
    for (depth = 1; depth <= 8; depth += 7) {
        for (int side = 3; side <= 31; side += 28)
            for (int part = 1; part <= 16; part++) {
                W = 64 * part, H = 16 * part;
                good &= measure("points", side);
            }
        W = 1024, H = 256;
        for (int side = 3; side <= 61; side += 2) good &= measure("side", side);
    }
    return !good;
}
