/* What the benchmarks share: the processor's clock, the best of some runs, and the chance that makes their inputs. */
#ifndef TIMED_H
#define TIMED_H

#include <stdint.h>
#include <time.h>

static double now(void) {
    struct timespec t;
    clock_gettime(CLOCK_PROCESS_CPUTIME_ID, &t);
    return (double)t.tv_sec + 1e-9 * (double)t.tv_nsec;
}

/* how many calls are timed together: a call that takes less than the clock's own reading is timed with others */
static int batch = 1;

/* the seconds of the best run among those of a tenth of a second; less than 0 where it is refused */
static double best(int (*run)(void)) {
    double least = -1, all = 0;
    while (all < 0.1) {
        double from = now();
        for (int i = 0; i < batch; i++)
            if (!run()) return -1;
        double t = (now() - from) / batch;
        all += t * batch;
        if (least < 0 || t < least) least = t;
    }
    return least;
}

static uint32_t seed = 7;

static inline uint32_t draw(void) { return (seed = seed * 1664525u + 1013904223u) >> 8; }

#endif
