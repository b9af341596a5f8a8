#define _POSIX_C_SOURCE 199309L /* clock_gettime */
/* The benchmark of reconstruction: the library beside the independent flood fill, and beside Leptonica's pixSeedfillBinary where it was found, on masks that wind through
 * the largest frame and on random ones. It prints milliseconds of the best of several runs, and exits with 1 where the library takes a second or more, or gives another
 * result than the flood fill. Leptonica gives up after a fixed number of sweeps: !, with the points that it lacks, says where what it gives is not the result. */
#include "bench.h"
#include "independent.h"
#include "qiksavlut.h"
#include "timed.h"

#include <stdio.h>
#include <string.h>

enum { W = 1024, H = 256, ROW = W / 8, BYTES = ROW * H };

static uint8_t marker[BYTES], mask[BYTES], target[BYTES], wanted[BYTES];
static int aslant;

/* ---- who is measured; each gives 1, and 0 where it refuses */

static int run_library(void) {
    return (aslant ? qik_reconstruct_square : qik_reconstruct_cross)(W, H, marker, BYTES, mask, BYTES, target, BYTES) == QIK_DONE;
}

static int run_independent(void) {
    return own_reconstruct(aslant, W, H, (struct lent){marker, BYTES}, (struct lent){mask, BYTES}, (struct lent){wanted, BYTES}) == 0;
}

#ifdef WITH_LEPTONICA
static int run_leptonica(void) { return leptonica_grow(aslant), 1; }
#endif

/* ---- masks */

static void set(uint8_t *a, int x, int y) { a[y * ROW + x / 8] |= (uint8_t)(128 >> x % 8); }

static int has(const uint8_t *a, int x, int y) { return a[y * ROW + x / 8] >> (7 - x % 8) & 1; }

/* a way that turns inward: each of its arms is two points from the one before */
static void spiral(void) {
    int left = 0, top = 0, right = W - 1, bottom = H - 1, x = 0, y = 0;
    set(mask, 0, 0);
    while (left < right && top < bottom) {
        while (x < right) set(mask, ++x, y);
        while (y < bottom) set(mask, x, ++y);
        while (x > left) set(mask, --x, y);
        top += 2;
        while (y > top) set(mask, x, --y);
        left += 2, right -= 2, bottom -= 2;
        if (left < right && top <= bottom) set(mask, ++x, y);
    }
}

/* every other row, joined at the right and at the left by turns */
static void serpentine(void) {
    for (int y = 0; y < H; y++)
        for (int x = 0; x < W; x++)
            if (y % 2 == 0 || x == (y % 4 == 1 ? W - 1 : 0)) set(mask, x, y);
}

/* square waves three bins high, one below the other, joined at the right and at the left by turns */
static void square_wave(void) {
    for (int y = 0; y < H; y++)
        for (int x = 0; x < W; x++) {
            int in_wave = y % 4 < 3 && (x % 2 == 0 || (x % 4 == 1 ? y % 4 == 0 : y % 4 == 2));
            int joins = y % 8 == 3 ? x == W - 1 : y % 8 == 7 && x == 0;
            int begins = y % 8 > 3 && y % 8 < 7 && x == W - 1;
            if (in_wave || joins || begins) set(mask, x, y);
        }
}

/* stairs upward to the right, side by side, joined at their upper and at their lower ends by turns */
static void staircase(void) {
    for (int y = 0; y < H; y++)
        for (int x = 0; x < W; x++) {
            int stair = (x + y) / 4, step = (x + y) % 4;
            int upper = y == 0 || x == W - 1, lower = x == 0 || y == H - 1;
            if (step < 2 || (stair % 2 ? lower : upper)) set(mask, x, y);
        }
}

/* so many of a hundred points */
static void random_mask(int percent) {
    for (int y = 0; y < H; y++)
        for (int x = 0; x < W; x++)
            if (draw() % 100 < (uint32_t)percent) set(mask, x, y);
}

static const struct {
    const char *name;
    void (*winds)(void);
    int percent;
} masks[] = {
    {"spiral", spiral, 0},     {"serpentine", serpentine, 0}, {"square wave", square_wave, 0}, {"staircase", staircase, 0},
    {"random 50%", 0, 50},     {"random 55%", 0, 55},         {"random 60%", 0, 60},           {"random 65%", 0, 65},
};

/* the marker: of a way its first point; of a random mask one in five hundred of its points */
static void make(int which) {
    memset(mask, 0, sizeof mask), memset(marker, 0, sizeof marker);
    if (masks[which].winds) {
        masks[which].winds();
        set(marker, 0, 0);
        return;
    }
    random_mask(masks[which].percent);
    for (int y = 0; y < H; y++)
        for (int x = 0; x < W; x++)
            if (has(mask, x, y) && draw() % 500 == 0) set(marker, x, y);
}

static long points(const uint8_t *a) {
    long n = 0;
    for (int y = 0; y < H; y++)
        for (int x = 0; x < W; x++) n += has(a, x, y);
    return n;
}

int main(void) {
    int bad = 0;
    printf("Markers grown inside masks of %d x %d points. Milliseconds, processor time, the best run in 0.1 s; in brackets, times the library's time. The library and the\n", W, H);
    printf("independent flood fill judge their input in that time, Leptonica trusts it. !: Leptonica gave up before the end, and so many points are missing.\n\n");
    printf("%-7s %-12s %7s %7s %10s %19s", "by the", "mask", "points", "grown", "library", "flood fill");
#ifdef WITH_LEPTONICA
    printf(" %19s", "Leptonica");
#endif
    putchar('\n');
    for (aslant = 0; aslant < 2; aslant++)
        for (int which = 0; which < (int)(sizeof masks / sizeof *masks); which++) {
            seed = 7;
            make(which);
            double own = best(run_library), flood = best(run_independent);
            int same = own >= 0 && flood >= 0 && memcmp(target, wanted, BYTES) == 0;
            bad += !same || own >= 1;
            printf("%-7s %-12s %7ld %7ld %10.3f %10.3f  (%5.2f)", aslant ? "square" : "cross", masks[which].name, points(mask), points(wanted), own * 1e3, flood * 1e3, flood / own);
#ifdef WITH_LEPTONICA
            leptonica_grow_prepare(W, H, marker, mask);
            double theirs = best(run_leptonica);
            leptonica_grow_result(target);
            long lacks = points(wanted) - points(target);
            printf(" %10.3f  (%5.2f)", theirs * 1e3, theirs / own);
            if (memcmp(target, wanted, BYTES) != 0) printf(" ! %ld", lacks);
#endif
            printf("%s\n", !same ? " NOT THE SAME RESULT" : own >= 1 ? " A SECOND OR MORE" : "");
            fflush(stdout);
        }
    return bad != 0;
}
