#define _POSIX_C_SOURCE 199309L /* clock_gettime */
/* The benchmark of the nesting of regions: the library beside the independent flood fill, on pictures of 16,384 points. It prints milliseconds of the best of several
 * runs, and exits with 1 where the library takes 50 or more, or gives another answer. */
#include "ownnest.h"
#include "qiksavlut.h"
#include "timed.h"

#include <stdio.h>
#include <string.h>

enum { N = 128, ROW = N / 8, BYTES = ROW * N };

static uint8_t source[BYTES];
static uint32_t list[510], own[510], regions;
static uint64_t said;
static int number;

static int run_library(void) { return said = qik_nesting(N, N, source, BYTES, list, 510), 1; }

static int run_independent(void) { return number = own_nesting(N, N, source, BYTES, own, 510, &regions), 1; }

static void set(int x, int y) { source[y * ROW + x / 8] |= (uint8_t)(128 >> x % 8); }

/* a way that turns inward: each of its arms is two points from the one before */
static void spiral(void) {
    int left = 0, top = 0, right = N - 1, bottom = N - 1, x = 0, y = 0;
    set(0, 0);
    while (left < right && top < bottom) {
        while (x < right) set(++x, y);
        while (y < bottom) set(x, ++y);
        while (x > left) set(--x, y);
        top += 2;
        while (y > top) set(x, --y);
        left += 2, right -= 2, bottom -= 2;
        if (left < right && top <= bottom) set(++x, y);
    }
}

static void rings(void) {
    for (int y = 0; y < N; y++)
        for (int x = 0; x < N; x++) {
            int d = x < y ? x : y, e = N - 1 - (x > y ? x : y);
            if ((d < e ? d : e) % 2) set(x, y);
        }
}

static void lone(void) {
    for (int i = 0; i < 254; i++) set(i % 60 * 2 + 1, i / 60 * 2 + 1);
}

static void full(void) { memset(source, 255, BYTES); }

static void checkerboard(void) {
    for (int i = 0; i < N * N; i++)
        if ((i % N + i / N) % 2) set(i % N, i / N);
}

static void random_blocks(void) {
    for (int y = 0; y < N; y += 4)
        for (int x = 0; x < N; x += 4)
            if (draw() % 3 == 0)
                for (int i = 0; i < 16; i++) set(x + i % 4, y + i / 4);
}

int main(void) {
    static const struct {
        const char *name;
        void (*make)(void);
    } pictures[] = {{"spiral", spiral}, {"rings", rings}, {"lone points", lone}, {"full", full}, {"checkerboard", checkerboard}, {"random blocks", random_blocks}};
    int bad = 0;
    printf("The nesting of regions of %d x %d points. Milliseconds, processor time, the best run in 0.1 s; in brackets, times the library's time.\n\n", N, N);
    printf("%-14s%8s%8s%11s%20s\n", "picture", "answer", "regions", "library", "flood fill");
    for (int i = 0; i < 6; i++) {
        memset(source, 0, BYTES);
        pictures[i].make();
        double t = best(run_library), u = best(run_independent);
        int same = said == (uint64_t)number + 65536u * (uint64_t)regions && !memcmp(list, own, 8 * regions);
        printf("%-14s%8u%8u%11.3f%11.3f  (%5.2f)%s\n", pictures[i].name, qik_nest_number(said), qik_nest_regions(said), 1e3 * t, 1e3 * u, u / t, same ? "" : "  not the same");
        bad = bad || !same || t >= 0.05;
    }
    return bad;
}
