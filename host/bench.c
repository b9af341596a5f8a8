#define _POSIX_C_SOURCE 199309L /* clock_gettime */
/* The benchmark: the library beside plain C and, where they were found, OpenCV at 8 bits and Leptonica at one bit, on the same input in one run, in a large frame and a small one. It prints
 * nanoseconds for each point of the frame, the best of several runs, how many times the library's time the best of OpenCV and Leptonica takes, and at its end in how many rows the library is
 * at or ahead of it. */
#include "bench.h"
#include "independent.h"
#include "inputs.h"
#include "plain.h"
#include "qiksavlut.h"

#include <stdio.h>
#include <string.h>

static uint8_t scratch[MOST], target[MOST], wanted[MOST];
static char way;

/* ---- who is measured; each gives 1, and 0 where it refuses or does not know the element */

static int run_library(void) {
    uint64_t w = (uint64_t)W, h = (uint64_t)H;
    if (way == 'e') return (depth == 1 ? qik_erode1 : qik_erode8)(w, h, source, source_len, element, element_len, target, MOST) == QIK_DONE;
    if (way == 'd') return (depth == 1 ? qik_dilate1 : qik_dilate8)(w, h, source, source_len, element, element_len, target, MOST) == QIK_DONE;
    return (way == 'w'   ? depth == 1 ? qik_white_tophat1 : qik_white_tophat8
            : way == 'b' ? depth == 1 ? qik_black_tophat1 : qik_black_tophat8
            : way == 'g' ? depth == 1 ? qik_gradient1 : qik_gradient8
            : way == 'c' ? depth == 1 ? qik_close1 : qik_close8
            : depth == 1 ? qik_open1
                         : qik_open8)(w, h, source, source_len, element, element_len, target, MOST, scratch, MOST) == QIK_DONE;
}

static int run_plain(void) {
    if (way == 'e') return plain_erode(depth, W, H, source, element, target), 1;
    if (way == 'd') return plain_dilate(depth, W, H, source, element, target), 1;
    if (way == 'b' || way == 'c') {
        plain_dilate(depth, W, H, source, element, scratch);
        plain_erode(depth, W, H, scratch, element, target);
        if (way == 'b') plain_less(depth, source_len, target, source, target);
        return 1;
    }
    plain_erode(depth, W, H, source, element, scratch);
    plain_dilate(depth, W, H, way == 'g' ? source : scratch, element, target);
    if (way == 'w') plain_less(depth, source_len, source, target, target);
    if (way == 'g') plain_less(depth, source_len, target, scratch, target);
    return 1;
}

/* Those that may not be there are run at one depth each. */
#ifdef WITH_OPENCV
static int run_opencv(void) { return opencv_run(way), 1; }
#endif
#ifdef WITH_LEPTONICA
static int run_sel(void) { return leptonica_run(way), 1; }
static int run_brick(void) { return leptonica_brick(way); }
static int run_dwa(void) { return leptonica_dwa(way); }
#endif

static const struct {
    const char *name;
    int (*run)(void);
    int depth; /* 0: both */
    void (*prepare)(int, int, const uint8_t *, const uint8_t *);
    void (*result)(uint8_t *);
    int must; /* whether another result than the library's fails the benchmark: dwa makes 61 cells of two rows and is wrong at the frame */
} who[] = {
    {"library", run_library, 0, 0, 0, 1},
    {"plain C", run_plain, 0, 0, 0, 1},
#ifdef WITH_OPENCV
    {"OpenCV", run_opencv, 8, opencv_prepare, opencv_result, 1},
#endif
#ifdef WITH_LEPTONICA
    {"Lept. sel", run_sel, 1, leptonica_prepare, leptonica_result, 1},
    {"brick", run_brick, 1, leptonica_prepare, leptonica_result, 1},
    {"dwa", run_dwa, 1, leptonica_prepare, leptonica_result, 0},
#endif
};

enum { LIBRARY, PLAIN, WHO = sizeof who / sizeof *who };

/* ---- elements */

enum { SHAPES = 8, SQUARE = 2, CROSS = 3, DISC = 6, RANDOM = 7 };

static const char *const shapes[SHAPES] = {"31-row", "61-row", "3 x 3", "cross", "8 x 8", "31 x 31", "disc 15", "random 32"};

/* The origin is in the middle: Leptonica knows its bricks so. */
static int make_element(int shape) {
    static const int sizes[SHAPES][2] = {{31, 1}, {61, 1}, {3, 3}, {3, 3}, {8, 8}, {31, 31}, {31, 31}, {32, 32}};
    int w = sizes[shape][0], h = sizes[shape][1], cells = 0;
    start_element(w, h, w / 2, h / 2);
    for (int r = 0; r < h; r++)
        for (int c = 0; c < w; c++) {
            if (shape == CROSS && c != 1 && r != 1) continue;
            if (shape == DISC && (c - 15) * (c - 15) + (r - 15) * (r - 15) > 15 * 15) continue;
            if (shape == RANDOM && draw() % 2) continue;
            set(c, r);
            cells++;
        }
    return cells;
}

/* ---- the chain check on the heaviest input of those tried: 32 x 32, whose 1,024 offsets all have paths by five full links, and a sum below them that it lacks */

static uint8_t chain[64];
static size_t chain_len;

static void make_chain(void) {
    static const int wide[5] = {4, 8, 8, 8, 8};
    start_element(32, 32, 0, 0);
    memset(element + 4, 255, 32 * 4);
    chain_len = 0;
    for (int i = 0; i < 5; i++) {
        uint8_t *d = chain + chain_len;
        d[0] = (uint8_t)wide[i], d[1] = 8, d[2] = d[3] = 0;
        memset(d + 4, (uint8_t)(255 << (8 - wide[i])), 8);
        chain_len += 12;
    }
}

enum { REFUSED = 7 + 65536 * 32 };

static int check_library(void) { return qik_check_chain(element, element_len, 5, chain, chain_len) == REFUSED; }
static int check_plain(void) { return plain_check_chain(element, 5, chain) == REFUSED; }
static int check_independent(void) {
    struct told a = own_check_chain((struct lent){element, element_len}, 5, (struct lent){chain, chain_len});
    return a.number == 7 && a.dx == 0 && a.dy == 32;
}

/* ---- rows of the table */

static int rows, ahead, bad;

/* one operation by one element, everyone who knows it: 1 where nobody of the others is faster */
static void measure(const char *name, int shape) {
    int cells = make_element(shape), peer = -1;
    double own = 0, least = 0;
    printf("%4d x %-3d %-5d %-6s %-10s %5d", W, H, depth, name, shapes[shape], cells);
    for (int i = 0; i < WHO; i++) {
        if (who[i].depth && who[i].depth != depth) {
            printf(" %10s", "");
            continue;
        }
        memset(target, 0, sizeof target);
        if (who[i].prepare) who[i].prepare(W, H, source, element);
        double t = best(who[i].run);
        if (t < 0 && i != LIBRARY) {
            printf(" %9s ", "-");
            continue;
        }
        if (who[i].result) who[i].result(target);
        if (i == LIBRARY) own = t, memcpy(wanted, target, sizeof target);
        int same = t >= 0 && memcmp(wanted, target, source_len) == 0;
        bad += !same && who[i].must;
        printf(" %9.3f%c", t * 1e9 / (W * H), same ? ' ' : '!');
        fflush(stdout);
        if (i > PLAIN && same && (peer < 0 || t < least)) peer = i, least = t;
    }
    if (peer >= 0) {
        rows++, ahead += own <= least;
        printf(" %7.2f %s", least / own, who[peer].name);
    }
    putchar('\n');
}

static void measure_frame(int w, int h) {
    static const char ways[] = "edocwbg", *const names[] = {"erode", "dilate", "open", "close", "white", "black", "grad"};
    W = w, H = h;
    batch = W * H < 10000 ? 50 : 1;
    for (depth = 1; depth <= 8; depth += 7)
        for (int op = 0; ways[op]; op++)
            for (int shape = 0; shape < SHAPES; shape++) {
                way = ways[op];
                if (op > 3 && shape != SQUARE) continue; /* the differences by 3 x 3 alone: they cost the same by any element */
                make_source();
                measure(names[op], shape);
            }
}

int main(void) {
    printf("Frames with a level, splashes and noise. Nanoseconds for each point of the frame, processor time, the best run in 0.1 s. The library judges its input in that time, the\n");
    printf("others trust it. OpenCV (8 bits, one thread) and Leptonica (one bit, by its sel, by its bricks and by its compiled bricks, dwa) are there where they are installed; their\n");
    printf("own kind of picture is made beforehand. Last: the best of them over the library, above 1 where the library is faster. !: not the library's result. -: not known to it.\n\n");
    printf("%-10s %-5s %-6s %-10s %5s", "frame", "depth", "", "element", "cells");
    for (int i = 0; i < WHO; i++) printf(" %9s ", who[i].name);
    printf(" %7s\n", "times");
    measure_frame(1024, 256);
    int large = rows, large_ahead = ahead;
    measure_frame(64, 16);
    if (rows) printf("\nThe library is at or ahead of the best of the others in %d of %d rows at 1024 x 256, and in %d of %d at 64 x 16.\n", large_ahead, large, ahead - large_ahead, rows - large);
    batch = 1;
    make_chain();
    double own = best(check_library), plain = best(check_plain), independent = best(check_independent);
    printf("\nChain check on the heaviest input of those tried, 32 x 32 by five links 4, 8, 8, 8 and 8 wide and 8 high, refused at (0, 32):\n");
    printf("library %.0f us, plain C %.0f us (%.2f), independent %.0f us (%.2f)\n", own * 1e6, plain * 1e6, plain / own, independent * 1e6, independent / own);
    if (own < 0 || plain < 0 || independent < 0) bad++;
    if (bad) printf("NOT THE SAME RESULT in %d places\n", bad);
    return bad != 0;
}
