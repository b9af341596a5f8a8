/* What the benchmarks of flat operations are run on: a frame, its picture and an element. */
#ifndef INPUTS_H
#define INPUTS_H

#include "timed.h"

#include <string.h>

enum { MOST = 1024 * 256 };

static uint8_t source[MOST], element[1024];
static int W, H, depth;
static size_t source_len, element_len;

/* echoes of a level that rises and falls, with splashes and noise */
static void make_source(void) {
    source_len = (size_t)(depth == 1 ? W / 8 * H : W * H);
    memset(source, 0, sizeof source);
    int level = H / 2;
    for (int x = 0; x < W; x++) {
        if (draw() % 8 == 0) level += draw() % 2 ? 1 : -1;
        int top = draw() % 40 == 0 ? level / 2 : level;
        for (int y = 0; y < H; y++) {
            uint8_t v = (uint8_t)(y >= top && y < top + H / 3 ? 160 + draw() % 96 : draw() % 60);
            if (depth == 8) source[y * W + x] = v;
            else if (v > 55) source[y * (W / 8) + x / 8] |= (uint8_t)(128 >> x % 8);
        }
    }
}

static void start_element(int w, int h, int column, int row) {
    memset(element, 0, sizeof element);
    element[0] = (uint8_t)w, element[1] = (uint8_t)h, element[2] = (uint8_t)column, element[3] = (uint8_t)row;
    element_len = 4 + (size_t)h * (size_t)((w + 7) / 8);
}

static void set(int c, int r) { element[4 + r * ((element[0] + 7) / 8) + c / 8] |= (uint8_t)(128 >> c % 8); }

#endif
