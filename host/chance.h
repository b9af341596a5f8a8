/* Chance for the comparisons: the same for the same seed, on every machine. */
#ifndef CHANCE_H
#define CHANCE_H

#include <stdint.h>

static uint64_t state;

static uint64_t draw(void) {
    uint64_t z = state += 0x9e3779b97f4a7c15u;
    z = (z ^ z >> 30) * 0xbf58476d1ce4e5b9u;
    z = (z ^ z >> 27) * 0x94d049bb133111ebu;
    return z ^ z >> 31;
}

static int below(int n) { return (int)(draw() % (uint64_t)n); }
static int from_to(int a, int z) { return a + below(z - a + 1); }
static int chance(int percent) { return below(100) < percent; }

#endif
