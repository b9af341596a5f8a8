/* comparesizes [SEED [ROUNDS]]: the library's size spectrum beside the independent one: random pictures and lengths, damaged inputs, and what document 02 (xiii) names. Every byte that
 * was lent is compared, and some past it. Its status is 1 where they differ, or where an answer was never met. */
#include "chance.h"
#include "qiksavlut.h"
#include "sizes.h"

#include <stdio.h>
#include <stdlib.h>
#include <string.h>

enum { MOST = 128 * 256, PLACES = 40, PAST = 3 };

static uint8_t source[MOST + PAST], scratch[2][2 * MOST + 9 + PAST];
static uint32_t counts[2][PLACES + PAST];
static long calls, differ, met[9];

/* both, from the same beginning; whether they are the same in answer and in every place */
static uint32_t both(const char *what, uint64_t w, uint64_t h, size_t source_len, size_t counts_len, size_t scratch_len) {
    uint32_t answer[2];
    for (size_t i = 0; i < sizeof scratch[0]; i++) scratch[0][i] = scratch[1][i] = (uint8_t)draw();
    for (size_t i = 0; i < PLACES + PAST; i++) counts[0][i] = counts[1][i] = (uint32_t)draw();
    answer[0] = qik_size_spectrum(w, h, source, source_len, counts[0], counts_len, scratch[0], scratch_len);
    answer[1] = own_spectrum(w, h, source, source_len, counts[1], counts_len, scratch[1], scratch_len);
    calls++;
    if (answer[1] < 9) met[answer[1]]++;
    if (answer[0] != answer[1] || memcmp(counts[0], counts[1], sizeof counts[0]) || memcmp(scratch[0], scratch[1], sizeof scratch[0])) {
        if (differ++ < 10) printf("comparesizes: %s, %llu x %llu, %zu, %zu and %zu: %u, not %u\n", what, (unsigned long long)w, (unsigned long long)h, source_len, counts_len, scratch_len, answer[0], answer[1]);
    }
    return answer[0];
}

static void must(const char *what, int good) {
    calls++;
    if (!good && differ++ < 10) printf("comparesizes: %s\n", what);
}

/* squares and specks, so that each side is met */
static void some_picture(int w, int h) {
    size_t row = (size_t)(w + 7) / 8;
    int dense = below(3);
    for (size_t i = 0; i < row * (size_t)h; i++) source[i] = (uint8_t)(dense == 2 ? 255 : dense ? draw() & draw() & draw() : 0);
    for (int n = below(8); n >= 0; n--) {
        int side = from_to(1, 36), a = below(w + side) - side, b = below(h + side) - side, on = chance(70);
        for (int y = b; y < b + side; y++)
            for (int x = a; x < a + side; x++)
                if (x >= 0 && y >= 0 && x < w && y < h) {
                    uint8_t m = (uint8_t)(0x80 >> x % 8), *at = &source[(size_t)y * row + (size_t)x / 8];
                    *at = (uint8_t)(on ? *at | m : *at & ~m);
                }
    }
}

static size_t near(size_t n, int most) { return chance(60) ? n : n + (size_t)below(most + 1) - (n >= (size_t)most / 2 ? (size_t)most / 2 : n); }

static void rows_of(const char *const *rows, int w, int h) {
    memset(source, 0, sizeof source);
    for (int y = 0; y < h; y++)
        for (int x = 0; x < w; x++)
            if (rows[y][x] == '1') source[y * ((w + 7) / 8) + x / 8] |= (uint8_t)(0x80 >> x % 8);
}

int main(int argc, char **argv) {
    state = argc > 1 ? (uint64_t)strtoull(argv[1], NULL, 10) : 1;
    long rounds = argc > 2 ? atol(argv[2]) : 200;

    for (long r = 0; r < rounds; r++) {
        int w = chance(20) ? from_to(1, 9) : from_to(1, 44), h = chance(20) ? from_to(1, 5) : from_to(1, 40);
        size_t bytes = (size_t)h * ((size_t)(w + 7) / 8);
        some_picture(w, h);
        for (size_t i = bytes; i < bytes + PAST; i++) source[i] = (uint8_t)draw();
        if (chance(10)) /* damaged: any bytes */
            for (size_t i = 0; i < bytes; i++) source[i] = (uint8_t)draw();
        both("random", chance(3) ? (uint64_t)below(2) * 1025 : (uint64_t)w, chance(3) ? (uint64_t)below(2) * 257 : (uint64_t)h,
             chance(6) ? near(bytes, 4) : bytes, near(32, 8), near(2 * bytes, 8));
    }

    /* what document 02 names */
    rows_of((const char *const[]){"111", "111", "111"}, 3, 3);
    must("a full 3 x 3 frame goes to the last count", both("full", 3, 3, 3, 32, 6) == 0 && counts[0][31] == 9);
    rows_of((const char *const[]){"1100000"}, 7, 1);
    must("1100000 counts at side 2", both("1100000", 7, 1, 1, 32, 2) == 0 && counts[0][1] == 2);
    rows_of((const char *const[]){"0000011"}, 7, 1);
    must("0000011 goes to the last count", both("0000011", 7, 1, 1, 33, 3) == 0 && counts[0][31] == 2);
    memset(source, 0, sizeof source);
    must("an empty picture", both("empty", 40, 33, 165, 32, 330) == 0);
    for (int i = 0; i < 32; i++) must("an empty picture's count", counts[0][i] == 0);
    memset(source, 255, sizeof source);
    must("ones in the padding count for nothing", both("padding", 9, 2, 4, 32, 8) == 0 && counts[0][31] == 18);
    source[0] = source[2] = 0x00, source[1] = source[3] = 0x7f;
    must("ones in the padding alone", both("padding alone", 9, 2, 4, 32, 8) == 0 && counts[0][31] == 0);

    /* refusals in order, each with nothing changed */
    must("SIZE before all", both("W 0", 0, 3, 5, 0, 0) == 1 && both("W 1025", 1025, 1, 0, 0, 0) == 1 && both("H 257", 1, 257, 257, 32, 600) == 1 && both("H 0", 1, 0, 0, 32, 9) == 1);
    must("W of 64 bits", both("W 2^32 + 3", ((uint64_t)1 << 32) + 3, 3, 3, 32, 6) == 1 && both("H 2^63", 3, (uint64_t)1 << 63, 3, 32, 6) == 1);
    must("SOURCE before ROOM", both("a source too short", 9, 2, 3, 31, 7) == 2 && both("a source too long", 9, 2, 5, 0, 0) == 2);
    must("ROOM", both("31 places", 9, 2, 4, 31, 8) == 8 && both("a short scratch", 9, 2, 4, 32, 7) == 8 && both("no places", 9, 2, 4, 0, 8) == 8 && both("no scratch", 9, 2, 4, 32, 0) == 8);

    /* full size: squares of known sides, far enough apart; the library alone, for the counts are known */
    memset(source, 0, sizeof source);
    uint32_t known[32] = {0};
    for (int k = 1; k <= 24; k++)
        for (int y = 0; y < k; y++)
            for (int x = 0; x < k; x++) {
                int p = 20 + (k - 1) % 12 * 60 + x, q = 20 + (k - 1) / 12 * 80 + y;
                source[q * 128 + p / 8] |= (uint8_t)(0x80 >> p % 8);
                known[k - 1]++;
            }
    memset(scratch[0], 0xa5, sizeof scratch[0]);
    must("1,024 x 256", qik_size_spectrum(1024, 256, source, MOST, counts[0], 32, scratch[0], 2 * MOST) == 0 && memcmp(counts[0], known, sizeof known) == 0);
    for (size_t i = 0; i < sizeof scratch[0]; i++)
        if (scratch[0][i] != (i < 2 * MOST ? 0 : 0xa5)) { must("the scratch of 1,024 x 256", 0); break; }

    for (int n = 0; n < 9; n++)
        if ((n < 3 || n == 8) && met[n] == 0) must("an answer was never met", 0);
    printf("comparesizes: %ld calls, %ld differ; answers 0: %ld, 1: %ld, 2: %ld, 8: %ld\n", calls, differ, met[0], met[1], met[2], met[8]);
    return differ != 0;
}
