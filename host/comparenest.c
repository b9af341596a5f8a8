/* comparenest SEED ROUNDS: the nesting of the library beside the independent one: on every picture of 4 x 4, on those that the request names, and on ROUNDS random ones. The answer,
 * every number of the list and those around it must be the same, and the counts of a done call must sum to w * h. Ones stand in the padding of half the sources. The same
 * seed makes the same calls. It exits with 1 if anything differs, or if a number that the function can give was not met. */
#include "chance.h"
#include "ownnest.h"
#include "qiksavlut.h"

#include <stdio.h>
#include <stdlib.h>
#include <string.h>

enum { AROUND = 4, MOST = 520, BYTES = 40000 };
static uint8_t source[BYTES];
static uint32_t memory[2][MOST + 2 * AROUND];
static long calls, differing, met[18], deepest;

/* both, on the source and a list of len numbers */
static void compared(const char *what, uint64_t w, uint64_t h, size_t source_len, size_t len) {
    uint32_t salt = (uint32_t)draw();
    for (uint32_t i = 0; i < MOST + 2 * AROUND; i++) memory[0][i] = memory[1][i] = salt ^ i << 16;
    uint32_t regions, *const list = memory[0] + AROUND, *const own = memory[1] + AROUND;
    uint64_t said = qik_nesting(w, h, source, source_len, list, len);
    int number = own_nesting(w, h, source, source_len, own, len, &regions);
    uint64_t sum = 0;
    for (uint32_t i = 0; i < regions; i++) {
        sum += own[2 * i + 1];
        if ((long)own[2 * i] > deepest) deepest = own[2 * i];
    }
    int same = said == (uint64_t)number + 65536u * (uint64_t)regions && qik_nest_number(said) == (uint32_t)number && qik_nest_regions(said) == regions;
    same = same && !memcmp(memory[0], memory[1], sizeof memory[0]) && (number || sum == w * h);
    calls++, met[number]++;
    if (same) return;
    if (++differing <= 5)
        printf("nesting differs: %s, %llu x %llu, %lu bytes, %lu numbers: library %llu, independent %d with %u regions\n", what, (unsigned long long)w, (unsigned long long)h,
               (unsigned long)source_len, (unsigned long)len, (unsigned long long)said, number, regions);
}

static int wide, high;
static size_t row;

static void frame(int w, int h) {
    wide = w, high = h, row = (size_t)(w + 7) / 8;
    memset(source, 0, (size_t)h * row);
}

static void set(int x, int y, int v) {
    if (v) source[(size_t)y * row + (size_t)x / 8] |= (uint8_t)(128 >> x % 8);
}

/* the picture that was set, with a list of so many numbers; ones may stand in its padding */
static void run(const char *what, size_t len) {
    if (wide % 8 && chance(50))
        for (int y = 0; y < high; y++) source[(size_t)y * row + row - 1] |= (uint8_t)(draw() & (255u >> wide % 8));
    compared(what, (uint64_t)wide, (uint64_t)high, (size_t)high * row, len);
}

static int ring(int n, int x, int y) {
    int d = x < y ? x : y, e = n - 1 - (x > y ? x : y);
    return d < e ? d : e;
}

static void named(void) {
    for (int m = 0; m < 65536; m++) {
        frame(4, 4);
        for (int i = 0; i < 16; i++) set(i % 4, i / 4, m >> i & 1);
        run("4 x 4", MOST);
    }
    for (int turned = 0; turned < 2; turned++)
        for (int n = 1; n <= 128; n++) {
            frame(n, n);
            for (int i = 0; i < n * n; i++) set(i % n, i / n, (ring(n, i % n, i / n) + turned) % 2);
            run("rings", MOST);
        }
    for (int k = 250; k <= 258; k++)
        for (int more = -1; more <= 1; more++) {
            frame(128, 64);
            for (int i = 0; i < k; i++) set(i % 60 * 2 + 1, i / 60 * 2 + 1, 1);
            run("lone points", (size_t)(2 * k + 2 + more));
        }
    static const int sizes[][2] = {{1024, 16}, {1024, 17}, {64, 256}, {65, 256}, {128, 128}, {128, 129}, {1024, 256}, {1, 1}, {1, 256}, {1024, 1}};
    for (int i = 0; i < 10; i++)
        for (int full = 0; full < 2; full++)
            for (size_t len = 0; len < 6; len++) {
                frame(sizes[i][0], sizes[i][1]);
                if (full) memset(source, 255, sizeof source);
                run(full ? "full" : "empty", len);
            }
    frame(128, 128);
    for (int i = 0; i < 16384; i++) set(i % 128, i / 128, (i % 128 + i / 128) % 2);
    run("a checkerboard", MOST);
}

/* a size that may be wrong, and a length that may be */
static void damaged(void) {
    static const uint64_t far[] = {0, 1, 8, 9, 256, 257, 1024, 1025, (uint64_t)1 << 32, (uint64_t)1 << 63, UINT64_MAX};
    uint64_t w = far[below(11)], h = far[below(11)];
    size_t need = w <= 1025 && h <= 257 ? (size_t)h * ((size_t)(w + 7) / 8) : 9;
    compared("damaged", w, h, chance(50) ? need : need + (size_t)below(3) - (need ? 1 : 0), (size_t)below(8));
}

static void random_one(void) {
    int w = from_to(1, 40), h = from_to(1, 30), most = chance(80) ? MOST : below(40), blocks = 1;
    if (chance(5)) w = from_to(1, 1024), h = 1 + below(16384 / w < 256 ? 16384 / w : 256), blocks = from_to(1, 12);
    int some = below(101);
    frame(w, h);
    uint64_t salt = draw();
    for (int y = 0; y < h; y++)
        for (int x = 0; x < w; x++) {
            uint64_t z = (salt ^ (uint64_t)(x / blocks) * 0x9e3779b97f4a7c15u ^ (uint64_t)(y / blocks) * 0xc2b2ae3d27d4eb4fu) * 0xbf58476d1ce4e5b9u;
            set(x, y, (int)((z >> 32) % 100) < some);
        }
    run("random", (size_t)most);
}

int main(int argc, char **argv) {
    static const int can[] = {0, 1, 2, 8, 16};
    uint64_t seed = argc > 1 ? strtoull(argv[1], 0, 10) : 1;
    long rounds = argc > 2 ? strtol(argv[2], 0, 10) : 1000;
    state = seed;
    named();
    for (long i = 0; i < rounds; i++) random_one(), damaged();
    int unmet = 0;
    for (int i = 0; i < 5; i++)
        if (!met[can[i]]) unmet++, printf("the number %d was not met\n", can[i]);
    printf("comparenest: seed %llu, %ld calls, %ld differ; answers", (unsigned long long)seed, calls, differing);
    for (int n = 0; n < 18; n++)
        if (met[n]) printf(" %d: %ld", n, met[n]);
    printf("; %ld deep\n", deepest);
    return differing || unmet;
}
