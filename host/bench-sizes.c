#define _POSIX_C_SOURCE 199309L
/* The benchmark of the size spectrum: at 1,024 x 256 beside our own one-bit opening by 3 x 3, in the same run, on pictures of squares, of noise, full and empty. It exits with 1 where
 * the spectrum takes 100 times as long as that opening, or more. */
#include "qiksavlut.h"
#include "timed.h"

#include <stdio.h>
#include <string.h>

enum { W = 1024, H = 256, BYTES = W / 8 * H };

static uint8_t source[BYTES], target[BYTES], scratch[2 * BYTES];
static uint32_t counts[32];
static const uint8_t three[] = {3, 3, 1, 1, 0xe0, 0xe0, 0xe0};

static int run_open(void) { return qik_open1(W, H, source, BYTES, three, sizeof three, target, BYTES, scratch, BYTES) == QIK_DONE; }
static int run_spectrum(void) { return qik_size_spectrum(W, H, source, BYTES, counts, 32, scratch, 2 * BYTES) == QIK_DONE; }

static void some_squares(void) {
    memset(source, 0, BYTES);
    for (int n = 0; n < 400; n++) {
        int side = 1 + (int)(draw() % 40), a = (int)(draw() % W), b = (int)(draw() % H);
        for (int y = b; y < b + side && y < H; y++)
            for (int x = a; x < a + side && x < W; x++) source[y * (W / 8) + x / 8] |= (uint8_t)(0x80 >> x % 8);
    }
}

int main(void) {
    static const char *const names[] = {"squares", "noise", "full", "empty"};
    int good = 1;
    printf("The size spectrum of %d x %d points, beside the one-bit opening by 3 x 3. Milliseconds, processor time, the best run in 0.1 s.\n", W, H);
    printf("%-8s %12s %12s %10s\n", "picture", "open 3 x 3", "spectrum", "times");
    for (int i = 0; i < 4; i++) {
        if (i == 0) some_squares();
        if (i == 1)
            for (int k = 0; k < BYTES; k++) source[k] = (uint8_t)(draw() | draw());
        if (i > 1) memset(source, i == 2 ? 255 : 0, BYTES);
        double open = best(run_open), all = best(run_spectrum);
        if (open < 0 || all < 0) return 1;
        printf("%-8s %12.4f %12.4f %10.1f\n", names[i], open * 1e3, all * 1e3, all / open);
        good = good && all < 100 * open;
    }
    return !good;
}
