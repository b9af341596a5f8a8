/* A first program: opens a small picture, sees what the opening took away, meets a refusal, checks chains. It exits with 1 if an answer is not the one that it expects. */
#include "qiksavlut.h"

#include <stdio.h>
#include <string.h>

enum { W = 48, H = 6, ROW = (W + 7) / 8 };

/* A morning in 48 pings, the oldest at the left: a level that stays, a splash of 9 pings above it, and an echo that has just begun. */
static const char *const drawn[H] = {
    "................................................",
    "....#########...................................",
    "...........................................#####",
    "################################################",
    "################################................",
    "................................................",
};

/* echtext's trailing default: 31 cells, dx from -30 to 0, in one row. Its origin is the last cell, column 30; the rows are packed like a picture's. */
static const uint8_t trailing[] = {31, 1, 30, 0, 0xff, 0xff, 0xff, 0xfe};

static void print_picture(const char *name, const uint8_t *picture) {
    printf("%s\n", name);
    for (int y = 0; y < H; y++) {
        for (int x = 0; x < W; x++) putchar(picture[y * ROW + x / 8] >> (7 - x % 8) & 1 ? '#' : '.');
        putchar('\n');
    }
}

static int checked_as(const char *name, uint32_t answer, uint32_t number, int dx, int dy) {
    printf("%s: %u", name, (unsigned)qik_number(answer));
    if (qik_number(answer) == QIK_SPLIT) printf(" at (%d, %d)", qik_dx(answer), qik_dy(answer));
    putchar('\n');
    return qik_number(answer) == number && qik_dx(answer) == dx && qik_dy(answer) == dy;
}

int main(void) {
    uint8_t source[ROW * H] = {0}, target[ROW * H], scratch[ROW * H];
    int good = 1;

    for (int y = 0; y < H; y++)
        for (int x = 0; x < W; x++)
            if (drawn[y][x] == '#') source[y * ROW + x / 8] |= (uint8_t)(0x80 >> x % 8);
    print_picture("before", source);

    /* The opening keeps what lasts 31 pings. What begins at the left edge of the frame is kept too: the pings before it are not known.
     * The scratch buffer is lent for the middle picture. */
    uint32_t answer = qik_open1(W, H, source, sizeof source, trailing, sizeof trailing, target, sizeof target, scratch, sizeof scratch);
    good &= answer == QIK_DONE;
    print_picture("opened", target);
    for (int y = 0; y < H; y++) good &= (target[y * ROW] != 0) == (y == 3 || y == 4);

    /* What the opening took away, alone: the splash, and the echo that has just begun. The scratch has the eroded picture again. */
    answer = qik_white_tophat1(W, H, source, sizeof source, trailing, sizeof trailing, target, sizeof target, scratch, sizeof scratch);
    good &= answer == QIK_DONE;
    print_picture("white top-hat", target);
    for (int i = 0; i < ROW * H; i++) good &= target[i] == (i / ROW == 1 || i / ROW == 2 ? source[i] : 0);

    /* A source that is one byte short is refused, by number, and no byte of target changes. */
    uint8_t kept[sizeof target];
    memcpy(kept, target, sizeof target);
    answer = qik_erode1(W, H, source, sizeof source - 1, trailing, sizeof trailing, target, sizeof target);
    printf("a source that is one byte short: refused as %u\n", (unsigned)answer);
    good &= answer == QIK_SOURCE && memcmp(kept, target, sizeof target) == 0;

    /* A chain of small elements that stands for a large one. Links are descriptors, one after another. */
    static const uint8_t three[] = {3, 1, 1, 0, 0xe0};                                       /* dx -1, 0, 1 */
    static const uint8_t by_two[] = {2, 1, 1, 0, 0xc0, 2, 1, 0, 0, 0xc0};                    /* dx -1, 0; then dx 0, 1 */
    static const uint8_t one[] = {1, 1, 0, 0, 0x80};                                         /* dx 0 */
    static const uint8_t there_and_back[] = {2, 1, 0, 0, 0x40, 2, 1, 1, 0, 0x80};            /* dx 1; then dx -1 */
    static const uint8_t six[] = {6, 1, 2, 0, 0xfc};                                         /* dx -2 to 3 */
    static const uint8_t far_first[] = {3, 1, 2, 0, 0x80, 6, 1, 0, 0, 0xfc};                 /* dx -2; then dx 0 to 5 */
    static const uint8_t row_of_three[] = {3, 1, 0, 0, 0xe0};                                /* dx 0, 1, 2 */
    static const uint8_t sums_to_three[] = {2, 1, 0, 0, 0xc0, 3, 1, 0, 0, 0xa0};             /* dx 0, 1; then dx 0, 2 */
    good &= checked_as("-1 to 1 by (-1, 0), (0, 1)", qik_check_chain(three, sizeof three, 2, by_two, sizeof by_two), QIK_DONE, 0, 0);
    good &= checked_as("0 by 1, -1", qik_check_chain(one, sizeof one, 2, there_and_back, sizeof there_and_back), QIK_SPLIT, 0, 0);
    good &= checked_as("-2 to 3 by -2, (0 to 5)", qik_check_chain(six, sizeof six, 2, far_first, sizeof far_first), QIK_SPLIT, -1, 0);
    good &= checked_as("0 to 2 by (0, 1), (0, 2)", qik_check_chain(row_of_three, sizeof row_of_three, 2, sums_to_three, sizeof sums_to_three), QIK_SPLIT, 3, 0);

    puts(good ? "first: as expected" : "first: NOT as expected");
    return !good;
}
