/* Opening, then reconstruction: the opening takes short echoes away, and what is thin of the others; the marker that it leaves, grown inside the picture, gives back the full outline
 * of each echo that survived. It exits with 1 if an answer is not the one that it expects. */
#include "qiksavlut.h"

#include <stdio.h>
#include <string.h>

enum { W = 48, H = 9, ROW = (W + 7) / 8 };

/* An echo with a thin beginning and a ragged edge, a splash before it and one after it; one point of the edge is joined to the rest aslant alone. */
static const char *const drawn[H] = {
    "................................................",
    "..##...............########.....................",
    "..##............###############.................",
    ".............#####################......##......",
    "....#############################......####.....",
    "...........####################.#.......##......",
    ".............###############....................",
    "............................#...................",
    "................................................",
};

/* 5 pings by 3 bins, the origin in the middle */
static const uint8_t block[] = {5, 3, 2, 1, 0xf8, 0xf8, 0xf8};

static void print_picture(const char *name, const uint8_t *picture) {
    printf("%s\n", name);
    for (int y = 0; y < H; y++) {
        for (int x = 0; x < W; x++) putchar(picture[y * ROW + x / 8] >> (7 - x % 8) & 1 ? '#' : '.');
        putchar('\n');
    }
}

int main(void) {
    uint8_t picture[ROW * H] = {0}, marker[ROW * H], scratch[ROW * H], target[ROW * H];
    int good = 1;

    for (int y = 0; y < H; y++)
        for (int x = 0; x < W; x++)
            if (drawn[y][x] == '#') picture[y * ROW + x / 8] |= (uint8_t)(0x80 >> x % 8);
    print_picture("an echo and two splashes", picture);

    /* The opening is the marker: it lies within its own picture, so that MARKER is never answered here. */
    good &= qik_open1(W, H, picture, sizeof picture, block, sizeof block, marker, sizeof marker, scratch, sizeof scratch) == QIK_DONE;
    print_picture("opened", marker);

    /* The picture is the mask. Nothing but the target is needed. */
    good &= qik_reconstruct_cross(W, H, marker, sizeof marker, picture, sizeof picture, target, sizeof target) == QIK_DONE;
    print_picture("grown back by the cross", target);
    good &= qik_reconstruct_square(W, H, marker, sizeof marker, picture, sizeof picture, scratch, sizeof scratch) == QIK_DONE;
    print_picture("by the square", scratch);

    /* The other way round the marker is not inside the mask: refused, and no byte of the target changes. */
    good &= qik_reconstruct_cross(W, H, picture, sizeof picture, marker, sizeof marker, scratch, sizeof scratch) == QIK_MARKER;
    for (int i = 0; i < ROW * H; i++) good &= (marker[i] & ~target[i]) == 0 && (target[i] & ~scratch[i]) == 0 && (scratch[i] & ~picture[i]) == 0;
    return !good;
}
