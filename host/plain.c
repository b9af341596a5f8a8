#include "plain.h"

#include <stdlib.h>
#include <string.h>

enum { WORDS = 16, MOST_ROWS = 256 };

static int cell(const uint8_t *e, int c, int r) { return e[4 + r * ((e[0] + 7) / 8) + c / 8] >> (7 - c % 8) & 1; }

static int greater(int a, int b) { return a > b ? a : b; }
static int lesser(int a, int b) { return a < b ? a : b; }

/* 8-bit: for each row of the result, each cell folds in one row of the source */
static void sweep8(int erode, int w, int h, const uint8_t *source, const uint8_t *e, uint8_t *target) {
    for (int y = 0; y < h; y++) {
        uint8_t *t = target + (size_t)y * (size_t)w;
        memset(t, erode ? 255 : 0, (size_t)w);
        for (int r = 0; r < e[1]; r++) {
            int v = erode ? y + r - e[3] : y - r + e[3];
            if (v < 0 || v >= h) continue;
            for (int c = 0; c < e[0]; c++) {
                if (!cell(e, c, r)) continue;
                int by = erode ? c - e[2] : e[2] - c, from = greater(0, -by), to = lesser(w, w - by);
                const uint8_t *s = source + (ptrdiff_t)v * w + by;
                if (erode)
                    for (int x = from; x < to; x++) t[x] = s[x] < t[x] ? s[x] : t[x];
                else
                    for (int x = from; x < to; x++) t[x] = s[x] > t[x] ? s[x] : t[x];
            }
        }
    }
}

/* one-bit: rows as words of 64 pings, with one word of what counts beyond the frame on either side */
static void sweep1(int erode, int w, int h, const uint8_t *source, const uint8_t *e, uint8_t *target) {
    static uint64_t rows[MOST_ROWS][WORDS + 2];
    uint64_t beyond = erode ? ~(uint64_t)0 : 0;
    int bytes = (w + 7) / 8, words = (w + 63) / 64;
    for (int y = 0; y < h; y++) {
        uint8_t row[WORDS * 8 + 8];
        memset(row, erode ? 255 : 0, sizeof row);
        memcpy(row, source + (size_t)y * (size_t)bytes, (size_t)bytes);
        if (erode && w % 8) row[bytes - 1] |= (uint8_t)(255 >> w % 8);
        rows[y][0] = rows[y][words + 1] = beyond;
        for (int i = 0; i < words; i++) {
            uint64_t v = 0;
            for (int k = 0; k < 8; k++) v = v << 8 | row[i * 8 + k];
            rows[y][i + 1] = v;
        }
    }
    for (int y = 0; y < h; y++) {
        uint64_t acc[WORDS];
        for (int i = 0; i < words; i++) acc[i] = beyond;
        for (int r = 0; r < e[1]; r++) {
            int v = erode ? y + r - e[3] : y - r + e[3];
            if (v < 0 || v >= h) continue;
            const uint64_t *s = rows[v] + 1;
            for (int c = 0; c < e[0]; c++) {
                if (!cell(e, c, r)) continue;
                int by = erode ? c - e[2] : e[2] - c;
                for (int i = 0; i < words; i++) {
                    uint64_t moved = by == 0 ? s[i] : by > 0 ? s[i] << by | s[i + 1] >> (64 - by) : s[i] >> -by | s[i - 1] << (64 + by);
                    acc[i] = erode ? acc[i] & moved : acc[i] | moved;
                }
            }
        }
        uint8_t *t = target + (size_t)y * (size_t)bytes;
        for (int b = 0; b < bytes; b++) t[b] = (uint8_t)(acc[b / 8] >> (56 - b % 8 * 8));
        if (w % 8) t[bytes - 1] &= (uint8_t)(255 << (8 - w % 8));
    }
}

void plain_erode(int depth, int w, int h, const uint8_t *source, const uint8_t *element, uint8_t *target) {
    (depth == 1 ? sweep1 : sweep8)(1, w, h, source, element, target);
}

void plain_dilate(int depth, int w, int h, const uint8_t *source, const uint8_t *element, uint8_t *target) {
    (depth == 1 ? sweep1 : sweep8)(0, w, h, source, element, target);
}

void plain_less(int depth, size_t n, const uint8_t *from, const uint8_t *away, uint8_t *target) {
    if (depth == 1)
        for (size_t i = 0; i < n; i++) target[i] = (uint8_t)(from[i] & ~away[i]);
    else
        for (size_t i = 0; i < n; i++) target[i] = (uint8_t)(from[i] > away[i] ? from[i] - away[i] : 0);
}

/* ---- chains: the sums of columns and rows as a board of words, bit x of word y */

enum { SUMS = 36 };

struct span {
    int from, to;
};

/* the board of what the links reach, with each partial sum kept between 0 and the offset where one is given */
static void reach(const uint8_t *const *link, int links, const int *offset, uint64_t board[SUMS]) {
    int ox = 0, oy = 0;
    memset(board, 0, SUMS * sizeof *board);
    board[0] = 1;
    for (int i = 0; i < links; i++) {
        const uint8_t *e = link[i];
        uint64_t next[SUMS] = {0};
        ox += e[2], oy += e[3];
        for (int r = 0; r < e[1]; r++)
            for (int c = 0; c < e[0]; c++)
                if (cell(e, c, r))
                    for (int y = 0; y + r < SUMS; y++) next[y + r] |= board[y] << c;
        if (offset) {
            struct span x = {greater(0, ox + lesser(0, offset[0])), ox + greater(0, offset[0])}, y = {oy + lesser(0, offset[1]), oy + greater(0, offset[1])};
            uint64_t columns = x.to < 0 || x.from > 63 ? 0 : (~(uint64_t)0 >> (63 - lesser(63, x.to))) & ~(uint64_t)0 << x.from;
            for (int k = 0; k < SUMS; k++) next[k] = k >= y.from && k <= y.to ? next[k] & columns : 0;
        }
        memcpy(board, next, sizeof next);
    }
}

uint32_t plain_check_chain(const uint8_t *element, int links, const uint8_t *chain) {
    const uint8_t *link[5];
    uint64_t sums[SUMS], paths[SUMS];
    int ox = 0, oy = 0;
    for (int i = 0; i < links; i++) {
        link[i] = chain;
        ox += chain[2], oy += chain[3];
        chain += 4 + chain[1];
    }
    reach(link, links, 0, sums);
    for (int dy = -63; dy <= 63; dy++)
        for (int dx = -63; dx <= 63; dx++) {
            int c = dx + element[2], r = dy + element[3], x = dx + ox, y = dy + oy, offset[2] = {dx, dy};
            int set = c >= 0 && c < element[0] && r >= 0 && r < element[1] && cell(element, c, r);
            int sum = x >= 0 && x < SUMS && y >= 0 && y < SUMS && (sums[y] >> x & 1);
            int fault = set != sum;
            if (set && sum) {
                reach(link, links, offset, paths);
                fault = !(paths[y] >> x & 1);
            }
            if (fault) return 7u + 256u * (uint32_t)((dx + 256) % 256) + 65536u * (uint32_t)((dy + 256) % 256);
        }
    return 0;
}
