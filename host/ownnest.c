#include "ownnest.h"

#include <string.h>

enum { MOST = 16384, REGIONS = 255, WIDE = 1026, PADDED = MOST + 4 * WIDE };

static uint8_t echo[PADDED];
static int region[PADDED], waiting[PADDED];
static struct {
    int inside; /* the region that it lies in */
    uint32_t points;
} found[MOST + 2];

/* the points of region r from the point at `from` on; of background no step goes aslant */
static void flood(int r, int from, int wide, int high) {
    int left = 0;
    waiting[left++] = from, region[from] = r;
    while (left) {
        int at = waiting[--left], x = at % wide, y = at / wide;
        if (x > 0 && x < wide - 1 && y > 0 && y < high - 1) found[r].points++;
        for (int dy = -1; dy <= 1; dy++)
            for (int dx = -1; dx <= 1; dx++) {
                int p = x + dx, q = y + dy, to = q * wide + p;
                if ((!echo[from] && dx && dy) || p < 0 || q < 0 || p >= wide || q >= high) continue;
                if (region[to] < 0 && echo[to] == echo[from]) region[to] = r, waiting[left++] = to;
            }
    }
}

static size_t list_from(int r, uint32_t depth, int regions, uint32_t *list, size_t at) {
    list[at++] = depth, list[at++] = found[r].points;
    for (int c = r + 1; c < regions; c++)
        if (found[c].inside == r) at = list_from(c, depth + 1, regions, list, at);
    return at;
}

int own_nesting(uint64_t w, uint64_t h, const uint8_t *source, size_t source_len, uint32_t *list, size_t list_len, uint32_t *count) {
    *count = 0;
    if (w < 1 || w > 1024 || h < 1 || h > 256) return 1;
    size_t row = (size_t)(w + 7) / 8;
    if (source_len != (size_t)h * row) return 2;
    if (w * h > MOST) return 16;
    int wide = (int)w + 2, high = (int)h + 2, regions = 0;
    memset(echo, 0, (size_t)(wide * high));
    for (int y = 0; y < (int)h; y++)
        for (int x = 0; x < (int)w; x++) echo[(y + 1) * wide + x + 1] = source[(size_t)y * row + (size_t)x / 8] >> (7 - x % 8) & 1;
    for (int i = 0; i < wide * high; i++) region[i] = -1;
    for (int i = 0; i < wide * high; i++) {
        if (region[i] >= 0) continue;
        found[regions].inside = i ? region[i - 1] : -1, found[regions].points = 0;
        flood(regions++, i, wide, high);
    }
    if (regions > REGIONS) return 16;
    if (list_len < 2 * (size_t)regions) return 8;
    list_from(0, 0, regions, list, 0);
    *count = (uint32_t)regions;
    return 0;
}
