/* Request (xiii) in plain C, made to be read beside document 02 and not to be fast: a point survives side k where some square of that side that holds it, its upper left cell in
 * the frame, has no unset point of the frame. */
#include "sizes.h"

#include <string.h>

static int set_at(const uint8_t *source, int w, int x, int y) { return source[y * ((w + 7) / 8) + x / 8] >> (7 - x % 8) & 1; }

/* the square of side k whose first cell is (a, b): what lies beyond the frame counts as full */
static int is_whole(const uint8_t *source, int w, int h, int a, int b, int k) {
    for (int y = b; y < b + k && y < h; y++)
        for (int x = a; x < a + k && x < w; x++)
            if (!set_at(source, w, x, y)) return 0;
    return 1;
}

static int survives(const uint8_t *source, int w, int h, int x, int y, int k) {
    for (int b = y; b > y - k && b >= 0; b--)
        for (int a = x; a > x - k && a >= 0; a--)
            if (is_whole(source, w, h, a, b, k)) return 1;
    return 0;
}

uint32_t own_spectrum(uint64_t w, uint64_t h, const uint8_t *source, size_t source_len, uint32_t *counts, size_t counts_len, uint8_t *scratch, size_t scratch_len) {
    if (w < 1 || w > 1024 || h < 1 || h > 256) return 1;
    size_t bytes = (size_t)(h * ((w + 7) / 8));
    if (source_len != bytes) return 2;
    if (counts_len < OWN_SIDES || scratch_len < 2 * bytes) return 8;
    memset(counts, 0, OWN_SIDES * sizeof *counts);
    memset(scratch, 0, 2 * bytes);
    for (int y = 0; y < (int)h; y++)
        for (int x = 0; x < (int)w; x++) {
            int k = 0;
            if (!set_at(source, (int)w, x, y)) continue;
            /* each side on its own: that a larger square keeps no more is not taken for granted */
            for (k = 1; k <= OWN_SIDES; k++)
                if (survives(source, (int)w, (int)h, x, y, k) && (k == OWN_SIDES || !survives(source, (int)w, (int)h, x, y, k + 1))) counts[k - 1]++;
        }
    return 0;
}
