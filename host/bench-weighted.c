#define _POSIX_C_SOURCE 199309L /* clock_gettime */
/* The benchmark of weighted erosion and dilation: nanoseconds for each point of the frame, the best of several runs, in a large frame and a small one. Each result is compared with the independent
 * implementation's. With a file of lines `W H way size kind nanoseconds`, as host/bench-scipy.py writes them, SciPy's time stands beside: its time only, since its rule at the ends is another. */
#include "independent.h"
#include "inputs.h"
#include "qiksavlut.h"

#include <stdio.h>

static uint8_t target[MOST], wanted[MOST], weighted[4 + 64 * 8 + 64 * 64];
static size_t weighted_len;
static char way;

static int run(void) {
    return (way == 'e' ? qik_weighted_erode : qik_weighted_dilate)((uint64_t)W, (uint64_t)H, source, source_len, weighted, weighted_len, target, MOST) == QIK_DONE;
}

/* all cells set: heights of both signs, those of 5 x 5 all different; the same all above 0; a cone that falls from 0, and one that rises to its middle */
enum { KINDS = 4 };
static const char *const kinds[KINDS] = {"both-signs", "above-0", "cone-below-0", "cone-above-0"};

static int height(int kind, int size, int c, int r) {
    int i = r * size + c, middle = size / 2, across = c < middle ? middle - c : c - middle, down = r < middle ? middle - r : r - middle, far = across > down ? across : down;
    return kind == 0 ? i * 7 % 127 - 63 : kind == 1 ? i * 7 % 127 + 1 : kind == 2 ? -3 * far : 3 * (middle - far) + 1;
}

static void make(int kind, int size) {
    start_element(size, size, size / 2, size / 2);
    for (int r = 0; r < size; r++)
        for (int c = 0; c < size; c++) set(c, r);
    memcpy(weighted, element, element_len);
    for (int r = 0; r < size; r++)
        for (int c = 0; c < size; c++) weighted[element_len + (size_t)(r * size + c)] = (uint8_t)height(kind, size, c, r);
    weighted_len = element_len + (size_t)(size * size);
}

/* SciPy's nanoseconds, or less than 0 */
static double other(const char *file, int size, const char *kind) {
    FILE *f = file ? fopen(file, "r") : 0;
    double found = -1, t;
    int w, h, n;
    char of, name[32];
    while (f && fscanf(f, "%d %d %c %d %31s %lf", &w, &h, &of, &n, name, &t) == 6)
        if (w == W && h == H && of == way && n == size && strcmp(name, kind) == 0) found = t;
    if (f) fclose(f);
    return found;
}

int main(int n, char **a) {
    static const int frames[2][2] = {{1024, 256}, {64, 16}}, sizes[2] = {5, 31};
    int bad = 0;
    depth = 8;
    printf("Weighted elements, all cells set. Nanoseconds for each point of the frame, processor time, the best run in 0.1 s; beside it SciPy's time, where it is installed, and how many\n");
    printf("times the library's it is. !: not the result of the independent implementation.\n\n");
    printf("%-10s %-6s %-7s %-14s %10s %10s %7s\n", "frame", "", "element", "heights", "library", "SciPy", "times");
    for (int f = 0; f < 2; f++)
        for (int s = 0; s < 2; s++)
            for (const char *o = "ed"; *o; o++)
                for (int k = 0; k < KINDS; k++) {
                    W = frames[f][0], H = frames[f][1], way = *o, batch = W * H < 10000 ? 20 : 1;
                    make_source();
                    make(k, sizes[s]);
                    double t = best(run) * 1e9 / (W * H), t2 = other(n > 1 ? a[1] : 0, sizes[s], kinds[k]);
                    own_weighted(way, (uint64_t)W, (uint64_t)H, (struct lent){source, source_len}, (struct lent){weighted, weighted_len}, (struct lent){wanted, MOST}, (struct lent){wanted, 0});
                    int same = t >= 0 && memcmp(target, wanted, source_len) == 0;
                    bad += !same;
                    printf("%4d x %-3d %-6s %2d x %-2d %-14s %9.3f%c", W, H, way == 'e' ? "erode" : "dilate", sizes[s], sizes[s], kinds[k], t, same ? ' ' : '!');
                    if (t2 >= 0) printf(" %10.3f %7.2f\n", t2, t2 / t);
                    else printf(" %10s\n", "-");
                    fflush(stdout);
                }
    return bad != 0;
}
