#define _POSIX_C_SOURCE 199309L /* clock_gettime */
/* What a chain that qik_find_chain finds saves beside the element itself: microseconds of the best run, at both depths. A chained run checks its chain each time. */
#include "inputs.h"
#include "qiksavlut.h"

#include <stdio.h>

static uint8_t target[MOST], first[MOST], second[MOST], chain[60];
static size_t chain_len;
static uint64_t links;

static int find(void) {
    uint64_t answer = qik_find_chain(element, element_len, chain, sizeof chain);
    links = qik_find_links(answer), chain_len = qik_find_bytes(answer);
    return qik_find_number(answer) == QIK_DONE;
}

static int check(void) { return qik_check_chain(element, element_len, links, chain, chain_len) == QIK_DONE; }

static int erode(void) {
    return (depth == 1 ? qik_erode1 : qik_erode8)((uint64_t)W, (uint64_t)H, source, source_len, element, element_len, target, MOST) == QIK_DONE;
}

static int erode_chained(void) {
    return (depth == 1 ? qik_chain_erode1 : qik_chain_erode8)((uint64_t)W, (uint64_t)H, source, source_len, element, element_len, links, chain, chain_len, first, MOST, second, MOST) == QIK_DONE;
}

/* the cells of a w x h box whose corners are cut aslant by so many */
static void make(int w, int h, int column, int cut) {
    start_element(w, h, column, h / 2);
    for (int r = 0; r < h; r++)
        for (int c = 0; c < w; c++) {
            int across = c < w - 1 - c ? c : w - 1 - c, down = r < h - 1 - r ? r : h - 1 - r;
            if (across + down >= cut) set(c, r);
        }
}

static const struct {
    const char *name;
    int w, h, column, cut;
} elements[] = {
    {"31 x 1, trailing", 31, 1, 30, 0}, {"31 x 31", 31, 31, 15, 0}, {"diamond of radius 15", 31, 31, 15, 15}, {"octagon of 31, cut by 9", 31, 31, 15, 9}, {"diamond of radius 4", 9, 9, 4, 4},
};

int main(void) {
    int good = 1;
    W = 1024, H = 256;
    printf("Microseconds on %d x %d points, processor time, the best run in 0.1 s.\n\n", W, H);
    printf("%-24s %5s %8s %8s %8s %12s %8s %12s\n", "element", "links", "found in", "check", "erode1", "chain_erode1", "erode8", "chain_erode8");
    for (size_t i = 0; i < sizeof elements / sizeof *elements; i++) {
        make(elements[i].w, elements[i].h, elements[i].column, elements[i].cut);
        double found = best(find), checked = best(check);
        printf("%-24s %5d %8.0f %8.0f", elements[i].name, (int)links, found * 1e6, checked * 1e6);
        good &= found >= 0 && checked >= 0;
        for (depth = 1; depth <= 8; depth += 7) {
            make_source();
            double alone = best(erode), chained = best(erode_chained);
            good &= alone >= 0 && chained >= 0;
            printf(" %8.0f %12.0f", alone * 1e6, chained * 1e6);
        }
        putchar('\n');
    }
    return !good;
}
