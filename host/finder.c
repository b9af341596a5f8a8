/* The finder of the independent implementation: runs those lines of crates/checkcases/stdin that ask the finder, and prints of each what the proved
 * program `checkcases` must print. C cannot call the library's own finder, which lends a part of a buffer. */
#include "independent.h"

#include <stdio.h>
#include <stdlib.h>
#include <string.h>

static uint8_t first[1100], second[1100];

/* A buffer of a line: its length, a count, and so many bytes; the bytes after them are like the last. */
static struct lent buffer(char **at, uint8_t *bytes, size_t most) {
    size_t n = strtoull(*at, at, 10), m = strtoull(*at, at, 10);
    uint8_t last = 0;
    for (size_t i = 0; i < m || i < n; i++) {
        if (i < m) last = (uint8_t)strtoull(*at, at, 10);
        if (i < most) bytes[i] = last;
    }
    return (struct lent){bytes, n < most ? n : most};
}

int main(void) {
    static char line[65536];
    while (fgets(line, sizeof line, stdin)) {
        if (line[0] != 'f') continue;
        char *at = line + 1;
        int depth = (int)strtoull(at, &at, 10);
        uint64_t w = strtoull(at, &at, 10), h = strtoull(at, &at, 10), k = strtoull(at, &at, 10);
        struct lent a = buffer(&at, first, sizeof first), b = buffer(&at, second, sizeof second);
        struct lent t = own_last_picture(a, b, depth, w, h, k);
        printf("last");
        for (size_t i = 0, n; i < t.len; i += n) {
            for (n = 1; i + n < t.len && t.at[i + n] == t.at[i]; n++) {}
            if (n > 1) printf(" %lu*%d", (unsigned long)n, t.at[i]);
            else printf(" %d", t.at[i]);
        }
        putchar('\n');
    }
    return 0;
}
