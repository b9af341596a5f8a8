/* netpbm: the Netpbm files of the library, for tests/netpbm. Each line of standard input is a call, and each line of standard output its answer:
 *   read SORT FILE PICTURE           reads a file of the sort pbm or pgm; prints number, w and h, and writes the picture's bytes
 *   write SORT W H PICTURE FILE      prints the number, and writes the file */
#include "qiksavlut.h"

#include <stdio.h>
#include <string.h>

enum { MOST = 1024 * 256 + 4096 };

static uint8_t in[MOST], out[MOST];

static size_t get(const char *name) {
    FILE *f = fopen(name, "rb");
    size_t n = f ? fread(in, 1, sizeof in, f) : 0;
    if (f) fclose(f);
    return n;
}

static void put(const char *name, size_t n) {
    FILE *f = fopen(name, "wb");
    if (!f) return;
    fwrite(out, 1, n, f);
    fclose(f);
}

int main(void) {
    char line[2048], sort[8], from[900], to[900];
    unsigned long w, h;
    while (fgets(line, sizeof line, stdin)) {
        if (sscanf(line, "read %7s %899s %899s", sort, from, to) == 3) {
            int bits = strcmp(sort, "pbm") == 0;
            uint64_t r = (bits ? qik_pbm_read : qik_pgm_read)(in, get(from), out, sizeof out);
            uint32_t pings = qik_read_w(r), bins = qik_read_h(r);
            printf("%u %u %u\n", qik_read_number(r), pings, bins);
            put(to, (size_t)(bits ? (pings + 7) / 8 : pings) * bins);
        } else if (sscanf(line, "write %7s %lu %lu %899s %899s", sort, &w, &h, from, to) == 5) {
            int bits = strcmp(sort, "pbm") == 0;
            size_t n = get(from), head = (size_t)snprintf(line, sizeof line, bits ? "P4\n%lu %lu\n" : "P5\n%lu %lu\n255\n", w, h);
            printf("%u\n", (bits ? qik_pbm_write : qik_pgm_write)(w, h, in, n, out, head + n));
            put(to, head + n);
        } else {
            return 1;
        }
    }
    return 0;
}
