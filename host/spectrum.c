/* spectrum FILE: the size spectrum of an ECH file as bars of text: for each side how many points survive opening by the square of that side and not by the next larger one, and in
 * the last line how many survive side 32. Its status is 1 where the file is refused. */
#include "qiksavlut.h"

#include <stdio.h>
#include <stdlib.h>

enum { MOST = 256 * 1024, FILE_MOST = MOST + 32, SIDES = 32, BAR = 60 };

static uint8_t file[FILE_MOST], picture[MOST], scratch[2 * 128 * 256];

static int refuse(const char *name, const char *why) {
    fprintf(stderr, "spectrum: %s: %s\n", name, why);
    return 1;
}

static const char *words(uint32_t number) {
    switch (number) {
    case QIK_SIZE: return "its picture is not 1 to 1,024 pings wide and 1 to 256 bins high";
    case QIK_SOURCE: return "its body is not as long as its size says";
    case QIK_PAD: return "a bit of its padding is set";
    case QIK_FORM: return "it is no ECH file of version 1";
    default: return "it cannot be read";
    }
}

int main(int argc, char **argv) {
    uint32_t counts[SIDES], most = 0, sum = 0;
    if (argc != 2) {
        fprintf(stderr, "usage: spectrum FILE\n");
        return 2;
    }
    FILE *f = fopen(argv[1], "rb");
    if (!f) return refuse(argv[1], "it cannot be opened");
    size_t n = fread(file, 1, sizeof file, f);
    fclose(f);

    uint64_t read = qik_ech_read(file, n, picture, sizeof picture);
    if (qik_read_number(read) != QIK_DONE) return refuse(argv[1], words((uint32_t)qik_read_number(read)));
    if (qik_read_kind(read) == 2) return refuse(argv[1], "it is of kind 2, 8 bits a point; a spectrum is of one-bit pictures, files of kind 1");

    uint64_t w = qik_read_w(read), h = qik_read_h(read);
    size_t bytes = (size_t)(h * ((w + 7) / 8));
    if (qik_size_spectrum(w, h, picture, bytes, counts, SIDES, scratch, sizeof scratch) != QIK_DONE) return refuse(argv[1], "no spectrum");

    for (int k = 0; k < SIDES; k++) {
        sum += counts[k];
        if (counts[k] > most) most = counts[k];
    }
    printf("%llu x %llu, %u points set\n", (unsigned long long)w, (unsigned long long)h, (unsigned)sum);
    for (int k = 0; k < SIDES; k++) {
        /* a bar is rounded up: a side that has a point shows one sign */
        uint32_t bar = most ? (counts[k] * BAR + most - 1) / most : 0;
        printf("%2d%c %6u%s", k + 1, k == SIDES - 1 ? '+' : ' ', (unsigned)counts[k], bar ? " " : "");
        for (uint32_t i = 0; i < bar; i++) putchar('#');
        putchar('\n');
    }
    return 0;
}
