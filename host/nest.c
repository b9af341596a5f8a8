/* nest FILE: the nesting of the regions of an ECH file of one bit, as an indented list. Also called as tools/nest. */
#include "qiksavlut.h"

#include <stdio.h>

enum { MOST_FILE = 10 + 1024 * 256, MOST_NUMBERS = 510 };
static uint8_t file[MOST_FILE + 1], picture[1024 * 256];
static uint32_t list[MOST_NUMBERS];

int main(int argc, char **argv) {
    FILE *in = argc == 2 ? fopen(argv[1], "rb") : NULL;
    if (!in) {
        fprintf(stderr, argc == 2 ? "nest: no file %s\n" : "usage: nest FILE\n", argc == 2 ? argv[1] : "");
        return 2;
    }
    size_t file_len = fread(file, 1, sizeof file, in);
    fclose(in);
    uint64_t read = qik_ech_read(file, file_len, picture, sizeof picture);
    uint32_t w = qik_read_w(read), h = qik_read_h(read);
    if (qik_read_number(read) != QIK_DONE || qik_read_kind(read) != 1) {
        printf("refused %u\n", qik_read_number(read) != QIK_DONE ? qik_read_number(read) : QIK_FORM);
        return 1;
    }
    uint64_t nested = qik_nesting(w, h, picture, (size_t)h * ((w + 7) / 8), list, MOST_NUMBERS);
    if (qik_nest_number(nested) != QIK_DONE) {
        printf("refused %u\n", qik_nest_number(nested));
        return 1;
    }
    for (uint32_t i = 0; i < qik_nest_regions(nested); i++) {
        uint32_t depth = list[2 * i];
        const char *kind = depth == 0 ? "outside" : depth % 2 ? "echo" : "hole";
        printf("%*s%s, %u point%s\n", (int)(2 * depth), "", kind, list[2 * i + 1], list[2 * i + 1] == 1 ? "" : "s");
    }
    return 0;
}
