/* The parts that tell of a picture: its sizes, its nest, and what its file is. */
#include "qik-file.h"
#include "qik-parts.h"
#include "qik-picture.h"
#include "qik-say.h"
#include "qiksavlut.h"

#include <stdio.h>

enum {
    SIDES = 32,    /* the counts of a spectrum */
    REGIONS = 255, /* of a nest, at most */
    BAR = 50       /* the longest bar that is drawn */
};

/* a count and its share of the picture's echoes, as a bar */
static void print_count(FILE *to, int side, uint32_t count, uint64_t all) {
    fprintf(to, "%4d %s%7u ", side, side == SIDES ? "and over" : "        ", (unsigned)count);
    for (uint64_t i = 0; all && i < (count * (uint64_t)BAR + all - 1) / all; i++) putc('#', to);
    putc('\n', to);
}

void run_spectrum(const struct asked *asked) {
    no_more_than(asked, 2);
    struct picture from = read_one_bit(asked, file_at(asked, 0));
    uint32_t counts[SIDES] = {0};
    uint64_t all = 0;
    uint8_t *scratch = room(2 * from.len);
    judged(from.name, qik_size_spectrum(from.w, from.h, from.at, from.len, counts, SIDES, scratch, 2 * from.len));
    struct text text;
    open_text(&text);
    for (int i = 0; i < SIDES; i++) all += counts[i];
    fputs("side          points\n", text.to);
    for (int i = 0; i < SIDES; i++) print_count(text.to, i + 1, counts[i], all);
    close_text(&text, file_at(asked, 1));
}

void run_nest(const struct asked *asked) {
    no_more_than(asked, 2);
    struct picture from = read_one_bit(asked, file_at(asked, 0));
    uint32_t list[2 * REGIONS];
    uint64_t answer = qik_nesting(from.w, from.h, from.at, from.len, list, 2 * REGIONS);
    judged(from.name, qik_nest_number(answer));
    struct text text;
    open_text(&text);
    for (uint32_t i = 0; i < qik_nest_regions(answer); i++) {
        uint32_t depth = list[2 * i], points = list[2 * i + 1];
        fprintf(text.to, "%*s%s %u\n", 2 * (int)depth, "", depth == 0 ? "outside" : depth % 2 ? "echo" : "hole", (unsigned)points);
    }
    close_text(&text, file_at(asked, 1));
}

void run_convert(const struct asked *asked) {
    no_more_than(asked, 2);
    struct picture picture = read_picture(file_at(asked, 0));
    write_picture(asked, &picture, file_at(asked, 1));
}

void run_info(const struct asked *asked) {
    no_more_than(asked, 1);
    struct picture picture = read_picture(file_at(asked, 0));
    uint64_t echoes = 0;
    int least = 255, most = 0;
    for (uint32_t bin = 0; bin < picture.h; bin++)
        for (uint32_t ping = 0; ping < picture.w; ping++) {
            int value = value_at(&picture, ping, bin);
            echoes += value != 0;
            if (value < least) least = value;
            if (value > most) most = value;
        }
    struct text text;
    open_text(&text);
    if (picture.format == FORMAT_ECH) fprintf(text.to, "format  ECH of kind %d%s\n", picture.kind, picture.kind == 3 ? ", retired: convert makes it kind 1" : "");
    else fprintf(text.to, "format  raw %s\n", picture.format == FORMAT_PBM ? "PBM" : "PGM");
    fprintf(text.to, "pings   %u\nbins    %u\ndepth   %s\nechoes  %lu of %lu points\n", (unsigned)picture.w, (unsigned)picture.h, picture.bits == 1 ? "1 bit" : "8 bits",
            (unsigned long)echoes, (unsigned long)picture.w * picture.h);
    if (picture.bits == 8) fprintf(text.to, "values  %d to %d\n", least, most);
    close_text(&text, "-");
}
