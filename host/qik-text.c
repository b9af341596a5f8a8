#define _DEFAULT_SOURCE
#include "qik-text.h"

#include "qik-file.h"
#include "qik-say.h"

#include <stdlib.h>
#include <string.h>
#include <sys/ioctl.h>
#include <unistd.h>

/* a line for each bin: # and ., or the strengths in decimal, as echtext prints them */
static void draw_points(FILE *to, const struct picture *picture) {
    for (uint32_t bin = 0; bin < picture->h; bin++) {
        for (uint32_t ping = 0; ping < picture->w; ping++) {
            int value = value_at(picture, ping, bin);
            if (picture->bits == 1) putc(value ? '#' : '.', to);
            else fprintf(to, ping ? " %d" : "%d", value);
        }
        putc('\n', to);
    }
}

/* the strongest echo of a block of points */
static int strongest(const struct picture *picture, uint32_t ping, uint32_t bin, uint32_t pings, uint32_t bins) {
    int most = 0;
    for (uint32_t y = bin; y < bin + bins && y < picture->h; y++)
        for (uint32_t x = ping; x < ping + pings && x < picture->w; x++)
            if (value_at(picture, x, y) > most) most = value_at(picture, x, y);
    return most;
}

static void draw_block(FILE *to, const struct picture *picture, int value, int colour) {
    static const char shades[] = " .:-=+*%@#";
    if (picture->bits == 1) putc(value ? '#' : '.', to);
    else if (colour) fprintf(to, "\033[48;5;%dm ", 232 + value * 23 / 255); /* the 24 greys of a terminal */
    else putc(shades[value * 9 / 255], to);
}

/* a character for each block of points, twice as high as wide, as characters are, where not every point has room */
static void draw_blocks(FILE *to, const struct picture *picture, uint32_t columns) {
    uint32_t pings = (picture->w + columns - 1) / columns, bins = pings == 1 ? 1 : 2 * pings;
    int colour = coloured(STDOUT_FILENO) && picture->bits == 8;
    for (uint32_t bin = 0; bin < picture->h; bin += bins) {
        for (uint32_t ping = 0; ping < picture->w; ping += pings) draw_block(to, picture, strongest(picture, ping, bin, pings, bins), colour);
        fputs(colour ? "\033[0m\n" : "\n", to);
    }
    if (pings > 1) remark("drawn smaller: a character shows the strongest of %u pings and %u bins", pings, bins);
}

static uint32_t columns_there(void) {
    struct winsize size;
    const char *said = getenv("COLUMNS");
    if (said && atoi(said) > 0) return (uint32_t)atoi(said);
    return ioctl(STDOUT_FILENO, TIOCGWINSZ, &size) == 0 && size.ws_col > 0 ? size.ws_col : 80;
}

void draw_picture(const struct picture *picture, const char *name) {
    struct text text;
    open_text(&text);
    if (strcmp(name, "-") == 0 && looked_at(STDOUT_FILENO)) draw_blocks(text.to, picture, columns_there());
    else draw_points(text.to, picture);
    close_text(&text, name);
}
