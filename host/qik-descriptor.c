#include "qik-descriptor.h"

#include "qik-file.h"
#include "qik-say.h"
#include "qiksavlut.h"

#include <string.h>

enum { HEAD = 4 }; /* width, height, origin column, origin row */

static size_t row_of(const uint8_t *descriptor) { return ((size_t)descriptor[0] + 7) / 8; }

size_t flat_len(const uint8_t *descriptor) { return HEAD + row_of(descriptor) * descriptor[1]; }

struct element element_of(uint8_t *at, size_t len, const char *name) {
    int weighted = len >= HEAD && at[0] > 0 && at[1] > 0 && len == flat_len(at) + (size_t)at[0] * at[1];
    struct element element = {at, len, weighted, name};
    return element;
}

struct element none_set(int w, int h, int column, int row, const char *name) {
    const uint8_t head[HEAD] = {(uint8_t)w, (uint8_t)h, (uint8_t)column, (uint8_t)row};
    uint8_t *at = room(flat_len(head) + (size_t)w * (size_t)h);
    memcpy(at, head, HEAD);
    return element_of(at, flat_len(head), name);
}

void set_cell(struct element *element, int column, int row) {
    element->at[HEAD + row_of(element->at) * (size_t)row + (size_t)column / 8] |= (uint8_t)(0x80 >> column % 8);
}

void set_height(struct element *element, int column, int row, int height) {
    element->weighted = 1;
    element->len = flat_len(element->at) + (size_t)element->at[0] * element->at[1];
    element->at[flat_len(element->at) + (size_t)(row * element->at[0] + column)] = (uint8_t)height;
}

static int is_set(const struct element *element, int column, int row) {
    return element->at[HEAD + row_of(element->at) * (size_t)row + (size_t)column / 8] >> (7 - column % 8) & 1;
}

static int height_of(const struct element *element, int column, int row) {
    int byte = element->at[flat_len(element->at) + (size_t)(row * element->at[0] + column)];
    return byte < 128 ? byte : byte - 256;
}

int cells_of(const struct element *element) {
    int cells = 0;
    for (int y = 0; y < element->at[1]; y++)
        for (int x = 0; x < element->at[0]; x++) cells += is_set(element, x, y);
    return cells;
}

/* eroding one point by it changes nothing and judges it */
static uint32_t judge(const struct element *element) {
    uint8_t point = 0, target;
    return (element->weighted ? qik_weighted_erode : qik_erode8)(1, 1, &point, 1, element->at, element->len, &target, 1);
}

/* a cell as it is drawn, and with heights: in brackets where it is the origin */
static void draw_cell(FILE *to, const struct element *element, int x, int y) {
    int origin = x == element->at[2] && y == element->at[3], set = is_set(element, x, y);
    if (!element->weighted) {
        putc(origin ? (set ? 'O' : 'o') : set ? '#' : '.', to);
        return;
    }
    if (x) putc(' ', to);
    if (origin) putc('(', to);
    if (set) fprintf(to, "%d", height_of(element, x, y));
    else putc('.', to);
    if (origin) putc(')', to);
}

static void draw(const struct element *element, const char *name) {
    struct text text;
    open_text(&text);
    for (int y = 0; y < element->at[1]; y++) {
        for (int x = 0; x < element->at[0]; x++) draw_cell(text.to, element, x, y);
        putc('\n', text.to);
    }
    close_text(&text, name);
}

void draw_in_line(FILE *to, const struct element *element) {
    for (int y = 0; y < element->at[1]; y++) {
        if (y) putc('/', to);
        for (int x = 0; x < element->at[0]; x++) draw_cell(to, element, x, y);
    }
    putc('\n', to);
}

void write_element(const struct asked *asked, const struct element *element, const char *name) {
    judged(element->name, judge(element));
    if (asked->to && strcmp(asked->to, "text") != 0) wrong("--to %s: an element is written as its descriptor, or drawn with --text", asked->to);
    if (asked->to) draw(element, name);
    else if (strcmp(name, "-") == 0 && looked_at(1)) wrong("standard output is a terminal: name a file for the descriptor, or say --text");
    else write_file(name, element->at, element->len);
}
