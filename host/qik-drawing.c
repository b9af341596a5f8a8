#include "qik-drawing.h"

#include "qik-say.h"

#include <stdlib.h>
#include <string.h>

/* A drawing as far as it is read, cell by cell and row by row. */
static struct {
    const char *text;
    int w, x, y, cells, origins, column, row; /* w: the cells of the first row, once it is read */
    int8_t set[MOST_SIDE * MOST_SIDE], height[MOST_SIDE * MOST_SIDE];
} sketch;

static void begin(const char *text) {
    sketch.text = text;
    sketch.x = sketch.y = sketch.cells = sketch.origins = 0;
}

static void add_cell(int set, int height, int origin) {
    if (sketch.x == MOST_SIDE || sketch.y == MOST_SIDE) wrong("%s: no element has so many cells", sketch.text);
    if (origin) {
        sketch.origins++;
        sketch.column = sketch.x;
        sketch.row = sketch.y;
    }
    sketch.set[sketch.cells] = (int8_t)set;
    sketch.height[sketch.cells++] = (int8_t)height;
    sketch.x++;
}

static void end_row(void) {
    if (sketch.y++ == 0) sketch.w = sketch.x;
    if (sketch.x == 0) wrong("%s: a row of the drawing has no cell", sketch.text);
    if (sketch.x != sketch.w) wrong("%s: the rows of the drawing have %d and %d cells", sketch.text, sketch.w, sketch.x);
    sketch.x = 0;
}

static struct element made(int heights, const char *origin) {
    if (sketch.origins != 1) wrong("%s: a drawing has one origin, %s", sketch.text, origin);
    struct element element = none_set(sketch.w, sketch.y, sketch.column, sketch.row, sketch.text);
    for (int i = 0; i < sketch.cells; i++) {
        if (sketch.set[i]) set_cell(&element, i % sketch.w, i / sketch.w);
        if (heights) set_height(&element, i % sketch.w, i / sketch.w, sketch.height[i]);
    }
    return element;
}

int is_drawing(const char *text) { return *text && strspn(text, "#.Oo/") == strlen(text); }

struct element drawn(const char *text) {
    begin(text);
    for (const char *c = text; *c; c++) {
        if (*c == '/') end_row();
        else add_cell(*c == '#' || *c == 'O', 0, *c == 'O' || *c == 'o');
    }
    end_row();
    return made(0, "O where its cell is set and o where it is not");
}

int has_heights(const char *text) { return strchr(text, '(') && strspn(text, "0123456789-.()/ ") == strlen(text); }

/* one cell with its height, from its first character on; gives what comes after it */
static const char *take_cell(const char *from) {
    int origin = *from == '(', set;
    long height = 0;
    if (origin) from++;
    set = *from != '.';
    if (set) {
        char *end;
        height = strtol(from, &end, 10);
        if (end == from || height < -127 || height > 127) wrong("%s: a cell is a height, -127 to 127, or . where it is unset", sketch.text);
        from = end;
    } else {
        from++;
    }
    if (origin && *from++ != ')') wrong("%s: the origin's cell stands in brackets", sketch.text);
    if (!strchr(" /", *from)) wrong("%s: cells are parted by spaces, and rows by /", sketch.text);
    add_cell(set, (int)height, origin);
    return from;
}

struct element drawn_with_heights(const char *text) {
    begin(text);
    for (const char *at = text; *at;) {
        if (*at == '/') end_row();
        if (*at == ' ' || *at == '/') at++;
        else at = take_cell(at);
    }
    end_row();
    return made(1, "the cell in brackets");
}
