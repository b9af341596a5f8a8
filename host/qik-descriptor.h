/* Descriptors of elements: their bytes made, told and drawn. Whether one is well made is the library's to say. */
#ifndef QIK_DESCRIPTOR_H
#define QIK_DESCRIPTOR_H

#include "qik-words.h"

#include <stddef.h>
#include <stdint.h>
#include <stdio.h>

/* what a byte of a descriptor can say of a width or a height; the library takes less, and says so */
enum { MOST_SIDE = 255 };

struct element {
    uint8_t *at; /* its descriptor */
    size_t len;
    int weighted;     /* it is as long as a descriptor with heights */
    const char *name; /* for messages */
};

struct element element_of(uint8_t *at, size_t len, const char *name);

/* an element without a set cell, and its cells */
struct element none_set(int w, int h, int column, int row, const char *name);
void set_cell(struct element *element, int column, int row);
void set_height(struct element *element, int column, int row, int height);

/* the number of set cells */
int cells_of(const struct element *element);

/* the bytes of a descriptor without heights, by its first four */
size_t flat_len(const uint8_t *at);

/* draws a flat element as one word and a line's end, its rows parted by / */
void draw_in_line(FILE *to, const struct element *element);

/* writes the descriptor, or draws it where text is asked for; refused where it is not well made. - is standard output */
void write_element(const struct asked *asked, const struct element *element, const char *name);

#endif
