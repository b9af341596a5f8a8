/* Drawings of elements: the words that look like one, and the elements that they draw. */
#ifndef QIK_DRAWING_H
#define QIK_DRAWING_H

#include "qik-descriptor.h"

/* cells # and . with the origin O where it is set and o where it is not; rows parted by / */
int is_drawing(const char *text);
struct element drawn(const char *text);

/* the same with heights: cells parted by spaces, each a height or . where it is unset, the origin in brackets */
int has_heights(const char *text);
struct element drawn_with_heights(const char *text);

#endif
