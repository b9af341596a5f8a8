/* Elements, from the words that name them. */
#ifndef QIK_ELEMENT_H
#define QIK_ELEMENT_H

#include "qik-descriptor.h"

/* The element that the words from a place on name, one word or two (row 31); the place goes behind them. what is its name in the usage.
 * A drawing, a name, book:FILE:PARTY:NUMBER, a descriptor's file; file:NAME is always a file. */
struct element element_at(const struct asked *asked, const struct words *words, int *place, const char *what);

/* PARTY:NUMBER of an element book: whether the party is the export, and the number */
void book_place(const char *text, int *export, uint64_t *number);

#endif
