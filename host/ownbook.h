/* The element book, independently: document 02's (vi) and (vii) in plain C. A plain map of numbers to descriptors has the refusals, one for each party; a call on a book
 * reads the whole book into the two maps, asks the party's map, and writes that map back. It shares no code and no table with the library. */
#ifndef OWNBOOK_H
#define OWNBOOK_H

#include <stddef.h>
#include <stdint.h>

enum { OWN_DISPLAY, OWN_EXPORT, OWN_PARTIES };
enum { OWN_NUMBERS = 8, OWN_ROOM = 1000, OWN_VERSION = 2, OWN_SHARE = 2 * OWN_NUMBERS + OWN_ROOM, OWN_BOOK = 4 + OWN_PARTIES * OWN_SHARE };

struct own_map {
    size_t len[OWN_NUMBERS]; /* 0 for none */
    uint8_t bytes[OWN_NUMBERS][OWN_ROOM];
};

/* what a get gives: the number, and place and length of the descriptor */
struct own_found {
    int number;
    size_t place, len;
};

/* whether the bytes are an unweighted descriptor, to the end */
int own_descriptor(const uint8_t *d, size_t len);

/* a plain map: each gives its number */
int own_map_put(struct own_map *m, uint64_t number, const uint8_t *d, size_t len);
int own_map_remove(struct own_map *m, uint64_t number);
int own_map_get(const struct own_map *m, uint64_t number);

/* the maps that the bytes hold, one for each party, or 17 */
int own_book_read(const uint8_t *book, size_t book_len, struct own_map m[OWN_PARTIES]);

int own_book_start(uint8_t *book, size_t book_len);
int own_book_put(uint8_t *book, size_t book_len, int party, uint64_t number, const uint8_t *d, size_t len);
int own_book_remove(uint8_t *book, size_t book_len, int party, uint64_t number);
int own_book_tidy(uint8_t *book, size_t book_len, int party);
struct own_found own_book_get(const uint8_t *book, size_t book_len, int party, uint64_t number);

#endif
