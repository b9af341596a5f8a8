/* The independent search for a chain: the candidates of docs/HOST.md in plain C, cell by cell, each checked by sums and paths. It shares no code and no table with the library. */
#ifndef OWNFIND_H
#define OWNFIND_H

#include <stddef.h>
#include <stdint.h>

struct own_found {
    int number, links, bytes, gave_up;
};

struct own_found own_find_chain(const uint8_t *element, size_t element_len, uint8_t *chain, size_t chain_len);

#endif
