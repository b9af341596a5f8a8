/* The links of a chain: descriptors one after another. */
#ifndef QIK_CHAIN_H
#define QIK_CHAIN_H

#include "qik-words.h"

#include <stddef.h>
#include <stdint.h>

struct chain {
    uint8_t *at;
    size_t len;
    uint64_t links;
};

/* the links that the words from a place to the last name */
struct chain chain_at(const struct asked *asked, const struct words *words, int place);

#endif
