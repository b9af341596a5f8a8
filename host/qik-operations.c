/* The parts that make a picture of pictures: each is one call of the library. */
#include "qik-chain.h"
#include "qik-element.h"
#include "qik-file.h"
#include "qik-parts.h"
#include "qik-picture.h"
#include "qik-say.h"
#include "qiksavlut.h"

#include <stdio.h>
#include <string.h>

typedef uint32_t once(uint64_t, uint64_t, const uint8_t *, size_t, const uint8_t *, size_t, uint8_t *, size_t);
typedef uint32_t twice(uint64_t, uint64_t, const uint8_t *, size_t, const uint8_t *, size_t, uint8_t *, size_t, uint8_t *, size_t);
typedef uint32_t linked(uint64_t, uint64_t, const uint8_t *, size_t, const uint8_t *, size_t, uint64_t, const uint8_t *, size_t, uint8_t *, size_t,
                        uint8_t *, size_t);

/* What the library has of each operation: in one step, by two with a scratch, by a chain; at one bit, at eight, and at eight by a weighted element. */
static const struct operation {
    const char *name;
    once *once1, *once8, *weighted_once;
    twice *twice1, *twice8, *weighted_twice;
    linked *linked1, *linked8;
} operations[] = {
    {"erode", qik_erode1, qik_erode8, qik_weighted_erode, NULL, NULL, NULL, qik_chain_erode1, qik_chain_erode8},
    {"dilate", qik_dilate1, qik_dilate8, qik_weighted_dilate, NULL, NULL, NULL, qik_chain_dilate1, qik_chain_dilate8},
    {"open", NULL, NULL, NULL, qik_open1, qik_open8, qik_weighted_open, NULL, NULL},
    {"close", NULL, NULL, NULL, qik_close1, qik_close8, qik_weighted_close, NULL, NULL},
    {"white-tophat", NULL, NULL, NULL, qik_white_tophat1, qik_white_tophat8, NULL, NULL, NULL},
    {"black-tophat", NULL, NULL, NULL, qik_black_tophat1, qik_black_tophat8, NULL, NULL, NULL},
    {"gradient", NULL, NULL, NULL, qik_gradient1, qik_gradient8, NULL, NULL, NULL},
};

/* a weighted element goes to the weighted call where there is one; else to the flat one, which refuses it */
static uint32_t by_element(const struct operation *operation, const struct picture *from, const struct element *by, struct picture *to) {
    int weights = by->weighted && from->bits == 8;
    once *one = from->bits == 1 ? operation->once1 : weights && operation->weighted_once ? operation->weighted_once : operation->once8;
    twice *two = from->bits == 1 ? operation->twice1 : weights && operation->weighted_twice ? operation->weighted_twice : operation->twice8;
    if (one) return one(from->w, from->h, from->at, from->len, by->at, by->len, to->at, to->len);
    struct picture scratch = blank(from);
    return two(from->w, from->h, from->at, from->len, by->at, by->len, to->at, to->len, scratch.at, scratch.len);
}

/* of an even number of links the last picture is in the second buffer */
static uint32_t by_chain(const struct operation *operation, const struct picture *from, const struct element *by, const struct chain *chain,
                         struct picture *to) {
    struct picture other = blank(from), *first = chain->links % 2 ? to : &other, *second = chain->links % 2 ? &other : to;
    return (from->bits == 1 ? operation->linked1 : operation->linked8)(from->w, from->h, from->at, from->len, by->at, by->len, chain->links, chain->at,
                                                                      chain->len, first->at, first->len, second->at, second->len);
}

void run_operation(const struct asked *asked) {
    const struct operation *operation = operations;
    int place = 0;
    while (strcmp(operation->name, asked->part) != 0) operation++;
    struct element element = element_at(asked, &asked->given, &place, "ELEMENT");
    struct chain chain = chain_at(asked, &asked->chain, 0);
    no_more_than(asked, place + 2);
    struct picture from = read_picture(file_at(asked, place)), to = blank(&from);
    judged(element.name, asked->chained ? by_chain(operation, &from, &element, &chain, &to) : by_element(operation, &from, &element, &to));
    write_picture(asked, &to, file_at(asked, place + 1));
}

static const char *named_both(const struct element *one, const struct element *other) {
    char *names = room(strlen(one->name) + strlen(other->name) + sizeof " and ");
    sprintf(names, "%s and %s", one->name, other->name);
    return names;
}

void run_hit_or_miss(const struct asked *asked) {
    int place = 0;
    struct element hit = element_at(asked, &asked->given, &place, "HIT"), miss = element_at(asked, &asked->given, &place, "MISS");
    no_more_than(asked, place + 2);
    struct picture from = read_one_bit(asked, file_at(asked, place)), to = blank(&from);
    judged(named_both(&hit, &miss), qik_hit_or_miss(from.w, from.h, from.at, from.len, hit.at, hit.len, miss.at, miss.len, to.at, to.len));
    write_picture(asked, &to, file_at(asked, place + 1));
}

void run_reconstruct(const struct asked *asked) {
    const char *by = word_at(asked, 0, "cross or square"), *names[] = {word_at(asked, 1, "MARKER"), word_at(asked, 2, "MASK")};
    if (strcmp(by, "cross") != 0 && strcmp(by, "square") != 0) misused(asked, " is neither cross nor square", by);
    if (strcmp(names[0], "-") == 0 && strcmp(names[1], "-") == 0) misused(asked, "marker and mask cannot both come from standard input", NULL);
    no_more_than(asked, 4);
    struct picture marker = read_one_bit(asked, names[0]), mask = read_one_bit(asked, names[1]), to = blank(&mask);
    if (marker.w != mask.w || marker.h != mask.h)
        wrong("%s: the marker has %u x %u points and the mask %u x %u", asked->part, marker.w, marker.h, mask.w, mask.h);
    judged(marker.name, (strcmp(by, "cross") == 0 ? qik_reconstruct_cross : qik_reconstruct_square)(mask.w, mask.h, marker.at, marker.len, mask.at,
                                                                                                     mask.len, to.at, to.len));
    write_picture(asked, &to, file_at(asked, 3));
}
