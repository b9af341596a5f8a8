#include "qik-chain.h"

#include "qik-descriptor.h"
#include "qik-element.h"
#include "qik-file.h"
#include "qik-parts.h"
#include "qik-say.h"
#include "qiksavlut.h"

#include <stdio.h>
#include <stdlib.h>
#include <string.h>

struct chain chain_at(const struct asked *asked, const struct words *words, int place) {
    struct chain chain = {room(1), 0, 0};
    while (place < words->count) {
        struct element link = element_at(asked, words, &place, "LINK");
        uint8_t *longer = room(chain.len + link.len);
        memcpy(longer, chain.at, chain.len);
        memcpy(longer + chain.len, link.at, link.len);
        free(chain.at);
        chain.at = longer;
        chain.len += link.len;
        chain.links++;
    }
    return chain;
}

/* the links of a chain that was found, each a word that --chain and check take */
static void draw_links(FILE *to, uint8_t *at, uint32_t links) {
    for (uint32_t i = 0; i < links; i++) {
        struct element link = element_of(at, flat_len(at), "a link");
        draw_in_line(to, &link);
        at += link.len;
    }
}

void run_chain_for(const struct asked *asked) {
    enum { MOST_CHAIN = 5 * (4 + 8) }; /* five links of 8 x 8 */
    uint8_t chain[MOST_CHAIN];
    int place = 0;
    struct element element = element_at(asked, &asked->given, &place, "ELEMENT");
    no_more_than(asked, place + 1);
    uint64_t answer = qik_find_chain(element.at, element.len, chain, sizeof chain);
    if (qik_find_number(answer) == QIK_NOCHAIN)
        refused(element.name, QIK_NOCHAIN, "", qik_find_gave_up(answer) ? "; the search gave up, so there may be one" : "; there is none");
    judged(element.name, qik_find_number(answer));
    struct text text;
    open_text(&text);
    draw_links(text.to, chain, qik_find_links(answer));
    close_text(&text, file_at(asked, place));
}

void run_check(const struct asked *asked) {
    int place = 0;
    struct element element = element_at(asked, &asked->given, &place, "ELEMENT");
    if (place == asked->given.count) misused(asked, " is missing", "LINK");
    struct chain chain = chain_at(asked, &asked->given, place);
    judged(element.name, qik_check_chain(element.at, element.len, chain.links, chain.at, chain.len));
    struct text text;
    open_text(&text);
    fprintf(text.to, "accepted: %d link%s for the element, on every picture in every frame\n", (int)chain.links, chain.links == 1 ? " stands" : "s stand");
    close_text(&text, "-");
}
