/* The parts of qik: what each does once its words are asked. */
#ifndef QIK_PARTS_H
#define QIK_PARTS_H

#include "qik-words.h"

void run_operation(const struct asked *asked);
void run_hit_or_miss(const struct asked *asked);
void run_reconstruct(const struct asked *asked);
void run_spectrum(const struct asked *asked);
void run_nest(const struct asked *asked);
void run_check(const struct asked *asked);
void run_chain_for(const struct asked *asked);
void run_element(const struct asked *asked);
void run_convert(const struct asked *asked);
void run_info(const struct asked *asked);
void run_book(const struct asked *asked);

#endif
