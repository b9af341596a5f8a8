/* The operations as a good engineer writes them in plain C when speed matters: whole rows at a time, no test inside the innermost loop. They trust their input,
 * and are made for the benchmark. */
#ifndef PLAIN_H
#define PLAIN_H

#include <stddef.h>
#include <stdint.h>

void plain_erode(int depth, int w, int h, const uint8_t *source, const uint8_t *element, uint8_t *target);
void plain_dilate(int depth, int w, int h, const uint8_t *source, const uint8_t *element, uint8_t *target);

/* n bytes less those beside them, into target; rows without padding, or with 0 there in both */
void plain_less(int depth, size_t n, const uint8_t *from, const uint8_t *away, uint8_t *target);

/* the packed answer of a chain whose descriptors are well made */
uint32_t plain_check_chain(const uint8_t *element, int links, const uint8_t *chain);

#endif
