/* The nesting of regions, independently: request (xiv) in plain C. A frame with a ring of background round it is flooded region by region, and the regions are listed
 * from the outer one inwards. It shares no code and no table with the library. */
#ifndef OWNNEST_H
#define OWNNEST_H

#include <stddef.h>
#include <stdint.h>

/* the answer's number, and in *regions how many there are, 0 where refused; list gets depth and points of each */
int own_nesting(uint64_t w, uint64_t h, const uint8_t *source, size_t source_len, uint32_t *list, size_t list_len, uint32_t *regions);

#endif
