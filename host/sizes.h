/* The independent size spectrum: opening by the definition, side by side, for the comparison and the benchmark. It shares no code and no table with the library. */
#ifndef SIZES_H
#define SIZES_H

#include <stddef.h>
#include <stdint.h>

enum { OWN_SIDES = 32 };

/* the refusal by document 02 (xiii), or 0 and the 32 counts; the scratch's needed part is all 0 then */
uint32_t own_spectrum(uint64_t w, uint64_t h, const uint8_t *source, size_t source_len, uint32_t *counts, size_t counts_len, uint8_t *scratch, size_t scratch_len);

#endif
