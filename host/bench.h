/* What the benchmark asks of a library that may be there: prepare makes its own picture and element, which is not measured; run is the operation, 'e', 'd',
 * 'o', 'c', 'w', 'b' or 'g'; result gives the picture back in our form. */
#ifndef BENCH_H
#define BENCH_H

#include <stdint.h>

#ifdef __cplusplus
extern "C" {
#endif

void opencv_prepare(int w, int h, const uint8_t *source, const uint8_t *element);
void opencv_run(char way);
void opencv_result(uint8_t *target);

void leptonica_prepare(int w, int h, const uint8_t *source, const uint8_t *element);
void leptonica_run(char way);
/* the same by its bricks, and by those that it has compiled; 0 where the element is no rectangle, or not one of those */
int leptonica_brick(char way);
int leptonica_dwa(char way);
void leptonica_result(uint8_t *target);

/* the same of a marker and a mask, grown by the four or, aslant, by the eight neighbours */
void leptonica_grow_prepare(int w, int h, const uint8_t *marker, const uint8_t *mask);
void leptonica_grow(int aslant);
void leptonica_grow_result(uint8_t *target);

#ifdef __cplusplus
}
#endif

#endif
