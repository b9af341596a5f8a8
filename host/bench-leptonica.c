/* Leptonica for the benchmark, at one bit. Its symmetric boundary is the rule of document 01. */
#include "bench.h"

#include <leptonica/allheaders.h>
#include <string.h>

static PIX *from, *to, *middle;
static SEL *sel;
static int wide, high, full; /* the element's box, and whether all its cells are set */

static PIX *pix_of(int w, int h, const uint8_t *picture) {
    PIX *a = pixCreate(w, h, 1);
    for (int y = 0; y < h; y++)
        for (int x = 0; x < w; x++)
            if (picture[y * ((w + 7) / 8) + x / 8] >> (7 - x % 8) & 1) pixSetPixel(a, x, y, 1);
    return a;
}

void leptonica_prepare(int w, int h, const uint8_t *source, const uint8_t *element) {
    resetMorphBoundaryCondition(SYMMETRIC_MORPH_BC);
    setMsgSeverity(L_SEVERITY_NONE); /* it says of each size that is not compiled that it takes two that are */
    pixDestroy(&from);
    pixDestroy(&to);
    pixDestroy(&middle);
    selDestroy(&sel);
    from = pix_of(w, h, source), to = pixCreate(w, h, 1), middle = pixCreate(w, h, 1);
    sel = selCreate(element[1], element[0], "element");
    selSetOrigin(sel, element[3], element[2]);
    wide = element[0], high = element[1], full = 1;
    for (int r = 0; r < high; r++)
        for (int c = 0; c < wide; c++)
            if (element[4 + r * ((wide + 7) / 8) + c / 8] >> (7 - c % 8) & 1) selSetElement(sel, r, c, SEL_HIT);
            else full = 0;
}

void leptonica_run(char way) {
    if (way == 'e') pixErode(to, from, sel);
    else if (way == 'd') pixDilate(to, from, sel);
    else if (way == 'b') pixClose(to, from, sel);
    else if (way == 'c') pixClose(to, from, sel);
    else if (way == 'g') pixDilate(to, from, sel);
    else pixOpen(to, from, sel);
    if (way == 'w') pixSubtract(to, from, to);
    if (way == 'b') pixSubtract(to, to, from);
    if (way == 'g') {
        pixErode(middle, from, sel);
        pixSubtract(to, to, middle);
    }
}

/* its bricks are whole rectangles about their middle; each gives nothing where it does not know the size */
static int by(PIX *run(PIX *, PIX *, l_int32, l_int32)) { return full && run(to, from, wide, high) != 0; }

int leptonica_brick(char way) {
    return way == 'e' ? by(pixErodeBrick) : way == 'd' ? by(pixDilateBrick) : way == 'o' ? by(pixOpenBrick) : way == 'c' ? by(pixCloseBrick) : 0;
}

int leptonica_dwa(char way) {
    return way == 'e' ? by(pixErodeBrickDwa) : way == 'd' ? by(pixDilateBrickDwa) : way == 'o' ? by(pixOpenBrickDwa) : way == 'c' ? by(pixCloseBrickDwa) : 0;
}

void leptonica_result(uint8_t *target) {
    int w = pixGetWidth(to), h = pixGetHeight(to);
    memset(target, 0, (size_t)((w + 7) / 8 * h));
    for (int y = 0; y < h; y++)
        for (int x = 0; x < w; x++) {
            l_uint32 v = 0;
            pixGetPixel(to, x, y, &v);
            if (v) target[y * ((w + 7) / 8) + x / 8] |= (uint8_t)(128 >> x % 8);
        }
}

/* pixSeedfillBinary gives up after a fixed number of sweeps */
void leptonica_grow_prepare(int w, int h, const uint8_t *marker, const uint8_t *mask) {
    pixDestroy(&from);
    pixDestroy(&middle);
    from = pix_of(w, h, marker), middle = pix_of(w, h, mask);
}

void leptonica_grow(int aslant) {
    pixDestroy(&to);
    to = pixSeedfillBinary(0, from, middle, aslant ? 8 : 4);
}

void leptonica_grow_result(uint8_t *target) { leptonica_result(target); }
