/* The library with a fault put in, to see that the comparison finds it: link with -Wl,--wrap=NAME for each function below. FAULT is one of document 01's
 * "errors a good engineer makes here", or one of request (i)'s: 1, dilating without turning the element; 2, starting the result as a copy of the source; 3, turning the padding over with the
 * rest of a row when complementing; 4, keeping the padding of a PBM file; or one of request (iv)'s: 5, a step aslant by the cross; or what request (v)
 * mends: 6, a height above 0 that raises a value of 0 in a weighted dilation. */
#include "qiksavlut.h"

#define CALL                                                                                                                                           \
    uint64_t w, uint64_t h, const uint8_t *source, size_t source_len, const uint8_t *element, size_t element_len, uint8_t *target, size_t target_len

uint32_t __real_qik_dilate1(CALL);
uint32_t __wrap_qik_dilate1(CALL);
uint32_t __real_qik_dilate8(CALL);
uint32_t __wrap_qik_dilate8(CALL);
uint64_t __real_qik_ech_read(const uint8_t *file, size_t file_len, uint8_t *target, size_t target_len);
uint64_t __wrap_qik_ech_read(const uint8_t *file, size_t file_len, uint8_t *target, size_t target_len);

uint64_t __real_qik_pbm_read(const uint8_t *file, size_t file_len, uint8_t *target, size_t target_len);
uint64_t __wrap_qik_pbm_read(const uint8_t *file, size_t file_len, uint8_t *target, size_t target_len);

uint32_t __real_qik_weighted_dilate(CALL);
uint32_t __wrap_qik_weighted_dilate(CALL);

uint32_t __wrap_qik_dilate1(CALL) {
    uint8_t about[516] = {0};
    if (FAULT == 1 && __real_qik_dilate1(w, h, source, source_len, element, element_len, target, target_len) == QIK_DONE) {
        size_t row = (element[0] + 7u) / 8;
        about[0] = element[0], about[1] = element[1];
        about[2] = (uint8_t)(element[0] - 1 - element[2]), about[3] = (uint8_t)(element[1] - 1 - element[3]);
        for (int r = 0; r < element[1]; r++)
            for (int c = 0; c < element[0]; c++) {
                int q = element[1] - 1 - r, p = element[0] - 1 - c;
                if (element[4 + (size_t)r * row + (size_t)(c / 8)] >> (7 - c % 8) & 1) about[4 + (size_t)q * row + (size_t)(p / 8)] |= (uint8_t)(128 >> p % 8);
            }
        element = about;
    }
    return __real_qik_dilate1(w, h, source, source_len, element, element_len, target, target_len);
}

uint32_t __wrap_qik_dilate8(CALL) {
    uint32_t answer = __real_qik_dilate8(w, h, source, source_len, element, element_len, target, target_len);
    for (size_t i = 0; FAULT == 2 && answer == QIK_DONE && i < source_len; i++)
        if (source[i] > target[i]) target[i] = source[i];
    return answer;
}

uint64_t __wrap_qik_ech_read(const uint8_t *file, size_t file_len, uint8_t *target, size_t target_len) {
    uint64_t answer = __real_qik_ech_read(file, file_len, target, target_len);
    uint32_t w = qik_read_w(answer);
    for (uint32_t y = 1; FAULT == 3 && answer > 255 && file[5] == 3 && w % 8 != 0 && y <= qik_read_h(answer); y++)
        target[y * ((w + 7) / 8) - 1] |= (uint8_t)(255 >> w % 8);
    return answer;
}

uint64_t __wrap_qik_pbm_read(const uint8_t *file, size_t file_len, uint8_t *target, size_t target_len) {
    uint64_t answer = __real_qik_pbm_read(file, file_len, target, target_len);
    uint32_t row = (qik_read_w(answer) + 7) / 8, len = row * qik_read_h(answer);
    for (uint32_t i = 0; FAULT == 4 && i < len; i++) target[i] |= file[file_len - len + i];
    return answer;
}

/* the two lent pictures are marker and mask here */
uint32_t __real_qik_reconstruct_cross(CALL);
uint32_t __wrap_qik_reconstruct_cross(CALL);

uint32_t __wrap_qik_reconstruct_cross(CALL) {
    return (FAULT == 5 ? qik_reconstruct_square : __real_qik_reconstruct_cross)(w, h, source, source_len, element, element_len, target, target_len);
}

uint32_t __wrap_qik_weighted_dilate(CALL) {
    uint32_t answer = __real_qik_weighted_dilate(w, h, source, source_len, element, element_len, target, target_len);
    if (FAULT != 6 || answer != QIK_DONE) return answer;
    const uint8_t *height = element + 4 + element[1] * ((element[0] + 7u) / 8);
    for (int y = 0; y < (int)h; y++)
        for (int x = 0; x < (int)w; x++)
            for (int r = 0; r < element[1]; r++)
                for (int c = 0; c < element[0]; c++) {
                    int u = x - (c - element[2]), v = y - (r - element[3]), g = height[r * element[0] + c];
                    if (g > 127 || u < 0 || u >= (int)w || v < 0 || v >= (int)h || source[v * (int)w + u] != 0) continue;
                    if (g > target[y * (int)w + x]) target[y * (int)w + x] = (uint8_t)g;
                }
    return answer;
}
