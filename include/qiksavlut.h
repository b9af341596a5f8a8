/* Qiksavlut: the picture library of an ultrasonic level sensor, as a C program calls it.
 *
 * Pictures. A frame has w pings (columns, 1 to 1,024) and h range bins (rows, 1 to 256).
 *   one-bit: each row takes (w + 7) / 8 bytes; the first ping is the highest bit of the row's first byte; the unused low bits of its last
 *            byte are padding: whatever stands there in a source is ignored, and it is 0 in every target.
 *   8-bit:   w * h bytes, row after row, 0 is no echo.
 * A source has exactly the bytes of its picture. A target, a scratch or a work buffer has as many or more; its further bytes stay.
 *
 * Elements. A descriptor is: width and height (1 to 64 each), origin column, origin row, one byte each; then the cells, a one-bit picture
 * of width by height; nothing after. A weighted descriptor goes on with width * height heights, two's complement, -127 to 127, and 0 where
 * the cell is unset. A set cell is the offset (dx, dy) = (column - origin column, row - origin row).
 *
 * At the frame. A point beyond the frame counts as full when eroding and as empty when dilating.
 *
 * Answers. The number is QIK_DONE or the first refusal that holds, in the order of the comment at each function. A refusal changes no byte.
 *
 * Stack. A call takes at most so many bytes of it, on x86-64 and on aarch64, with all that it calls, whatever the input; beside it the lent buffers, and no other memory.
 *    1,824  qik_erode1 qik_dilate1 qik_open1 qik_close1 qik_white_tophat1 qik_black_tophat1 qik_gradient1
 *    4,096  qik_erode8 qik_dilate8 qik_open8 qik_close8 qik_white_tophat8 qik_black_tophat8 qik_gradient8
 *    3,424  qik_hit_or_miss
 *    3,968  qik_weighted_erode qik_weighted_dilate qik_weighted_open qik_weighted_close
 *    5,312  qik_check_chain
 *    5,472  qik_chain_erode1 qik_chain_dilate1 qik_chain_erode8 qik_chain_dilate8
 *    8,416  qik_find_chain
 *    1,152  qik_reconstruct_cross qik_reconstruct_square qik_size_spectrum
 *   82,480  qik_nesting
 *      256  qik_ech_read qik_ech_write qik_pbm_read qik_pgm_read qik_pbm_write qik_pgm_write
 *      320  qik_book_start qik_display_put qik_display_remove qik_display_tidy qik_display_get
 *      320  qik_export_put qik_export_remove qik_export_tidy qik_export_get
 *
 * Your one duty. The lent buffers of one call do not overlap, and each pointer has as many bytes as its length says. A pointer is never
 * null, not even of a buffer of 0 bytes. All other input, whatever it is, gets an answer. */
#ifndef QIKSAVLUT_H
#define QIKSAVLUT_H

#include <stddef.h>
#include <stdint.h>

/* The release: its first number moves where a program has to be changed. */
#define QIK_VERSION "1.0"

#ifdef __cplusplus
extern "C" {
#endif

enum qik_refusal {
    QIK_DONE = 0,
    QIK_SIZE = 1,    /* w or h outside its range */
    QIK_SOURCE = 2,  /* the source has not exactly the length that is needed */
    QIK_PAD = 3,     /* a padding bit of an ECH file's one-bit body is 1: of qik_ech_read alone */
    QIK_SHAPE = 4,   /* a descriptor breaks a rule, or bytes follow the last link */
    QIK_OVERLAP = 5, /* hit and miss share an offset */
    QIK_CHAIN = 6,   /* the number of links is not 1 to 5, or a link is above 8 x 8 */
    QIK_SPLIT = 7,   /* chain and element differ; the first offset at fault comes with it */
    QIK_ROOM = 8,    /* a target, scratch or work buffer is too short */
    QIK_FORM = 9,    /* a file under 10 bytes, or a wrong mark, version or kind */
    QIK_JOB = 10,    /* of the program echtext alone; no function here gives it */
    QIK_NETPBM = 11, /* the header of a PBM or PGM file is broken, or a PGM maximum is not 255 */
    QIK_MARKER = 12, /* a marker point lies outside the mask */
    QIK_FULL = 13,   /* no room in the element book for a descriptor beside those that stay */
    QIK_ABSENT = 14, /* the element book holds nothing under this number, or has no such number */
    QIK_RETIRED = 15, /* kind 3 of a file that is to be written: it is no longer made */
    QIK_NEST = 16,   /* a picture of more than 16,384 points or 255 regions, the outer one counted: its nesting is not listed */
    QIK_BOOK = 17,   /* the lent bytes are no element book, or are damaged */
    QIK_NOCHAIN = 18 /* no chain was found for an element; whether none exists comes with it */
};

/* Taking answers apart: qik_number, qik_dx and qik_dy any answer of 32 bits; the others the answer of a read. */

/* The refusal number of an answer; of a plain answer it is the answer itself. */
static inline uint32_t qik_number(uint32_t answer) { return answer & 255u; }

/* The dx of a SPLIT, -63 to 63; 0 of any other answer. */
static inline int qik_dx(uint32_t answer) { return (int)((answer >> 8 & 255u) ^ 128u) - 128; }

/* The dy of a SPLIT, -63 to 63; 0 of any other answer. */
static inline int qik_dy(uint32_t answer) { return (int)((answer >> 16 & 255u) ^ 128u) - 128; }

/* The refusal number of a read. */
static inline uint32_t qik_read_number(uint64_t answer) { return (uint32_t)(answer & 255u); }

/* The kind of the ECH file that was read: 1, or 2; of a file of kind 3, which is retired, 1. 0 of a refusal, and of a PBM or PGM file. */
static inline uint32_t qik_read_kind(uint64_t answer) { return (uint32_t)(answer >> 8 & 255u); }

/* The pings of the picture that was read; 0 of a refusal. */
static inline uint32_t qik_read_w(uint64_t answer) { return (uint32_t)(answer >> 16 & 65535u); }

/* The bins of the picture that was read; 0 of a refusal. */
static inline uint32_t qik_read_h(uint64_t answer) { return (uint32_t)(answer >> 32 & 65535u); }

/* The number of the answer of a get from the element book. */
static inline uint32_t qik_get_number(uint64_t answer) { return (uint32_t)(answer & 255u); }

/* The place of the descriptor's first byte in the lent book, so that book + place is the descriptor; 0 of a refusal. */
static inline uint32_t qik_get_place(uint64_t answer) { return (uint32_t)(answer >> 16 & 65535u); }

/* The descriptor's length; 0 of a refusal. */
static inline uint32_t qik_get_length(uint64_t answer) { return (uint32_t)(answer >> 32 & 65535u); }

/* The number of the answer of a nesting. */
static inline uint32_t qik_nest_number(uint64_t answer) { return (uint32_t)(answer & 255u); }

/* The regions of the picture, the outer one counted; 0 of a refusal. */
static inline uint32_t qik_nest_regions(uint64_t answer) { return (uint32_t)(answer >> 16 & 65535u); }

/* The number of an answer of qik_find_chain. */
static inline uint32_t qik_find_number(uint64_t answer) { return (uint32_t)(answer & 255u); }

/* Of one that is DONE, the links of the chain that was written, and its bytes. */
static inline uint32_t qik_find_links(uint64_t answer) { return qik_find_number(answer) == QIK_DONE ? (uint32_t)(answer >> 16 & 65535u) : 0; }
static inline uint32_t qik_find_bytes(uint64_t answer) { return (uint32_t)(answer >> 32 & 65535u); }

/* Of one that is NOCHAIN, whether the search gave up; where it did not, there is no chain. */
static inline int qik_find_gave_up(uint64_t answer) { return qik_find_number(answer) == QIK_NOCHAIN && (answer >> 16 & 65535u) == 1u; }

/* One-bit erosion: a point of target is set when source is set at point + offset for every offset that stays in the frame.
 * source: a one-bit picture, exactly. element: a descriptor, not weighted. target: room for the picture.
 * Answer: SIZE, SOURCE, SHAPE, ROOM in this order, or DONE with the picture in target. */
uint32_t qik_erode1(uint64_t w, uint64_t h, const uint8_t *source, size_t source_len, const uint8_t *element, size_t element_len,
                    uint8_t *target, size_t target_len);

/* One-bit dilation: a point of target is set when source is set at point - offset for some offset that stays in the frame.
 * Buffers and answer are those of qik_erode1. */
uint32_t qik_dilate1(uint64_t w, uint64_t h, const uint8_t *source, size_t source_len, const uint8_t *element, size_t element_len,
                     uint8_t *target, size_t target_len);

/* 8-bit erosion: the least of source at point + offset over the offsets that stay in the frame; 255 where there is none.
 * source: an 8-bit picture, exactly. element: a descriptor, not weighted. target: room for the picture.
 * Answer: SIZE, SOURCE, SHAPE, ROOM in this order, or DONE with the picture in target. */
uint32_t qik_erode8(uint64_t w, uint64_t h, const uint8_t *source, size_t source_len, const uint8_t *element, size_t element_len,
                    uint8_t *target, size_t target_len);

/* 8-bit dilation: the greatest of source at point - offset over the offsets that stay in the frame; 0 where there is none.
 * Buffers and answer are those of qik_erode8. */
uint32_t qik_dilate8(uint64_t w, uint64_t h, const uint8_t *source, size_t source_len, const uint8_t *element, size_t element_len,
                     uint8_t *target, size_t target_len);

/* One-bit opening: erosion, then dilation by the same element. What is narrower than the element goes.
 * Buffers as for qik_erode1; scratch: room for the picture too, and afterwards it holds the eroded picture.
 * Answer: SIZE, SOURCE, SHAPE, ROOM in this order, or DONE with the picture in target. */
uint32_t qik_open1(uint64_t w, uint64_t h, const uint8_t *source, size_t source_len, const uint8_t *element, size_t element_len,
                   uint8_t *target, size_t target_len, uint8_t *scratch, size_t scratch_len);

/* One-bit closing: dilation, then erosion by the same element. Gaps narrower than the element are filled.
 * Buffers and answer are those of qik_open1; scratch afterwards holds the dilated picture. */
uint32_t qik_close1(uint64_t w, uint64_t h, const uint8_t *source, size_t source_len, const uint8_t *element, size_t element_len,
                    uint8_t *target, size_t target_len, uint8_t *scratch, size_t scratch_len);

/* 8-bit opening: erosion, then dilation by the same element.
 * Buffers as for qik_erode8; scratch: room for the picture too, and afterwards it holds the eroded picture.
 * Answer: SIZE, SOURCE, SHAPE, ROOM in this order, or DONE with the picture in target. */
uint32_t qik_open8(uint64_t w, uint64_t h, const uint8_t *source, size_t source_len, const uint8_t *element, size_t element_len,
                   uint8_t *target, size_t target_len, uint8_t *scratch, size_t scratch_len);

/* 8-bit closing: dilation, then erosion by the same element.
 * Buffers and answer are those of qik_open8; scratch afterwards holds the dilated picture. */
uint32_t qik_close8(uint64_t w, uint64_t h, const uint8_t *source, size_t source_len, const uint8_t *element, size_t element_len,
                    uint8_t *target, size_t target_len, uint8_t *scratch, size_t scratch_len);

/* One-bit white top-hat: the source less its opening. What the opening takes away stays alone: short echoes.
 * Buffers and answer are those of qik_open1; scratch afterwards holds the eroded picture. */
uint32_t qik_white_tophat1(uint64_t w, uint64_t h, const uint8_t *source, size_t source_len, const uint8_t *element, size_t element_len,
                           uint8_t *target, size_t target_len, uint8_t *scratch, size_t scratch_len);

/* One-bit black top-hat: the closing less the source. What the closing fills stays alone: short gaps.
 * Buffers and answer are those of qik_open1; scratch afterwards holds the dilated picture. */
uint32_t qik_black_tophat1(uint64_t w, uint64_t h, const uint8_t *source, size_t source_len, const uint8_t *element, size_t element_len,
                           uint8_t *target, size_t target_len, uint8_t *scratch, size_t scratch_len);

/* One-bit gradient: the points that the dilation has and the erosion has not. Edges stay alone.
 * Buffers and answer are those of qik_open1; scratch afterwards holds the eroded picture. */
uint32_t qik_gradient1(uint64_t w, uint64_t h, const uint8_t *source, size_t source_len, const uint8_t *element, size_t element_len,
                       uint8_t *target, size_t target_len, uint8_t *scratch, size_t scratch_len);

/* 8-bit white top-hat: the source less its opening, which is never the greater.
 * Buffers and answer are those of qik_open8; scratch afterwards holds the eroded picture. */
uint32_t qik_white_tophat8(uint64_t w, uint64_t h, const uint8_t *source, size_t source_len, const uint8_t *element, size_t element_len,
                           uint8_t *target, size_t target_len, uint8_t *scratch, size_t scratch_len);

/* 8-bit black top-hat: the closing less the source, which is never the greater.
 * Buffers and answer are those of qik_open8; scratch afterwards holds the dilated picture. */
uint32_t qik_black_tophat8(uint64_t w, uint64_t h, const uint8_t *source, size_t source_len, const uint8_t *element, size_t element_len,
                           uint8_t *target, size_t target_len, uint8_t *scratch, size_t scratch_len);

/* 8-bit gradient: the dilation less the erosion, held at 0: by an element whose origin cell is unset the erosion can be the greater.
 * Buffers and answer are those of qik_open8; scratch afterwards holds the eroded picture. */
uint32_t qik_gradient8(uint64_t w, uint64_t h, const uint8_t *source, size_t source_len, const uint8_t *element, size_t element_len,
                       uint8_t *target, size_t target_len, uint8_t *scratch, size_t scratch_len);

/* Hit-or-miss of a one-bit picture: a point is set when source eroded by hit has it and source's complement, within the frame, eroded by
 * miss has it. source: a one-bit picture, exactly. hit, miss: descriptors, not weighted, with no offset in common. target: room for the picture.
 * Answer: SIZE, SOURCE, SHAPE (of hit, then of miss), OVERLAP, ROOM in this order, or DONE with the picture in target. */
uint32_t qik_hit_or_miss(uint64_t w, uint64_t h, const uint8_t *source, size_t source_len, const uint8_t *hit, size_t hit_len,
                         const uint8_t *miss, size_t miss_len, uint8_t *target, size_t target_len);

/* Reconstruction by the cross: the marker grown by the 3 x 3 cross and cut by the mask, again and again until nothing changes. What comes is every point of the mask
 * that steps along rows and columns inside the mask join to a marker point: of a marker that an opening left, the full outline of each echo that survived.
 * marker, mask: one-bit pictures, exactly, and no marker point outside the mask; what stands in the padding of either is ignored. target: room for the picture;
 * no other buffer is needed.
 * Answer: SIZE, SOURCE (of marker, then of mask), MARKER, ROOM in this order, or DONE with the picture in target. */
uint32_t qik_reconstruct_cross(uint64_t w, uint64_t h, const uint8_t *marker, size_t marker_len, const uint8_t *mask, size_t mask_len,
                               uint8_t *target, size_t target_len);

/* Reconstruction by the square: the same, and steps aslant join too. Buffers and answer are those of qik_reconstruct_cross. */
uint32_t qik_reconstruct_square(uint64_t w, uint64_t h, const uint8_t *marker, size_t marker_len, const uint8_t *mask, size_t mask_len,
                                uint8_t *target, size_t target_len);

/* The size spectrum of a one-bit picture: how much of it is in small marks. counts[k - 1] is how many points survive opening by the square of side k, its origin at its upper
 * left cell, and not by side k + 1; counts[31] is how many survive side 32. A mark cut by the frame is judged by the frame rule: at the right and lower edge it counts as large.
 * The 32 counts sum to the picture's set points. source: a one-bit picture, exactly; what stands in its padding is ignored. counts: room for 32; further ones stay.
 * scratch: room for two pictures, which are left all 0; further bytes stay.
 * Answer: SIZE, SOURCE, ROOM (counts or scratch too short) in this order, or DONE with the counts in counts. */
uint32_t qik_size_spectrum(uint64_t w, uint64_t h, const uint8_t *source, size_t source_len, uint32_t *counts, size_t counts_len,
                           uint8_t *scratch, size_t scratch_len);

/* Weighted erosion of an 8-bit picture: the least of source at point + offset, less the offset's height, over the offsets that stay in the
 * frame, held to 0..255; 255 where there is none. A value of 255 contributes 255, whatever the height.
 * source: an 8-bit picture, exactly. element: a weighted descriptor. target: room for the picture.
 * Answer: SIZE, SOURCE, SHAPE, ROOM in this order, or DONE with the picture in target. */
uint32_t qik_weighted_erode(uint64_t w, uint64_t h, const uint8_t *source, size_t source_len, const uint8_t *element,
                            size_t element_len, uint8_t *target, size_t target_len);

/* Weighted dilation of an 8-bit picture: the greatest of source at point - offset, plus the offset's height, over the offsets that stay in
 * the frame, held to 0..255; 0 where there is none. A value of 0 contributes 0, whatever the height.
 * Buffers and answer are those of qik_weighted_erode. */
uint32_t qik_weighted_dilate(uint64_t w, uint64_t h, const uint8_t *source, size_t source_len, const uint8_t *element,
                             size_t element_len, uint8_t *target, size_t target_len);

/* Weighted opening: weighted erosion, then weighted dilation by the same element. No point of target exceeds the source's.
 * Buffers as for qik_weighted_erode; scratch: room for the picture too, and afterwards it holds the eroded picture.
 * Answer: SIZE, SOURCE, SHAPE, ROOM in this order, or DONE with the picture in target. */
uint32_t qik_weighted_open(uint64_t w, uint64_t h, const uint8_t *source, size_t source_len, const uint8_t *element, size_t element_len,
                           uint8_t *target, size_t target_len, uint8_t *scratch, size_t scratch_len);

/* Weighted closing: weighted dilation, then weighted erosion by the same element. No point of target falls below the source's.
 * Buffers and answer are those of qik_weighted_open; scratch afterwards holds the dilated picture. */
uint32_t qik_weighted_close(uint64_t w, uint64_t h, const uint8_t *source, size_t source_len, const uint8_t *element,
                            size_t element_len, uint8_t *target, size_t target_len, uint8_t *scratch, size_t scratch_len);

/* Whether the chain does what the element does on every picture in every frame.
 * element: a descriptor, not weighted. chain: the descriptors of the links, one after another, each at most 8 x 8; links: their number, 1 to 5.
 * An element whose set cells span more than 36 columns or 36 rows has no chain that is accepted; unset cells beside them do not count.
 * Answer: SHAPE of the element; CHAIN for the number; of each link in turn SHAPE, then CHAIN; SHAPE where bytes follow the last link; SPLIT; or DONE.
 * The answer is packed, number + 256 * (dx mod 256) + 65536 * (dy mod 256): qik_number, qik_dx and qik_dy take it apart. Of a SPLIT dx and dy are the
 * first offset at fault, lesser dy first, then lesser dx; of any other answer they are 0, so that it is the plain number. */
uint32_t qik_check_chain(const uint8_t *element, size_t element_len, uint64_t links, const uint8_t *chain, size_t chain_len);

/* A chain for an element: links that qik_check_chain accepts, so that they do what the element does on every picture in every frame.
 * element: a descriptor, not weighted. chain: room for the links' descriptors, one after another; 60 bytes are always enough, and further bytes stay.
 * Answer: SHAPE, NOCHAIN, ROOM in this order, or DONE: number + 65536·links + 4294967296·bytes, which qik_find_number, qik_find_links and qik_find_bytes take apart. NOCHAIN is
 * 18 where no chain exists and 18 + 65536 where the search gave up (qik_find_gave_up): docs/HOST.md says what it covers. */
uint64_t qik_find_chain(const uint8_t *element, size_t element_len, uint8_t *chain, size_t chain_len);

/* One-bit erosion by a chain: erodes by each link in turn, which gives the erosion by the element.
 * source: a one-bit picture, exactly. element, links, chain: as for qik_check_chain. first, second: room for the picture each, even for one link.
 * Answer, packed as that of qik_check_chain: SIZE, SOURCE, then what the check refuses, ROOM, or DONE. Results 1, 3 and 5 are in
 * first, 2 and 4 in second: the last is in first where links is odd and in second where it is even. With one link second is untouched. */
uint32_t qik_chain_erode1(uint64_t w, uint64_t h, const uint8_t *source, size_t source_len, const uint8_t *element, size_t element_len,
                          uint64_t links, const uint8_t *chain, size_t chain_len, uint8_t *first, size_t first_len, uint8_t *second,
                          size_t second_len);

/* One-bit dilation by a chain. Buffers and answer are those of qik_chain_erode1. */
uint32_t qik_chain_dilate1(uint64_t w, uint64_t h, const uint8_t *source, size_t source_len, const uint8_t *element, size_t element_len,
                           uint64_t links, const uint8_t *chain, size_t chain_len, uint8_t *first, size_t first_len, uint8_t *second,
                           size_t second_len);

/* 8-bit erosion by a chain. Buffers and answer are those of qik_chain_erode1, but for source, an 8-bit picture. */
uint32_t qik_chain_erode8(uint64_t w, uint64_t h, const uint8_t *source, size_t source_len, const uint8_t *element, size_t element_len,
                          uint64_t links, const uint8_t *chain, size_t chain_len, uint8_t *first, size_t first_len, uint8_t *second,
                          size_t second_len);

/* 8-bit dilation by a chain. Buffers and answer are those of qik_chain_erode8. */
uint32_t qik_chain_dilate8(uint64_t w, uint64_t h, const uint8_t *source, size_t source_len, const uint8_t *element, size_t element_len,
                           uint64_t links, const uint8_t *chain, size_t chain_len, uint8_t *first, size_t first_len, uint8_t *second,
                           size_t second_len);

/* Which echo lies inside which: the regions of a one-bit picture. Echoes are joined by their 8 neighbours, background by 4, and all background at the frame's edge is
 * one outer region, with what lies beyond. A region lies in the one left of its first point in row order, at the left edge in the outer one. The listing goes from
 * the outer region, which comes first even where it has no points, to the echoes in it, from an echo to its holes, and so on, by first point, each with all that is
 * inside it before the next. source: a one-bit picture, exactly. list: two numbers for each region, list[2 * i] its depth, 0 for the outer one, and list[2 * i + 1]
 * its points, which sum to w * h; list_len counts numbers, an odd last one is no place, and further ones stay. 510 are enough for any picture that is listed.
 * Answer: SIZE, SOURCE, NEST, ROOM in this order, or DONE with the listing. It is packed, number + 65536 * regions, and the plain number where it is refused:
 * qik_nest_number and qik_nest_regions take it apart. The labels of the points stand on the stack, 32 KB: the call takes at most 82,480 bytes of it
 * on x86-64 and 78,384 on aarch64, of which 192 and 176 go to each of 255 regions that could lie one in another. */
uint64_t qik_nesting(uint64_t w, uint64_t h, const uint8_t *source, size_t source_len, uint32_t *list, size_t list_len);

/* Reads an ECH file, version 1. file: the whole file. target: room for its picture.
 * Answer: FORM, SIZE, SOURCE (the body's length), PAD, ROOM in this order, or DONE with the picture in target. It is packed, number + 256 * kind
 * + 65536 * w + 4294967296 * h, and the plain number where the file is refused: qik_read_number, qik_read_kind, qik_read_w and qik_read_h take it apart.
 * A file of kind 3 (retired: one-bit, stored turned over, padding 0 as stored) is still read: target gets the ordinary one-bit picture, and the kind is 1. */
uint64_t qik_ech_read(const uint8_t *file, size_t file_len, uint8_t *target, size_t target_len);

/* Writes an ECH file, version 1, of kind 1 (one-bit) or 2 (8-bit).
 * source: the picture, exactly; for kind 3 judged as a one-bit picture. target: room for 10 bytes and the picture.
 * Answer: FORM for a kind that there never was, then SIZE, SOURCE, RETIRED (kind 3 is no longer made), ROOM in this order, or DONE with the file in target. */
uint32_t qik_ech_write(uint64_t kind, uint64_t w, uint64_t h, const uint8_t *source, size_t source_len, uint8_t *target,
                       size_t target_len);

/* Reads a raw PBM file, P4. file: the whole file, with one picture and nothing after it. target: room for the picture. A bit 1, which is black, is an echo; the
 * padding of the rows may be anything, and is 0 in target. White space and comments are those of Netpbm's pages: a comment goes from # through the next line feed or
 * carriage return, wherever it stands before the raster, and its line end ends nothing; exactly one white space stands before the raster.
 * Answer: NETPBM, SIZE, SOURCE (the raster's length), ROOM in this order, or DONE with the picture in target. It is packed, number + 65536 * w + 4294967296 * h,
 * and the plain number where the file is refused: qik_read_number, qik_read_w and qik_read_h take it apart. */
uint64_t qik_pbm_read(const uint8_t *file, size_t file_len, uint8_t *target, size_t target_len);

/* Reads a raw PGM file, P5, with the maximum 255: the values are the strengths. Buffers and answer are those of qik_pbm_read. */
uint64_t qik_pgm_read(const uint8_t *file, size_t file_len, uint8_t *target, size_t target_len);

/* Writes a raw PBM file: P4, a line feed, w, a space, h, a line feed, the picture. source: a one-bit picture, exactly. target: room for the file, at most
 * 12 bytes and the picture. Answer: SIZE, SOURCE, ROOM in this order, or DONE with the file in target. */
uint32_t qik_pbm_write(uint64_t w, uint64_t h, const uint8_t *source, size_t source_len, uint8_t *target, size_t target_len);

/* Writes a raw PGM file: P5, a line feed, w, a space, h, a line feed, 255, a line feed, the picture. source: an 8-bit picture, exactly. target: room for the
 * file, at most 16 bytes and the picture. Answer: SIZE, SOURCE, ROOM in this order, or DONE with the file in target. */
uint32_t qik_pgm_write(uint64_t w, uint64_t h, const uint8_t *source, size_t source_len, uint8_t *target, size_t target_len);

/* The element book: descriptors of the display and of the export, each under its own numbers 0 to 7 and with its own 1,000 bytes, in one lent buffer of at least QIK_BOOK_BYTES
 * bytes. docs/BOOK.md has its layout. Bytes past QIK_BOOK_BYTES are never read nor written, and a book may be lent in a longer buffer or, later, in a shorter one, down to QIK_BOOK_BYTES. */
#define QIK_BOOK_BYTES 2036

/* Starts a book that holds nothing for either, whatever the bytes were.
 * Answer: ROOM where the buffer is too short, or DONE with QIK_BOOK_BYTES bytes of book written. */
uint32_t qik_book_start(uint8_t *book, size_t book_len);

/* Keeps a descriptor under a number of the display, in the place of what the number held. element: a descriptor, not weighted, and not a part of book.
 * Answer: BOOK, ABSENT for a number above 7, SHAPE, FULL where the display's other descriptors and this one would exceed 1,000 bytes, in this order, or DONE. */
uint32_t qik_display_put(uint8_t *book, size_t book_len, uint64_t number, const uint8_t *element, size_t element_len);

/* Gives up what a number of the display holds. Answer: BOOK, ABSENT, or DONE. */
uint32_t qik_display_remove(uint8_t *book, size_t book_len, uint64_t number);

/* Sets to 0 the bytes of the display's share that hold nothing. It moves nothing, and changes no answer. Answer: BOOK, or DONE. */
uint32_t qik_display_tidy(uint8_t *book, size_t book_len);

/* Where the descriptor that a number of the display holds lies in the book: its bytes are an element for any call, until the display's next put or remove, or a start.
 * Answer: BOOK, ABSENT, or DONE. It is packed, number + 65536 * place + 4294967296 * length, and the plain number where it is refused:
 * qik_get_number, qik_get_place and qik_get_length take it apart. place counts from the start of the whole buffer. */
uint64_t qik_display_get(const uint8_t *book, size_t book_len, uint64_t number);

/* The same for the export: its own numbers, its own 1,000 bytes. Nothing that one of the two does changes an answer or a descriptor of the other. */
uint32_t qik_export_put(uint8_t *book, size_t book_len, uint64_t number, const uint8_t *element, size_t element_len);
uint32_t qik_export_remove(uint8_t *book, size_t book_len, uint64_t number);
uint32_t qik_export_tidy(uint8_t *book, size_t book_len);
uint64_t qik_export_get(const uint8_t *book, size_t book_len, uint64_t number);

#ifdef __cplusplus
}
#endif

#endif
