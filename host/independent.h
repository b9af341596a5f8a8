/* The independent implementation: document 01 in plain C, point by point, for the comparison. It shares no code and no table with the library, and it is
 * made to be read beside document 01, not to be fast. The depth is 1 or 8; the way is 'e', 'd', 'o' or 'c' as in echtext, or 'w', 'b' or 'g' for white top-hat, black top-hat and
 * gradient, of flat elements. */
#ifndef INDEPENDENT_H
#define INDEPENDENT_H

#include <stddef.h>
#include <stdint.h>

/* lent bytes */
struct lent {
    uint8_t *at;
    size_t len;
};

/* number, dx and dy of an answer */
struct told {
    int number, dx, dy;
};

/* what a read of a file gives */
struct file_told {
    int number, kind;
    unsigned w, h;
};

int own_flat(int depth, char way, uint64_t w, uint64_t h, struct lent source, struct lent element, struct lent target, struct lent scratch);
int own_weighted(char way, uint64_t w, uint64_t h, struct lent source, struct lent element, struct lent target, struct lent scratch);
int own_hit_or_miss(uint64_t w, uint64_t h, struct lent source, struct lent hit, struct lent miss, struct lent target);

/* Request (iv): a flood fill with a queue. aslant: the square's eight neighbours, and else the cross's four. */
int own_reconstruct(int aslant, uint64_t w, uint64_t h, struct lent marker, struct lent mask, struct lent target);

/* By frames: an offset is a sum when a lone echo, dilated link by link in a frame with room on all sides, comes to it; and it has a path when the same is so in
 * the frame that has just the echo and the offset as its corners. */
struct told own_check_chain(struct lent element, uint64_t links, struct lent chain);

/* By choices: every choice of one offset from each link, one after another. The same answer, told in another way; for chains with few choices. */
struct told own_check_chain_by_choices(struct lent element, uint64_t links, struct lent chain);

/* How many choices a chain has: the product of the numbers of its links' set cells; 0 where it is refused before. */
double own_choices(struct lent element, uint64_t links, struct lent chain);

struct told own_chained(int depth, char way, uint64_t w, uint64_t h, struct lent source, struct lent element, uint64_t links, struct lent chain,
                        struct lent first, struct lent second);

/* The finder: the part of first or of second that holds the last picture. */
struct lent own_last_picture(struct lent first, struct lent second, int depth, uint64_t w, uint64_t h, uint64_t links);

struct file_told own_ech_read(struct lent file, struct lent target);
int own_ech_write(uint64_t kind, uint64_t w, uint64_t h, struct lent source, struct lent target);

/* Raw PBM (depth 1) and raw PGM (depth 8): the bytes that count are listed first, comments left out, and the header is read from that list. */
struct file_told own_pnm_read(int depth, struct lent file, struct lent target);
int own_pnm_write(int depth, uint64_t w, uint64_t h, struct lent source, struct lent target);

/* The text that echtext prints of a job, and its length. text has room for OWN_MOST_TEXT bytes. */
#define OWN_MOST_TEXT (64 + 256 * 1024 * 4)
size_t own_echtext(const uint8_t *job, size_t job_len, char *text);

#endif
