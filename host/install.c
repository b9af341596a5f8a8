/* An installer's program: keeps the default element in the display's share of an element book and opens a picture by the bytes that the book hands back. It exits with 1 if an answer is not
 * the one that it expects. The lines from here to the end of `install` stand in docs/BOOK.md too. */
#include "qiksavlut.h"

#include <stdio.h>
#include <string.h>

/* begin */
static uint8_t book[QIK_BOOK_BYTES]; /* kept from one run to the next, in whatever memory the device has for it */

/* The default element: 31 cells, dx from 0 to 30, in one row. */
static const uint8_t leading[] = {31, 1, 0, 0, 0xff, 0xff, 0xff, 0xfe};

static int install(uint64_t w, uint64_t h, const uint8_t *source, size_t len, uint8_t *target, uint8_t *scratch) {
    uint64_t got = qik_display_get(book, sizeof book, 0);
    if (qik_get_number(got) == QIK_BOOK) /* no book yet, or a damaged one: whoever owns it starts it afresh */
        if (qik_book_start(book, sizeof book) != QIK_DONE) return 1;
    if (qik_get_number(got) != QIK_DONE) {
        if (qik_display_put(book, sizeof book, 0, leading, sizeof leading) != QIK_DONE) return 1;
        got = qik_display_get(book, sizeof book, 0);
    }
    /* the descriptor's own bytes in the book: good until the next put, remove or start */
    return qik_open1(w, h, source, len, book + qik_get_place(got), qik_get_length(got), target, len, scratch, len) != QIK_DONE;
}
/* end */

int main(void) {
    enum { W = 48, LEN = 6 };
    uint8_t source[LEN] = {0xff, 0xff, 0xff, 0xff, 0x0f, 0x80}, target[LEN], scratch[LEN];
    static const uint8_t opened[LEN] = {0xff, 0xff, 0xff, 0xff, 0, 0};
    int bad = 0;
    bad |= install(W, 1, source, LEN, target, scratch) || memcmp(target, opened, LEN) != 0;
    memset(target, 0, LEN);
    bad |= install(W, 1, source, LEN, target, scratch) || memcmp(target, opened, LEN) != 0; /* the second time it is there */

    /* 4 bytes of mark, 16 of lengths, then the display's descriptors */
    uint64_t got = qik_display_get(book, sizeof book, 0);
    printf("place %u, length %u\n", (unsigned)qik_get_place(got), (unsigned)qik_get_length(got));
    bad |= qik_get_place(got) != 20 || qik_get_length(got) != sizeof leading;

    /* bytes that the book gave are copied before they are put again: lent buffers do not overlap */
    uint8_t copy[8];
    memcpy(copy, book + qik_get_place(got), sizeof copy);
    bad |= qik_display_put(book, sizeof book, 3, copy, sizeof copy) != QIK_DONE;
    bad |= qik_get_number(qik_display_get(book, sizeof book, 8)) != QIK_ABSENT;
    bad |= qik_display_remove(book, sizeof book, 0) != QIK_DONE;
    bad |= qik_get_place(qik_display_get(book, sizeof book, 3)) != 20; /* it moved up */
    bad |= qik_display_tidy(book, sizeof book) != QIK_DONE;

    /* the export has its own numbers and its own room, and keeps the trailing element */
    static const uint8_t trailing[] = {31, 1, 30, 0, 0xff, 0xff, 0xff, 0xfe};
    bad |= qik_get_number(qik_export_get(book, sizeof book, 3)) != QIK_ABSENT;
    bad |= qik_export_put(book, sizeof book, 3, trailing, sizeof trailing) != QIK_DONE;
    bad |= qik_get_place(qik_export_get(book, sizeof book, 3)) != 1036;
    bad |= qik_get_place(qik_display_get(book, sizeof book, 3)) != 20;
    book[3] = 1; /* the version of a book that one party had alone */
    bad |= qik_get_number(qik_display_get(book, sizeof book, 3)) != QIK_BOOK;
    printf(bad ? "install: an answer is not the one that was expected\n" : "install: as expected\n");
    return bad;
}
