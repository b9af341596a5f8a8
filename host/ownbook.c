#include "ownbook.h"

#include <string.h>

int own_descriptor(const uint8_t *d, size_t len) {
    if (len < 4 || d[0] < 1 || d[0] > 64 || d[1] < 1 || d[1] > 64 || d[2] >= d[0] || d[3] >= d[1]) return 0;
    size_t row = d[0] / 8u + (d[0] % 8 != 0);
    if (len != 4 + d[1] * row) return 0;
    for (size_t y = 0; y < d[1]; y++)
        for (size_t x = d[0]; x < 8 * row; x++)
            if (d[4 + y * row + x / 8] & 128 >> x % 8) return 0;
    return 1;
}

/* ---- a plain map */

int own_map_put(struct own_map *m, uint64_t number, const uint8_t *d, size_t len) {
    size_t live = len;
    if (number >= OWN_NUMBERS) return 14;
    if (!own_descriptor(d, len)) return 4;
    for (int i = 0; i < OWN_NUMBERS; i++)
        if ((uint64_t)i != number) live += m->len[i];
    if (live > OWN_ROOM) return 13;
    m->len[number] = len;
    memcpy(m->bytes[number], d, len);
    return 0;
}

int own_map_get(const struct own_map *m, uint64_t number) { return number < OWN_NUMBERS && m->len[number] ? 0 : 14; }

int own_map_remove(struct own_map *m, uint64_t number) {
    int no = own_map_get(m, number);
    if (!no) m->len[number] = 0;
    return no;
}

/* ---- the book's bytes: the mark, and for each party the lengths, and the descriptors in number order with no gap */

static int share_read(const uint8_t *share, struct own_map *m) {
    size_t at = 2 * OWN_NUMBERS;
    for (int i = 0; i < OWN_NUMBERS; i++) {
        m->len[i] = share[2 * i] | (size_t)share[2 * i + 1] << 8;
        if (m->len[i] > OWN_SHARE - at) return 17;
        if (m->len[i] && !own_descriptor(share + at, m->len[i])) return 17;
        memcpy(m->bytes[i], share + at, m->len[i]);
        at += m->len[i];
    }
    return 0;
}

static uint8_t *share_of(uint8_t *book, int party) { return book + 4 + party * OWN_SHARE; }

int own_book_read(const uint8_t *book, size_t book_len, struct own_map m[OWN_PARTIES]) {
    static const uint8_t mark[] = {'E', 'B', 'K', OWN_VERSION};
    if (book_len < OWN_BOOK || memcmp(book, mark, 4) != 0) return 17;
    return share_read(book + 4, m) | share_read(book + 4 + OWN_SHARE, m + 1);
}

/* writes a map over a share, and gives where its last descriptor ends: what lies past it stays */
static size_t written(uint8_t *share, const struct own_map *m) {
    size_t at = 2 * OWN_NUMBERS;
    for (int i = 0; i < OWN_NUMBERS; i++) {
        share[2 * i] = (uint8_t)(m->len[i] & 255);
        share[2 * i + 1] = (uint8_t)(m->len[i] >> 8);
        memcpy(share + at, m->bytes[i], m->len[i]);
        at += m->len[i];
    }
    return at;
}

int own_book_start(uint8_t *book, size_t book_len) {
    if (book_len < OWN_BOOK) return 8;
    memset(book, 0, OWN_BOOK);
    memcpy(book, "EBK", 3);
    book[3] = OWN_VERSION;
    return 0;
}

int own_book_put(uint8_t *book, size_t book_len, int party, uint64_t number, const uint8_t *d, size_t len) {
    struct own_map m[OWN_PARTIES];
    int no = own_book_read(book, book_len, m);
    if (!no) no = own_map_put(&m[party], number, d, len);
    if (!no) written(share_of(book, party), &m[party]);
    return no;
}

int own_book_remove(uint8_t *book, size_t book_len, int party, uint64_t number) {
    struct own_map m[OWN_PARTIES];
    int no = own_book_read(book, book_len, m);
    if (!no) no = own_map_remove(&m[party], number);
    if (!no) written(share_of(book, party), &m[party]);
    return no;
}

int own_book_tidy(uint8_t *book, size_t book_len, int party) {
    struct own_map m[OWN_PARTIES];
    int no = own_book_read(book, book_len, m);
    if (!no) {
        uint8_t *share = share_of(book, party);
        for (size_t i = written(share, &m[party]); i < OWN_SHARE; i++) share[i] = 0;
    }
    return no;
}

struct own_found own_book_get(const uint8_t *book, size_t book_len, int party, uint64_t number) {
    struct own_map m[OWN_PARTIES];
    struct own_found f = {own_book_read(book, book_len, m), 0, 0};
    if (!f.number) f.number = own_map_get(&m[party], number);
    if (f.number) return f;
    f.place = 4 + (size_t)party * OWN_SHARE + 2 * OWN_NUMBERS;
    for (uint64_t i = 0; i < number; i++) f.place += m[party].len[i];
    f.len = m[party].len[number];
    return f;
}
