/* comparebook SEED ROUNDS: the element book of the library beside the independent one and beside two plain maps, over ROUNDS random histories of calls of both parties. The
 * answer, every byte of the buffer and those around it must be the same after each call; and on a book that was started and not damaged the answers, and the bytes that get gives, must be
 * those of the party's own map, whatever the other does. In some histories the book goes on in a longer or a shorter buffer, in some a byte is damaged, and some aim at FULL. The
 * same seed makes the same calls. It exits with 1 if anything differs, or if a number that a function can give was not met in 500 rounds or more. */
#include "chance.h"
#include "ownbook.h"
#include "qiksavlut.h"

#include <stdio.h>
#include <stdlib.h>
#include <string.h>

/* ---- the two books, with bytes around them that nobody may touch, and the map */

enum { AROUND = 16, MOST = OWN_BOOK + 300 };
static uint8_t memory[2][MOST + 2 * AROUND];
static uint8_t *const book = memory[0] + AROUND, *const own = memory[1] + AROUND;
static size_t book_len;
static struct own_map maps[OWN_PARTIES];
static int mapped; /* the book was started, and not damaged since */

/* the start, and each party's calls: those of the export stand after those of the display */
enum { START, PUT, REMOVE, TIDY, GET, CALLS = 1 + 2 * GET };
static const char *const call_name[CALLS] = {"book_start", "display_put", "display_remove", "display_tidy", "display_get",
                                             "export_put", "export_remove", "export_tidy", "export_get"};
static const int can[1 + GET][6] = {{0, 8, -1}, {0, 4, 13, 14, 17, -1}, {0, 14, 17, -1}, {0, 17, -1}, {0, 14, 17, -1}};
static long met[CALLS][18], calls[CALLS], differing[CALLS], damaged_books, moved_books;

static uint8_t element[600];
static size_t element_len;

static void some_element(void) {
    int w = 1, h = 1;
    switch (below(7)) {
    case 0: w = from_to(1, 64), h = from_to(1, 64); break;
    case 1: w = h = 32; break;
    case 2: w = from_to(25, 32), h = from_to(16, 20); break;
    case 3: w = from_to(1, 65); break;
    case 4: h = from_to(1, 65); break;
    case 5: w = from_to(60, 64), h = from_to(60, 64); break;
    default: w = from_to(1, 32), h = from_to(1, 32);
    }
    size_t row = (size_t)(w + 7) / 8;
    element_len = 4 + (size_t)h * row;
    element[0] = (uint8_t)w, element[1] = (uint8_t)h, element[2] = (uint8_t)below(w), element[3] = (uint8_t)below(h);
    for (size_t i = 4; i < element_len; i++) element[i] = (uint8_t)draw();
    for (int y = 0; w % 8 && y < h; y++) element[4 + (size_t)y * row + row - 1] &= (uint8_t)(255 << (8 - w % 8));
    if (chance(12)) switch (below(5)) {
        case 0: element[below(4)] = (uint8_t)draw(); break;
        case 1: element_len = (size_t)below((int)element_len + 1); break;
        case 2: element[element_len++] = 0; break;
        case 3: element[element_len - 1] |= 1; break;
        default: element_len = 0;
        }
}

static uint64_t some_number(void) {
    static const uint64_t far[] = {OWN_NUMBERS, OWN_NUMBERS + 1, 255, 256, 65536, (uint64_t)1 << 32, (uint64_t)1 << 63, UINT64_MAX};
    return chance(8) ? far[below(8)] : (uint64_t)below(OWN_NUMBERS);
}

static void differs(int c, uint64_t seed, long round, int step, const char *what) {
    if (differing[c]++ < 5) printf("%s: %s differs, seed %llu, round %ld, step %d\n", call_name[c], what, (unsigned long long)seed, round, step);
}

/* one call on both books, and on the party's map */
static void compared(int what, int party, uint64_t number, uint64_t seed, long round, int step) {
    struct own_found f = {0, 0, 0};
    struct own_map *map = &maps[party];
    uint64_t answer;
    int c = what == START || party == OWN_DISPLAY ? what : what + GET, said, as_map = -1, is_map = mapped && book_len >= OWN_BOOK;
    switch (what) {
    case START:
        answer = qik_book_start(book, book_len), said = own_book_start(own, book_len);
        if (!said) memset(maps, 0, sizeof maps), mapped = 1;
        break;
    case PUT:
        answer = (party == OWN_DISPLAY ? qik_display_put : qik_export_put)(book, book_len, number, element, element_len);
        said = own_book_put(own, book_len, party, number, element, element_len);
        if (is_map) as_map = own_map_put(map, number, element, element_len);
        break;
    case REMOVE:
        answer = (party == OWN_DISPLAY ? qik_display_remove : qik_export_remove)(book, book_len, number);
        said = own_book_remove(own, book_len, party, number);
        if (is_map) as_map = own_map_remove(map, number);
        break;
    case TIDY:
        answer = (party == OWN_DISPLAY ? qik_display_tidy : qik_export_tidy)(book, book_len), said = own_book_tidy(own, book_len, party);
        if (is_map) as_map = 0;
        break;
    default:
        answer = (party == OWN_DISPLAY ? qik_display_get : qik_export_get)(book, book_len, number);
        f = own_book_get(own, book_len, party, number), said = f.number;
        if (qik_get_place(answer) != f.place || qik_get_length(answer) != f.len) differs(c, seed, round, step, "place or length");
        if (is_map) as_map = own_map_get(map, number);
        if (as_map == 0 && (f.len != map->len[number] || memcmp(book + f.place, map->bytes[number], f.len) != 0)) differs(c, seed, round, step, "what the map has");
        answer = said && answer != (uint64_t)said ? 255 : qik_get_number(answer);
    }
    calls[c]++, met[c][said]++;
    if (answer != (uint64_t)said) differs(c, seed, round, step, "the answer");
    if (as_map >= 0 && as_map != said) differs(c, seed, round, step, "the map's answer");
    if (memcmp(memory[0], memory[1], sizeof memory[0]) != 0) {
        differs(c, seed, round, step, "a byte");
        memcpy(memory[1], memory[0], sizeof memory[0]);
    }
}

/* the book goes on in a buffer of another length: the bytes past it are others, and only where it is cut does it lose some */
static void moved(void) {
    size_t len = chance(70) ? (size_t)(OWN_BOOK + below(MOST - OWN_BOOK + 1)) : chance(80) ? OWN_BOOK : (size_t)below(OWN_BOOK);
    for (size_t i = len < OWN_BOOK ? len : OWN_BOOK; i < MOST; i++) book[i] = (uint8_t)draw();
    if (len < OWN_BOOK) mapped = 0;
    book_len = len;
    memcpy(memory[1], memory[0], sizeof memory[0]);
    moved_books++;
}

/* one byte of the book becomes another, in the mark, in the lengths, in the descriptors or anywhere */
static void damaged(void) {
    int at = chance(25) ? below(4) : chance(60) ? 4 + below(OWN_PARTIES) * OWN_SHARE + below(2 * OWN_NUMBERS) : below(OWN_BOOK);
    book[at] ^= (uint8_t)(1 << below(8));
    own[at] = book[at];
    mapped = 0;
    damaged_books++;
}

/* seven of 132 bytes, which leave 76, and then elements of 72 to 80 bytes under the last number: some fit and some are too long. The other party's room is its own */
static void filled(int party, uint64_t seed, long round) {
    for (int n = 0; n < OWN_NUMBERS; n++) {
        do some_element();
        while (element_len != 132 || !own_descriptor(element, element_len));
        compared(PUT, party, (uint64_t)n, seed, round, -1);
        if (chance(20)) compared(PUT, 1 - party, (uint64_t)n, seed, round, -1);
    }
    for (int k = 0; k < 8; k++) {
        do some_element();
        while (element_len < 72 || element_len > 80 || !own_descriptor(element, element_len));
        compared(PUT, party, (uint64_t)(chance(70) ? OWN_NUMBERS - 1 : below(OWN_NUMBERS)), seed, round, -2);
        compared(GET, party, OWN_NUMBERS - 1, seed, round, -3);
        compared(GET, 1 - party, OWN_NUMBERS - 1, seed, round, -3);
    }
}

static void history(uint64_t seed, long round) {
    mapped = 0;
    for (size_t i = 0; i < sizeof memory[0]; i++) memory[0][i] = memory[1][i] = (uint8_t)draw();
    book_len = chance(60) ? OWN_BOOK : chance(80) ? (size_t)(OWN_BOOK + below(MOST - OWN_BOOK + 1)) : (size_t)(OWN_BOOK - 1 - below(chance(50) ? 3 : OWN_BOOK));
    if (chance(95)) compared(START, 0, 0, seed, round, 0);
    if (mapped && chance(25)) filled(below(OWN_PARTIES), seed, round);
    int puts = from_to(20, 70), steps = from_to(10, 60);
    for (int step = 1; step <= steps; step++) {
        if (chance(2)) moved();
        if (chance(2)) damaged();
        some_element();
        int k = below(100);
        compared(k < puts ? PUT : k < puts + 12 ? REMOVE : k < puts + 16 ? TIDY : k < 99 ? GET : START, below(OWN_PARTIES), some_number(), seed, round, step);
    }
    for (int party = 0; party < OWN_PARTIES; party++)
        for (uint64_t n = 0; n < OWN_NUMBERS; n++) compared(GET, party, n, seed, round, steps + 1);
}

int main(int argc, char **argv) {
    uint64_t seed = argc > 1 ? strtoull(argv[1], 0, 10) : 1;
    long rounds = argc > 2 ? strtol(argv[2], 0, 10) : 1000, unmet = 0, differ = 0, all = 0;
    for (long round = 0; round < rounds; round++) {
        state = seed * 1000003u + (uint64_t)round;
        history(seed, round);
    }
    for (int c = 0; c < CALLS; c++) {
        printf("%-16s %ld calls, %ld differ; answers", call_name[c], calls[c], differing[c]);
        for (int n = 0; n < 18; n++)
            if (met[c][n]) printf(" %d: %ld", n, met[c][n]);
        for (const int *n = can[c > GET ? c - GET : c]; *n >= 0 && rounds >= 500; n++)
            if (!met[c][*n]) unmet++, printf(" (%d was not met)", *n);
        putchar('\n');
        differ += differing[c], all += calls[c];
    }
    printf("comparebook: %ld histories, %ld calls, %ld books moved, %ld damaged; %ld differ; %ld numbers not met\n", rounds, all, moved_books, damaged_books, differ, unmet);
    return differ || unmet;
}
