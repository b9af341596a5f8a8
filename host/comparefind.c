/* comparefind SEED ROUNDS: the search for a chain beside the independent one, over ROUNDS random elements: rectangles, single cells, boxes with their corners cut, small elements of any cells,
 * chains of twelve kinds multiplied out, elements too far apart, and damaged descriptors. Number, links, bytes, whether the search gave up, and every byte of the buffer and around it must be the same, and
 * the check must accept what is found. It says how many of the chains that were multiplied out were found again. The same seed makes the same calls. It exits with 1 if anything differs,
 * if a rectangle within reach is not found, or if an outcome was not met in 100 rounds or more. */
#include "chance.h"
#include "ownfind.h"
#include "qiksavlut.h"

#include <stdio.h>
#include <stdlib.h>
#include <string.h>

enum { AROUND = 16, ROOM = 80, CELLS = 64 };
static uint8_t memory[2][ROOM + 2 * AROUND], element[4 + 64 * 8 + 1], set[CELLS][CELLS];
static size_t element_len;

/* the descriptor of w x h cells of `set` */
static void describe(int w, int h, int column, int row) {
    size_t bytes = (size_t)(w + 7) / 8;
    element_len = 4 + (size_t)h * bytes;
    memset(element, 0, sizeof element);
    element[0] = (uint8_t)w, element[1] = (uint8_t)h, element[2] = (uint8_t)column, element[3] = (uint8_t)row;
    for (int y = 0; y < h; y++)
        for (int x = 0; x < w; x++)
            if (set[y][x]) element[4 + (size_t)y * bytes + (size_t)x / 8] |= (uint8_t)(128 >> x % 8);
}

/* a box from column c to d and from row r to s, its corners cut */
static void boxed(int c, int d, int r, int s, const int cut[4]) {
    memset(set, 0, sizeof set);
    for (int y = r; y <= s; y++)
        for (int x = c; x <= d; x++)
            set[y][x] = x - c + y - r >= cut[0] && d - x + y - r >= cut[1] && x - c + s - y >= cut[2] && d - x + s - y >= cut[3];
}

/* ---- chains multiplied out */

struct link {
    int w, h, column, row;
    uint8_t set[8][8];
};

enum { ANY_BOX, CUT_ALIKE, ANY_3, RUN, PAIR, TRIPLE, CROSS, ASLANT, CORNER, ANY_5, CUT_BOX, MIXED };

/* the cells of a link of this kind in the upper left of 8 x 8 */
static void some_cells(int kind, int half, int cut, struct link *l) {
    int w = from_to(1, 8), h = from_to(1, 8), aslant = chance(50), four[4], n = from_to(1, 3);
    memset(l, 0, sizeof *l);
    switch (kind) {
    case MIXED: some_cells((int[]){ANY_BOX, RUN, PAIR, TRIPLE, CROSS, ASLANT, CORNER, CUT_BOX}[below(8)], half, cut, l); return;
    case CUT_ALIKE: w = h = 2 * half + 1; break;
    case ANY_3: w = from_to(1, 3), h = from_to(1, 3); break;
    case ANY_5: w = from_to(1, 5), h = from_to(1, 5); break;
    case RUN: if (aslant) w = 1; else h = 1; break;
    case CROSS: w = h = 2 * n + 1; break;
    case ASLANT: w = h = from_to(2, 8); break;
    case CUT_BOX: w = from_to(3, 8), h = from_to(3, 8); break;
    default: break;
    }
    for (int i = 0; i < 4; i++) four[i] = below((w < h ? w : h) / 2 + 1);
    for (int r = 0; r < h; r++)
        for (int c = 0; c < w; c++) {
            int dx = c < w - 1 - c ? c : w - 1 - c, dy = r < h - 1 - r ? r : h - 1 - r;
            l->set[r][c] = (uint8_t)(kind == CUT_ALIKE ? dx + dy >= cut
                                     : kind == ANY_3   ? chance(60)
                                     : kind == ANY_5   ? chance(50)
                                     : kind == CROSS   ? r == n || c == n
                                     : kind == ASLANT  ? c == (aslant ? r : w - 1 - r)
                                     : kind == CORNER  ? r == 0 || c == 0
                                     : kind == CUT_BOX ? c + r >= four[0] && w - 1 - c + r >= four[1] && c + h - 1 - r >= four[2] && w - 1 - c + h - 1 - r >= four[3]
                                                       : kind != PAIR && kind != TRIPLE);
        }
    if (kind == PAIR || kind == TRIPLE)
        for (int i = PAIR - 2; i < kind; i++) l->set[below(8)][below(8)] = 1;
}

static struct link some_link(int kind, int half, int cut) {
    struct link l, t = {0, 0, 0, 0, {{0}}};
    int left, right, top, bottom;
    do {
        some_cells(kind, half, cut, &l);
        left = top = 8, right = bottom = -1;
        for (int r = 0; r < 8; r++)
            for (int c = 0; c < 8; c++)
                if (l.set[r][c]) left = c < left ? c : left, right = c > right ? c : right, top = r < top ? r : top, bottom = r;
    } while (right < 0);
    t.w = right - left + 1, t.h = bottom - top + 1;
    for (int r = 0; r < t.h; r++) for (int c = 0; c < t.w; c++) t.set[r][c] = l.set[top + r][left + c];
    return t;
}

/* the links' own descriptors, and whether the check accepts them */
static int passes(const struct link *link, int links) {
    uint8_t bytes[60], *to = bytes;
    for (int i = 0; i < links; i++) {
        *to++ = (uint8_t)link[i].w, *to++ = (uint8_t)link[i].h, *to++ = (uint8_t)link[i].column, *to++ = (uint8_t)link[i].row;
        for (int r = 0; r < link[i].h; r++, to++) {
            *to = 0;
            for (int c = 0; c < link[i].w; c++) *to = (uint8_t)(*to | link[i].set[r][c] << (7 - c));
        }
    }
    return qik_check_chain(element, element_len, (uint64_t)links, bytes, (size_t)(to - bytes)) == 0;
}

static void multiply(const struct link *link, int links) {
    static uint8_t sum[2][CELLS][CELLS];
    int w = 1, h = 1, column = 0, row = 0;
    memset(sum, 0, sizeof sum);
    sum[0][0][0] = 1;
    for (int i = 0; i < links; i++) {
        const struct link *l = &link[i];
        memset(sum[1], 0, sizeof sum[1]);
        for (int y = 0; y < h; y++)
            for (int x = 0; x < w; x++)
                for (int r = 0; sum[0][y][x] && r < l->h; r++)
                    for (int c = 0; c < l->w; c++) sum[1][y + r][x + c] |= l->set[r][c];
        memcpy(sum[0], sum[1], sizeof sum[0]);
        w += l->w - 1, h += l->h - 1, column += l->column, row += l->row;
    }
    memcpy(set, sum[0], sizeof set);
    describe(w, h, column, row);
}

/* links whose chain the check accepts, multiplied out to more than 8 columns or rows: with their origins in the middle, in a cell, or, where neither passes, in the upper left corner */
static void multiplied(int kind) {
    struct link link[5];
    for (int try = 0;; try++) {
        int links = from_to(2, 5), half = from_to(1, 3), cut = below(half + 1), way = try < 8 ? below(3) : 0;
        for (int i = 0; i < links; i++) {
            struct link *l = &link[i];
            *l = some_link(kind, half, cut);
            if (way == 1 || kind == CUT_ALIKE) l->column = l->w / 2, l->row = l->h / 2;
            else if (way == 2) do l->column = below(l->w), l->row = below(l->h); while (!l->set[l->row][l->column]);
        }
        multiply(link, links);
        if ((element[0] > 8 || element[1] > 8 || try > 40) && passes(link, links)) return;
    }
}

/* ---- the comparison */

enum { RECTANGLE, FAR_RECTANGLE, CELL, CUT, SMALL, LARGE, DAMAGED, BOXES, KINDS = BOXES + MIXED + 1 };
static const char *const kind_name[KINDS] = {"rectangle in reach",  "any rectangle",   "single cell",         "box with cut corners", "8 x 8 at the most", "any cells", "damaged", "boxes multiplied", "boxes cut alike",
                                             "any cells, to 3 x 3", "runs",            "two cells",           "three cells",          "crosses",           "lines aslant", "corners", "any cells, to 5 x 5", "cut boxes", "of all these"};
static long met[5], drawn[KINDS], found[KINDS], differ;

static void some_element(int kind) {
    static const int uncut[4] = {0, 0, 0, 0};
    int w, h;
    switch (kind) {
    case RECTANGLE:
        w = from_to(1, 36), h = chance(40) ? 1 : from_to(1, 36);
        boxed(0, w - 1, 0, h - 1, uncut), describe(w, h, below(w), below(h));
        break;
    case FAR_RECTANGLE: {
        w = from_to(1, 64), h = from_to(1, 64);
        int c = below(w), r = below(h);
        boxed(c, from_to(c, w - 1), r, from_to(r, h - 1), uncut), describe(w, h, below(w), below(h));
        break;
    }
    case CELL:
        w = from_to(1, 64), h = from_to(1, 64);
        memset(set, 0, sizeof set), set[below(h)][below(w)] = 1, describe(w, h, below(w), below(h));
        break;
    case CUT: {
        int n = from_to(3, 36), cut = below((n + 1) / 2 + 1), four[4] = {cut, cut, cut, cut};
        if (chance(30)) for (int i = 0; i < 4; i++) four[i] = below(n / 2 + 1);
        boxed(0, n - 1, 0, n - 1, four), describe(n, n, chance(70) ? n / 2 : below(n), chance(70) ? n / 2 : below(n));
        break;
    }
    case SMALL:
        memset(set, 0, sizeof set);
        w = from_to(1, 8), h = from_to(1, 8);
        for (int y = 0; y < h; y++) for (int x = 0; x < w; x++) set[y][x] = (uint8_t)chance(50);
        describe(w, h, below(w), below(h));
        break;
    default:
        if (kind >= BOXES) {
            multiplied(kind - BOXES);
            break;
        }
        memset(set, 0, sizeof set);
        w = from_to(1, 64), h = from_to(1, 64);
        for (int y = 0; y < h; y++) for (int x = 0; x < w; x++) set[y][x] = (uint8_t)chance(50);
        describe(w, h, below(w), below(h));
        if (kind == DAMAGED) switch (below(4)) {
            case 0: element[below(4)] = (uint8_t)draw(); break;
            case 1: element_len = (size_t)below((int)element_len); break;
            case 2: element_len++; break;
            default: element[element_len - 1] ^= 1;
            }
    }
}

static void compared(int kind, uint64_t seed, long round) {
    for (size_t i = 0; i < sizeof memory[0]; i++) memory[0][i] = memory[1][i] = (uint8_t)draw();
    size_t room = chance(70) ? ROOM : (size_t)below(ROOM + 1);
    uint64_t said = qik_find_chain(element, element_len, memory[0] + AROUND, room);
    struct own_found own = own_find_chain(element, element_len, memory[1] + AROUND, room);
    int number = (int)qik_find_number(said), links = (int)qik_find_links(said), bytes = (int)qik_find_bytes(said), gave_up = qik_find_gave_up(said);
    int same = number == own.number && links == own.links && bytes == own.bytes && gave_up == own.gave_up && memcmp(memory[0], memory[1], sizeof memory[0]) == 0;
    if (number == 0 && qik_check_chain(element, element_len, (uint64_t)links, memory[0] + AROUND, (size_t)bytes) != 0) same = 0;
    if (kind == RECTANGLE && number != 0 && number != 8) same = 0;
    if (!same) {
        printf("seed %llu, round %ld, %s: %d, %d links, %d bytes, %d; the independent search says %d, %d, %d, %d\n", (unsigned long long)seed, round, kind_name[kind], number, links, bytes,
               gave_up, own.number, own.links, own.bytes, own.gave_up);
        differ++;
    }
    met[number == 0 ? 0 : number == 4 ? 1 : number == 8 ? 2 : gave_up ? 4 : 3]++;
    drawn[kind]++, found[kind] += number == 0 || number == 8;
}

int main(int argc, char **argv) {
    uint64_t seed = argc > 1 ? strtoull(argv[1], 0, 10) : 1;
    long rounds = argc > 2 ? strtol(argv[2], 0, 10) : 200, unmet = 0;
    for (long round = 0; round < rounds; round++) {
        state = seed * 1000003u + (uint64_t)round;
        int kind = (int)(round % KINDS);
        some_element(kind);
        compared(kind, seed, round);
    }
    for (int k = 0; k < KINDS; k++) printf("%-22s %ld elements, %ld have a chain that was found\n", kind_name[k], drawn[k], found[k]);
    printf("done %ld, SHAPE %ld, ROOM %ld, NOCHAIN: none exists %ld, gave up %ld\n", met[0], met[1], met[2], met[3], met[4]);
    for (int i = 0; i < 5; i++) unmet += rounds >= 100 && !met[i];
    printf("comparefind: %ld elements; %ld differ; %ld outcomes not met\n", rounds, differ, unmet);
    return differ || unmet;
}
