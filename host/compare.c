/* compare SEED ROUNDS: the library beside the independent implementation, on ROUNDS random calls of each function, many of them damaged. The answer and every
 * byte of every buffer, those around it too, must be the same. First the rows of document 01's table, with bytes written by hand. The same seed makes the
 * same calls. It exits with 1 if anything differs, or if a refusal that a function can give was not met in 500 rounds or more. */
#include "chance.h"
#include "independent.h"
#include "qiksavlut.h"

#include <stdio.h>
#include <stdlib.h>
#include <string.h>

/* ---- chance */

/* the place in the order of chance at which a round of a function begins, whatever other functions there are */
static void begin(uint64_t seed, const char *name, uint64_t round) {
    state = seed;
    while (*name) state = state * 1099511628211u + (uint64_t)*name++;
    state = state * 1000003u + round;
}

/* ---- lent buffers: each twice, for the library and for the independent implementation, with bytes around it that nobody may touch */

enum { SOURCE, ELEMENT, OTHER, TARGET, SCRATCH, BUFFERS };
enum { LIBRARY, INDEPENDENT };
enum { AROUND = 16, MOST = 262144 + 1200, ELEMENT_MOST = 4700, LINKS_MOST = 2700 };

static const char *const buffer_name[BUFFERS] = {"source", "element", "miss or chain", "target", "scratch or second"};
static uint8_t memory[2][BUFFERS][MOST + 2 * AROUND];
static size_t length[BUFFERS];

static uint8_t *bytes_of(int b) { return memory[LIBRARY][b] + AROUND; }

static struct lent lent(int side, int b) { return (struct lent){memory[side][b] + AROUND, length[b]}; }

/* gives a buffer its length and random bytes, with those around it */
static void fresh(int b, size_t len) {
    length[b] = len;
    for (size_t i = 0; i < len + 2 * AROUND; i += 8) {
        uint64_t v = draw();
        memcpy(memory[LIBRARY][b] + i, &v, i + 8 <= sizeof memory[LIBRARY][b] ? 8 : sizeof memory[LIBRARY][b] - i);
    }
}

/* ---- the functions */

typedef uint32_t plain_call(uint64_t, uint64_t, const uint8_t *, size_t, const uint8_t *, size_t, uint8_t *, size_t);
typedef uint32_t middle_call(uint64_t, uint64_t, const uint8_t *, size_t, const uint8_t *, size_t, uint8_t *, size_t, uint8_t *, size_t);
typedef uint32_t chain_call(uint64_t, uint64_t, const uint8_t *, size_t, const uint8_t *, size_t, uint64_t, const uint8_t *, size_t, uint8_t *, size_t,
                            uint8_t *, size_t);

enum kind { FLAT, WEIGHTED, HIT, GROW, CHECK, CHAINED, READ, WRITE, PNM_READ, PNM_WRITE };

static const struct function {
    const char *name;
    enum kind kind;
    int depth;
    char way;
    plain_call *plain;
    middle_call *middle;
    chain_call *chain;
    const char *numbers; /* those that it can give: digits, ; for 11, < for 12, ? for 15, @ for 16 */
} functions[] = {
    {"erode1", FLAT, 1, 'e', qik_erode1, 0, 0, "01248"},
    {"dilate1", FLAT, 1, 'd', qik_dilate1, 0, 0, "01248"},
    {"open1", FLAT, 1, 'o', 0, qik_open1, 0, "01248"},
    {"close1", FLAT, 1, 'c', 0, qik_close1, 0, "01248"},
    {"erode8", FLAT, 8, 'e', qik_erode8, 0, 0, "01248"},
    {"dilate8", FLAT, 8, 'd', qik_dilate8, 0, 0, "01248"},
    {"open8", FLAT, 8, 'o', 0, qik_open8, 0, "01248"},
    {"close8", FLAT, 8, 'c', 0, qik_close8, 0, "01248"},
    {"white_tophat1", FLAT, 1, 'w', 0, qik_white_tophat1, 0, "01248"},
    {"black_tophat1", FLAT, 1, 'b', 0, qik_black_tophat1, 0, "01248"},
    {"gradient1", FLAT, 1, 'g', 0, qik_gradient1, 0, "01248"},
    {"white_tophat8", FLAT, 8, 'w', 0, qik_white_tophat8, 0, "01248"},
    {"black_tophat8", FLAT, 8, 'b', 0, qik_black_tophat8, 0, "01248"},
    {"gradient8", FLAT, 8, 'g', 0, qik_gradient8, 0, "01248"},
    {"hit_or_miss", HIT, 1, 0, 0, 0, 0, "012458"},
    {"reconstruct_cross", GROW, 1, '+', qik_reconstruct_cross, 0, 0, "0128<"},
    {"reconstruct_square", GROW, 1, '#', qik_reconstruct_square, 0, 0, "0128<"},
    {"weighted_erode", WEIGHTED, 8, 'e', qik_weighted_erode, 0, 0, "01248"},
    {"weighted_dilate", WEIGHTED, 8, 'd', qik_weighted_dilate, 0, 0, "01248"},
    {"weighted_open", WEIGHTED, 8, 'o', 0, qik_weighted_open, 0, "01248"},
    {"weighted_close", WEIGHTED, 8, 'c', 0, qik_weighted_close, 0, "01248"},
    {"check_chain", CHECK, 0, 0, 0, 0, 0, "0467"},
    {"chain_erode1", CHAINED, 1, 'e', 0, 0, qik_chain_erode1, "0124678"},
    {"chain_dilate1", CHAINED, 1, 'd', 0, 0, qik_chain_dilate1, "0124678"},
    {"chain_erode8", CHAINED, 8, 'e', 0, 0, qik_chain_erode8, "0124678"},
    {"chain_dilate8", CHAINED, 8, 'd', 0, 0, qik_chain_dilate8, "0124678"},
    {"ech_read", READ, 0, 0, 0, 0, 0, "012389"},
    {"ech_write", WRITE, 0, 0, 0, 0, 0, "01289?"},
    {"pbm_read", PNM_READ, 1, 0, 0, 0, 0, "0128;"},
    {"pgm_read", PNM_READ, 8, 0, 0, 0, 0, "0128;"},
    {"pbm_write", PNM_WRITE, 1, 0, 0, 0, 0, "0128"},
    {"pgm_write", PNM_WRITE, 8, 0, 0, 0, 0, "0128"},
};

enum { FUNCTIONS = sizeof functions / sizeof *functions };

/* the numbers of a call, beside its buffers */
static uint64_t w, h, links, kind;

static uint64_t library_answer(const struct function *f) {
    struct lent s = lent(LIBRARY, SOURCE), e = lent(LIBRARY, ELEMENT), o = lent(LIBRARY, OTHER), t = lent(LIBRARY, TARGET), m = lent(LIBRARY, SCRATCH);
    switch (f->kind) {
    case FLAT:
    case WEIGHTED:
    case GROW:
        if (f->plain) return f->plain(w, h, s.at, s.len, e.at, e.len, t.at, t.len);
        return f->middle(w, h, s.at, s.len, e.at, e.len, t.at, t.len, m.at, m.len);
    case HIT: return qik_hit_or_miss(w, h, s.at, s.len, e.at, e.len, o.at, o.len, t.at, t.len);
    case CHECK: return qik_check_chain(e.at, e.len, links, o.at, o.len);
    case CHAINED: return f->chain(w, h, s.at, s.len, e.at, e.len, links, o.at, o.len, t.at, t.len, m.at, m.len);
    case READ: return qik_ech_read(s.at, s.len, t.at, t.len);
    case WRITE: return qik_ech_write(kind, w, h, s.at, s.len, t.at, t.len);
    case PNM_READ: return (f->depth == 1 ? qik_pbm_read : qik_pgm_read)(s.at, s.len, t.at, t.len);
    default: return (f->depth == 1 ? qik_pbm_write : qik_pgm_write)(w, h, s.at, s.len, t.at, t.len);
    }
}

static uint64_t packed(struct told a) { return (uint64_t)a.number + 256u * (uint64_t)((a.dx + 256) % 256) + 65536u * (uint64_t)((a.dy + 256) % 256); }

static uint64_t independent_answer(const struct function *f) {
    struct lent s = lent(INDEPENDENT, SOURCE), e = lent(INDEPENDENT, ELEMENT), o = lent(INDEPENDENT, OTHER), t = lent(INDEPENDENT, TARGET),
                m = lent(INDEPENDENT, SCRATCH);
    struct file_told r;
    switch (f->kind) {
    case FLAT: return (uint64_t)own_flat(f->depth, f->way, w, h, s, e, t, m);
    case WEIGHTED: return (uint64_t)own_weighted(f->way, w, h, s, e, t, m);
    case HIT: return (uint64_t)own_hit_or_miss(w, h, s, e, o, t);
    case GROW: return (uint64_t)own_reconstruct(f->way == '#', w, h, s, e, t);
    case CHECK: return packed(own_check_chain(e, links, o));
    case CHAINED: return packed(own_chained(f->depth, f->way, w, h, s, e, links, o, t, m));
    case READ:
    case PNM_READ:
        r = f->kind == READ ? own_ech_read(s, t) : own_pnm_read(f->depth, s, t);
        return (uint64_t)r.number + 256u * (uint64_t)r.kind + 65536u * (uint64_t)r.w + 4294967296u * (uint64_t)r.h;
    case WRITE: return (uint64_t)own_ech_write(kind, w, h, s, t);
    default: return (uint64_t)own_pnm_write(f->depth, w, h, s, t);
    }
}

/* ---- inputs */

static int is_sized(void) { return w >= 1 && w <= 1024 && h >= 1 && h <= 256; }

static size_t row_len(int depth, size_t pings) { return depth == 1 ? (pings + 7) / 8 : pings; }

static uint64_t huge(void) {
    static const uint64_t far[] = {1025, 257, 65536 + 7, 4294967296u, 4294967296u + 8, 9223372036854775808u, 9223372036854775808u + 1, 18446744073709551615u};
    return far[below(sizeof far / sizeof *far)];
}

/* large frames are few: the independent implementation goes point by point */
static void some_frame(void) {
    int a = 0;
    switch (below(10)) {
    case 0: w = 1, h = (uint64_t)from_to(1, 64); break;
    case 1: w = (uint64_t)from_to(1, chance(10) ? 1024 : 100), h = 1; break;
    case 2: w = (uint64_t)from_to(1, 8), h = (uint64_t)from_to(1, 8); break;
    case 3: a = 8 * from_to(1, 6), w = (uint64_t)from_to(a - 1, a + 1), h = (uint64_t)from_to(1, 10); break;
    case 4:
        if (chance(4)) w = (uint64_t)from_to(1000, 1024), h = (uint64_t)from_to(250, 256);
        else w = (uint64_t)from_to(1, 200), h = (uint64_t)from_to(1, 20);
        break;
    default: w = (uint64_t)from_to(1, 40), h = (uint64_t)from_to(1, 12);
    }
    if (chance(5)) {
        int which = below(3);
        if (which != 0) w = chance(30) ? 0 : huge();
        if (which != 1) h = chance(30) ? 0 : huge();
    }
}

static void clear_padding(uint8_t *rows, size_t pings, size_t n) {
    size_t row = (pings + 7) / 8;
    for (size_t y = 0; y < n && pings % 8; y++) rows[y * row + row - 1] &= (uint8_t)(255 << (8 - pings % 8));
}

/* a picture, or what should be one, at a place in a buffer; gives its length */
static size_t some_picture(int b, size_t from, int depth) {
    size_t pings = is_sized() ? (size_t)w : (size_t)from_to(1, 20), n = is_sized() ? (size_t)h : (size_t)from_to(1, 4), row = row_len(depth, pings), len = row * n;
    fresh(b, from + len + 16);
    uint8_t *t = bytes_of(b) + from;
    int sort = below(6);
    for (size_t i = 0; i < len; i++) {
        if (sort == 0) t[i] = 0;
        if (sort == 1) t[i] = 255;
        if (sort == 2) t[i] = chance(90) ? 255 : t[i]; /* mostly echo */
        if (sort == 3) t[i] = chance(90) ? 0 : t[i];
        if (sort == 4 && i > 0 && chance(80)) t[i] = depth == 1 ? (uint8_t)(t[i - 1] & 1 ? 255 : 0) : t[i - 1]; /* runs */
    }
    if (depth == 1) {
        clear_padding(t, pings, n);
        if (pings % 8 && chance(from ? 5 : 60)) /* a source's padding is free; that of a file's body is judged */
            for (size_t y = from ? (size_t)below((int)n) : 0; y < n; y += from ? n : 1) t[y * row + row - 1] |= (uint8_t)(1 + below((1 << (8 - (int)(pings % 8))) - 1));
    }
    if (chance(6)) {
        size_t other[] = {len - 1, len + 1, 0, len + 8, (size_t)below((int)len)};
        len = other[below(5)];
    }
    length[b] = from + len;
    return len;
}

/* room for a picture, or too little */
static void some_room(int b, size_t need) {
    size_t len = chance(40) ? need : need + (size_t)below(20);
    if (need && chance(5)) len = chance(50) ? need - 1 : (size_t)below((int)need);
    fresh(b, len);
}

static size_t needed(int depth) { return is_sized() ? row_len(depth, (size_t)w) * (size_t)h : (size_t)below(30); }

static void set_cell(uint8_t *d, int c, int r) { d[4 + r * ((d[0] + 7) / 8) + c / 8] |= (uint8_t)(128 >> c % 8); }
static int has_cell(const uint8_t *d, int c, int r) { return d[4 + r * ((d[0] + 7) / 8) + c / 8] >> (7 - c % 8) & 1; }

/* the bytes of a whole descriptor of this size */
static size_t descriptor_len(int ew, int eh, int weighted) { return 4 + (size_t)eh * (size_t)((ew + 7) / 8) + (weighted ? (size_t)(ew * eh) : 0); }

static int some_height(int sort) {
    switch (sort) {
    case 0: return 0;
    case 1: return from_to(-10, 10);
    case 2: return chance(50) ? 127 : -127;
    default: return from_to(-127, 127);
    }
}

/* writes a well made descriptor of ew by eh at d, with about this share of its cells set; gives its length */
static size_t put_descriptor(uint8_t *d, int ew, int eh, int share, int weighted) {
    size_t len = descriptor_len(ew, eh, weighted), cells = descriptor_len(ew, eh, 0);
    int sort = below(4);
    memset(d, 0, len);
    d[0] = (uint8_t)ew, d[1] = (uint8_t)eh, d[2] = (uint8_t)below(ew), d[3] = (uint8_t)below(eh);
    int lone = share < 0 ? below(ew * eh) : -1, origin_unset = chance(20);
    for (int r = 0; r < eh; r++)
        for (int c = 0; c < ew; c++) {
            if (lone >= 0 ? r * ew + c != lone : !chance(share)) continue;
            if (origin_unset && c == d[2] && r == d[3]) continue;
            set_cell(d, c, r);
            if (weighted) d[cells + (size_t)(r * ew + c)] = (uint8_t)some_height(sort);
        }
    return len;
}

/* breaks a descriptor in one way; gives its new length */
static size_t damaged(uint8_t *d, size_t len, int weighted) {
    int ew = d[0], eh = d[1], c = below(ew), r = below(eh);
    size_t cells = descriptor_len(ew, eh, 0);
    static const uint8_t wrong[] = {0, 65, 128, 255};
    switch (below(weighted ? 12 : 10)) {
    case 0: return len - 1;
    case 1: return len + 1;
    case 2: return (size_t)below(5);
    case 3: d[0] = wrong[below(4)]; return len;
    case 4: d[1] = wrong[below(4)]; return len;
    case 5: d[2] = (uint8_t)(chance(50) ? ew : 255); return len;
    case 6: d[3] = (uint8_t)(chance(50) ? eh : 255); return len;
    case 7:
        if (ew % 8) d[4 + (size_t)r * (size_t)((ew + 7) / 8) + (size_t)((ew + 7) / 8) - 1] |= (uint8_t)(1 << below(8 - ew % 8));
        return len;
    case 8: return weighted ? cells : cells + (size_t)(ew * eh); /* the other sort of descriptor */
    case 9: d[(size_t)below((int)len)] ^= (uint8_t)(1 << below(8)); return len;
    case 10: set_cell(d, c, r), d[cells + (size_t)(r * ew + c)] = 128; return len;
    default:
        d[4 + (size_t)r * (size_t)((ew + 7) / 8) + (size_t)(c / 8)] &= (uint8_t)~(128 >> c % 8);
        d[cells + (size_t)(r * ew + c)] = 1;
        return len;
    }
}

static void some_element(int b, int weighted) {
    static const int shares[] = {0, 100, 100, 60, 25, 5, -1};
    int ew = 1, eh = 1, share = shares[below(7)];
    double points = is_sized() ? (double)w * (double)h : 1;
    fresh(b, ELEMENT_MOST);
    switch (below(8)) {
    case 0: break;
    case 1: ew = from_to(1, 64); break;
    case 2: eh = from_to(1, 64); break;
    case 3: ew = from_to(1, 8), eh = from_to(1, 8); break;
    case 4: ew = from_to(1, 64), eh = from_to(1, 64); break;
    case 5: ew = eh = 64; break;
    case 6: ew = eh = 3; break;
    default: ew = from_to(7, 17), eh = from_to(1, 5);
    }
    if (points * ew * eh > 400000) ew = from_to(1, 3), eh = from_to(1, 3);
    size_t len = put_descriptor(bytes_of(b), ew, eh, share, weighted);
    length[b] = chance(8) ? damaged(bytes_of(b), len, weighted) : len;
}

/* the offsets of descriptors well made, as a board */
enum { FAR = 64, SIDE = 2 * FAR + 1 };

static void add_link(uint8_t board[SIDE][SIDE], const uint8_t *d) {
    uint8_t sums[SIDE][SIDE];
    memset(sums, 0, sizeof sums);
    for (int y = 0; y < SIDE; y++)
        for (int x = 0; x < SIDE; x++)
            for (int r = 0; r < d[1] && board[y][x]; r++)
                for (int c = 0; c < d[0]; c++)
                    if (has_cell(d, c, r)) sums[y + r - d[3]][x + c - d[2]] = 1;
    memcpy(board, sums, sizeof sums);
}

/* the descriptor of a board with its offset 0, 0 as origin; 0 where it is too large */
static size_t put_board(uint8_t *d, uint8_t board[SIDE][SIDE]) {
    int left = FAR, right = FAR, up = FAR, down = FAR;
    for (int y = 0; y < SIDE; y++)
        for (int x = 0; x < SIDE; x++)
            if (board[y][x]) {
                left = x < left ? x : left, right = x > right ? x : right;
                up = y < up ? y : up, down = y > down ? y : down;
            }
    if (right - left > 63 || down - up > 63) return 0;
    if (chance(10)) left -= below(64 - (right - left)), right += below(64 - (right - left)); /* unset margins */
    if (chance(10)) up -= below(64 - (down - up)), down += below(64 - (down - up));
    size_t len = descriptor_len(right - left + 1, down - up + 1, 0);
    memset(d, 0, len);
    d[0] = (uint8_t)(right - left + 1), d[1] = (uint8_t)(down - up + 1), d[2] = (uint8_t)(FAR - left), d[3] = (uint8_t)(FAR - up);
    for (int y = up; y <= down; y++)
        for (int x = left; x <= right; x++)
            if (board[y][x]) set_cell(d, x - left, y - up);
    return len;
}

/* links and an element that is mostly their sums, or nearly */
static void some_chain(void) {
    static uint8_t board[SIDE][SIDE];
    int n = chance(30) ? 2 : from_to(1, 5), most = n > 3 ? 4 : 6;
    memset(board, 0, sizeof board);
    board[FAR][FAR] = 1;
    fresh(OTHER, LINKS_MOST);
    fresh(ELEMENT, ELEMENT_MOST);
    uint8_t *d = bytes_of(OTHER);
    size_t end = 0;
    for (int i = 0; i < n; i++) {
        int ew = 1, eh = 1, share = 100;
        switch (below(8)) {
        case 0: ew = from_to(1, most); break;
        case 1: eh = from_to(1, most); break;
        case 2: ew = from_to(1, most), eh = from_to(1, most); break;
        case 3: ew = from_to(1, 3), eh = from_to(1, 3), share = -1; break;
        case 4: ew = from_to(1, 8), eh = from_to(1, 8), share = 50; break;
        case 5: ew = from_to(1, 3), share = 70; break;
        default: ew = from_to(1, 2), eh = from_to(1, 2);
        }
        if (chance(2)) share = 0;
        size_t len = put_descriptor(d + end, ew, eh, share, 0);
        add_link(board, d + end);
        if (chance(2)) len = damaged(d + end, len, 0);
        if (chance(1)) len = put_descriptor(d + end, 9, 1, 50, 0);
        if (chance(1)) len = put_descriptor(d + end, 1, 9, 50, 0);
        if (chance(1)) len = put_descriptor(d + end, from_to(1, 64), from_to(9, 64), 50, 0);
        end += len;
    }
    links = (uint64_t)n;
    if (chance(3)) links = chance(50) ? (uint64_t)below(9) : 4294967296u + (uint64_t)n;
    if (chance(2)) end = chance(50) ? end + 1 : (size_t)below((int)end + 1);
    length[OTHER] = end;

    if (chance(25)) board[FAR + from_to(-6, 6)][FAR + from_to(-6, 6)] ^= 1;
    size_t len = put_board(bytes_of(ELEMENT), board);
    if (len == 0 || chance(5)) some_element(ELEMENT, 0);
    else length[ELEMENT] = chance(3) ? damaged(bytes_of(ELEMENT), len, 0) : len;
}

static void some_file(void) {
    kind = (uint64_t)from_to(1, 3);
    some_frame();
    w %= 65536, h %= 65536;
    size_t len = some_picture(SOURCE, 10, kind == 2 ? 8 : 1);
    const uint8_t head[10] = {69, 67, 72, 1, 0, (uint8_t)kind, (uint8_t)w, (uint8_t)(w >> 8), (uint8_t)h, (uint8_t)(h >> 8)};
    memcpy(bytes_of(SOURCE), head, 10);
    some_room(TARGET, is_sized() ? needed(kind == 2 ? 8 : 1) : len);
    if (chance(5)) bytes_of(SOURCE)[below(6)] ^= (uint8_t)(1 << below(8));
    if (chance(3)) bytes_of(SOURCE)[5] = (uint8_t)(chance(50) ? 0 : 4);
    if (chance(3)) length[SOURCE] = (size_t)below(11);
    if (chance(3)) bytes_of(SOURCE)[(size_t)below(10)] = (uint8_t)below(256);
}

/* white space, with comments in it and round it, or none; gives how many bytes it put at t */
static size_t some_white(char *t, int fancy) {
    static const char whites[] = " \n\t\r\v\f";
    size_t n = 0;
    int times = fancy ? from_to(1, 3) : 1;
    for (int i = 0; i < times; i++) {
        if (fancy && chance(15)) n += (size_t)sprintf(t + n, "#%s%c", chance(50) ? " 12 # P4" : "", chance(70) ? '\n' : '\r');
        t[n++] = fancy ? whites[below(6)] : i || chance(50) ? '\n' : ' ';
        if (fancy && chance(15)) n += (size_t)sprintf(t + n, "#a comment%c", chance(70) ? '\n' : '\r');
    }
    return n;
}

static size_t some_number(char *t, uint64_t v, int fancy) {
    char digits[64];
    int n = sprintf(digits, "%s%llu", fancy && chance(20) ? "000" : "", (unsigned long long)v), at = 0;
    for (int i = 0; i < n; i++) {
        t[at++] = digits[i];
        if (fancy && chance(5)) at += sprintf(t + at, "#7\n");
    }
    return (size_t)at;
}

/* a PBM or PGM file, with a header of many forms, some of them broken */
static void some_pnm(int depth) {
    static char head[1024];
    int fancy = chance(60);
    some_frame();
    size_t n = (size_t)sprintf(head, depth == 1 ? "P4" : "P5");
    if (chance(2)) head[1] = (char)('1' + below(7));
    n += some_white(head + n, fancy), n += some_number(head + n, w, fancy);
    n += some_white(head + n, fancy), n += some_number(head + n, h, fancy);
    if (depth == 8) n += some_white(head + n, fancy), n += some_number(head + n, chance(95) ? 255 : (uint64_t)below(70000), fancy);
    if (fancy && chance(10)) n += (size_t)sprintf(head + n, "# the last\n");
    head[n++] = fancy ? " \n\t\r\v\f"[below(6)] : '\n';
    if (chance(6)) head[below((int)n)] = (char)(chance(50) ? below(256) : " 0#\n-+"[below(6)]);
    if (chance(3)) { /* a byte less */
        int at = below((int)n);
        memmove(head + at, head + at + 1, --n - (size_t)at);
    }
    size_t len = some_picture(SOURCE, n, depth);
    memcpy(bytes_of(SOURCE), head, n);
    if (depth == 1 && is_sized() && w % 8 && chance(50)) /* the padding is free */
        for (size_t y = 1; y * row_len(1, (size_t)w) <= len; y++) bytes_of(SOURCE)[n + y * row_len(1, (size_t)w) - 1] |= (uint8_t)below(1 << (8 - w % 8));
    if (chance(2)) length[SOURCE] = (size_t)below((int)n + 1);
    some_room(TARGET, is_sized() ? needed(depth) : len);
}

/* a mask, and a marker that mostly lies inside it; what stands in the padding of either is anything */
static void some_growth(void) {
    some_picture(ELEMENT, 0, 1);
    uint8_t *mask = bytes_of(ELEMENT);
    if (chance(50)) /* from 50 to 75 percent of the points: regions that wind */
        for (size_t i = 0, sort = (size_t)below(4); i < length[ELEMENT]; i++) mask[i] = (uint8_t)(draw() | (draw() & (sort == 0 ? 0 : sort == 1 ? draw() : 255)));
    some_picture(SOURCE, 0, 1);
    uint8_t *marker = bytes_of(SOURCE);
    size_t row = row_len(1, (size_t)w), n = length[SOURCE] < length[ELEMENT] ? length[SOURCE] : length[ELEMENT];
    int few = chance(60);
    for (size_t i = 0; i < n && is_sized(); i++) {
        uint8_t free_bits = i % row == row - 1 && w % 8 ? (uint8_t)(255 >> w % 8) : 0;
        uint8_t chosen = few ? (uint8_t)(draw() & draw() & draw() & draw() & draw()) : 255;
        marker[i] = (uint8_t)((marker[i] & (free_bits | (mask[i] & chosen))));
    }
    if (few && chance(50)) /* one point, or none */
        for (size_t i = 0, at = (size_t)below((int)n + 1); i < n; i++)
            if (i != at) marker[i] = 0;
    if (n && chance(20)) marker[below((int)n)] |= (uint8_t)(1 << below(8)); /* inside the mask, outside it, or in the padding */
}

static void some_call(const struct function *f) {
    for (int b = 0; b < BUFFERS; b++) fresh(b, 0);
    w = h = links = kind = 0;
    if (f->kind == READ) {
        some_file();
        return;
    }
    if (f->kind == CHECK) {
        some_chain();
        return;
    }
    if (f->kind == PNM_READ) {
        some_pnm(f->depth);
        return;
    }
    some_frame();
    if (f->kind == PNM_WRITE) {
        char number[32];
        size_t head = (size_t)(4 + (f->depth == 1 ? 1 : 5) + sprintf(number, "%llu", (unsigned long long)w) + sprintf(number, "%llu", (unsigned long long)h));
        some_picture(SOURCE, 0, f->depth);
        some_room(TARGET, head + needed(f->depth));
        return;
    }
    if (f->kind == WRITE) {
        kind = chance(92) ? (uint64_t)from_to(1, 3) : chance(50) ? (uint64_t)below(8) : 4294967296u + (uint64_t)below(4);
        int depth = kind == 2 ? 8 : 1;
        some_picture(SOURCE, 0, depth);
        some_room(TARGET, 10 + needed(depth));
        return;
    }
    if (f->kind == GROW) {
        some_growth();
        some_room(TARGET, needed(1));
        return;
    }
    some_picture(SOURCE, 0, f->depth);
    if (f->kind == CHAINED) some_chain();
    else some_element(ELEMENT, f->kind == WEIGHTED);
    if (f->kind == HIT) {
        some_element(OTHER, 0);
        if (chance(30)) { /* the rest of the hit element's own cells: nothing is shared */
            uint8_t *d = bytes_of(ELEMENT), *o = bytes_of(OTHER);
            if (length[ELEMENT] >= 4 && d[0] >= 1 && d[0] <= 64 && d[1] >= 1 && d[1] <= 64 && length[ELEMENT] == descriptor_len(d[0], d[1], 0)) {
                memcpy(o, d, length[OTHER] = length[ELEMENT]);
                for (size_t i = 4; i < length[OTHER]; i++) o[i] = (uint8_t)~o[i];
                clear_padding(o + 4, d[0], d[1]);
            }
        }
    }
    some_room(TARGET, needed(f->depth));
    some_room(SCRATCH, needed(f->depth));
}

/* ---- the comparison */

static long differing;

static void say_call(const struct function *f, uint64_t seed, long round) {
    printf("%s differs: seed %llu, round %ld: w %llu, h %llu", f->name, (unsigned long long)seed, round, (unsigned long long)w, (unsigned long long)h);
    if (links) printf(", links %llu", (unsigned long long)links);
    if (kind) printf(", kind %llu", (unsigned long long)kind);
    for (int b = 0; b < BUFFERS; b++) {
        if (!length[b]) continue;
        const char *name = f->kind != GROW ? buffer_name[b] : b == SOURCE ? "marker" : b == ELEMENT ? "mask" : buffer_name[b];
        printf("\n    %s, %lu bytes:", name, (unsigned long)length[b]);
        if (b == TARGET || b == SCRATCH) continue;
        for (size_t i = 0; i < length[b] && i < 40; i++) printf(" %d", memory[INDEPENDENT][b][AROUND + i]);
        if (length[b] > 40) printf(" ..");
    }
    putchar('\n');
}

/* one call on both sides; gives the answer's number */
static int compared(const struct function *f, uint64_t seed, long round) {
    for (int b = 0; b < BUFFERS; b++) memcpy(memory[INDEPENDENT][b], memory[LIBRARY][b], length[b] + 2 * AROUND);
    uint64_t theirs = library_answer(f), ours = independent_answer(f), third = ours;
    if (f->kind == CHECK) {
        double n = own_choices(lent(INDEPENDENT, ELEMENT), links, lent(INDEPENDENT, OTHER));
        if (n < 3000) third = packed(own_check_chain_by_choices(lent(INDEPENDENT, ELEMENT), links, lent(INDEPENDENT, OTHER)));
    }
    int bad = theirs != ours || third != ours, at_buffer = -1;
    size_t at = 0;
    for (int b = 0; b < BUFFERS && at_buffer < 0; b++) {
        if (memcmp(memory[LIBRARY][b], memory[INDEPENDENT][b], length[b] + 2 * AROUND) == 0) continue;
        at_buffer = b;
        while (memory[LIBRARY][b][at] == memory[INDEPENDENT][b][at]) at++;
    }
    if (bad || at_buffer >= 0) {
        differing++;
        if (differing <= 3) {
            say_call(f, seed, round);
            printf("    library %llx, independent %llx", (unsigned long long)theirs, (unsigned long long)ours);
            if (third != ours) printf(", by choices %llx", (unsigned long long)third);
            if (at_buffer >= 0)
                printf("; %s at byte %ld: library %d, independent %d", buffer_name[at_buffer], (long)at - AROUND, memory[LIBRARY][at_buffer][at],
                       memory[INDEPENDENT][at_buffer][at]);
            putchar('\n');
        }
    }
    return (int)(ours & 255);
}

/* ---- document 01's table, and its "also run", by hand */

static long wrong, fixed;

static void must(const char *name, int good) {
    fixed++;
    if (good) return;
    wrong++;
    printf("%s is wrong\n", name);
}

static void split(const char *name, uint32_t answer, uint32_t number, int dx, int dy) {
    must(name, qik_number(answer) == number && qik_dx(answer) == dx && qik_dy(answer) == dy);
}

#define LENT(a) (a), sizeof(a)

static void worked(void) {
    static const uint8_t T[] = {3, 1, 2, 0, 0xe0}, L[] = {3, 1, 0, 0, 0xe0}, empty[] = {3, 1, 1, 0, 0};
    uint8_t s[1], t[1], m[1], t3[3], many[10] = {0};

    s[0] = 0x7c, must("P1", qik_erode1(7, 1, LENT(s), LENT(T), LENT(t)) == 0 && t[0] == 0x1c);
    s[0] = 0x1c, must("P2", qik_dilate1(7, 1, LENT(s), LENT(T), LENT(t)) == 0 && t[0] == 0x7c);
    s[0] = 0x60, must("P3", qik_open1(7, 1, LENT(s), LENT(T), LENT(t), LENT(m)) == 0 && t[0] == 0);
    s[0] = 0xc0, must("P4", qik_open1(7, 1, LENT(s), LENT(T), LENT(t), LENT(m)) == 0 && t[0] == 0xc0);
    s[0] = 0x06, must("P5 by T", qik_open1(7, 1, LENT(s), LENT(T), LENT(t), LENT(m)) == 0 && t[0] == 0);
    s[0] = 0x06, must("P5 by L", qik_open1(7, 1, LENT(s), LENT(L), LENT(t), LENT(m)) == 0 && t[0] == 0x06);
    s[0] = 0x6c, must("P6", qik_close1(7, 1, LENT(s), LENT(L), LENT(t), LENT(m)) == 0 && t[0] == 0x7e);
    for (int v = 0; v < 128; v++) {
        s[0] = (uint8_t)(2 * v);
        must("P7, eroded", qik_erode1(7, 1, LENT(s), LENT(empty), LENT(t)) == 0 && t[0] == 0xfe);
        must("P7, dilated", qik_dilate1(7, 1, LENT(s), LENT(empty), LENT(t)) == 0 && t[0] == 0);
    }
    static const uint8_t echoes[] = {10, 200, 30}, back[] = {2, 1, 1, 0, 0xc0}, on[] = {2, 1, 0, 0, 0x40};
    must("P8", qik_erode8(3, 1, LENT(echoes), LENT(back), LENT(t3)) == 0 && t3[0] == 10 && t3[1] == 10 && t3[2] == 30);
    must("P9", qik_dilate8(3, 1, LENT(echoes), LENT(on), LENT(t3)) == 0 && t3[0] == 0 && t3[1] == 10 && t3[2] == 200);
    static const uint8_t middle[] = {0, 0x40, 0}, corner[] = {2, 2, 0, 0, 0x80, 0xc0};
    must("P10", qik_dilate1(3, 3, LENT(middle), LENT(corner), LENT(t3)) == 0 && t3[0] == 0 && t3[1] == 0x40 && t3[2] == 0x60);
    static const uint8_t lone[] = {1, 1, 0, 0, 0x80};
    s[0] = 0x68, must("P11", qik_hit_or_miss(5, 1, LENT(s), LENT(lone), LENT(on), LENT(t)) == 0 && t[0] == 0x28);

    s[0] = 0x60, must("P3 less its opening", qik_white_tophat1(7, 1, LENT(s), LENT(T), LENT(t), LENT(m)) == 0 && t[0] == 0x60 && m[0] == 0);
    s[0] = 0x6c, must("P6, the closing less it", qik_black_tophat1(7, 1, LENT(s), LENT(L), LENT(t), LENT(m)) == 0 && t[0] == 0x12 && m[0] == 0x7e);
    for (int v = 0; v < 128; v++) {
        s[0] = (uint8_t)(2 * v);
        must("empty, white", qik_white_tophat1(7, 1, LENT(s), LENT(empty), LENT(t), LENT(m)) == 0 && t[0] == s[0] && m[0] == 0xfe);
        must("empty, black", qik_black_tophat1(7, 1, LENT(s), LENT(empty), LENT(t), LENT(m)) == 0 && t[0] == (s[0] ^ 0xfe) && m[0] == 0);
        must("empty, gradient", qik_gradient1(7, 1, LENT(s), LENT(empty), LENT(t), LENT(m)) == 0 && t[0] == 0 && m[0] == 0xfe);
    }
    uint8_t m3[3];
    must("P9's gradient is held", qik_gradient8(3, 1, LENT(echoes), LENT(on), LENT(t3), LENT(m3)) == 0 && t3[0] == 0 && t3[1] == 0 && t3[2] == 0 && m3[0] == 200 && m3[1] == 30 && m3[2] == 255);
    must("P9's white top-hat", qik_white_tophat8(3, 1, LENT(echoes), LENT(back), LENT(t3), LENT(m3)) == 0 && t3[0] == 0 && t3[1] == 170 && t3[2] == 0 && m3[1] == 10);

    static const uint8_t e12[] = {3, 1, 1, 0, 0xe0}, c12[] = {2, 1, 1, 0, 0xc0, 2, 1, 0, 0, 0xc0};
    static const uint8_t c13[] = {2, 1, 0, 0, 0x40, 2, 1, 1, 0, 0x80};
    static const uint8_t e14[] = {6, 1, 2, 0, 0xfc}, c14[] = {3, 1, 2, 0, 0x80, 6, 1, 0, 0, 0xfc};
    static const uint8_t c15[] = {2, 1, 0, 0, 0xc0, 3, 1, 0, 0, 0xa0};
    split("P12", qik_check_chain(LENT(e12), 2, LENT(c12)), 0, 0, 0);
    split("P13", qik_check_chain(LENT(lone), 2, LENT(c13)), 7, 0, 0);
    split("P14", qik_check_chain(LENT(e14), 2, LENT(c14)), 7, -1, 0);
    split("P15", qik_check_chain(LENT(L), 2, LENT(c15)), 7, 3, 0);

    static const uint8_t wide8[] = {8, 1, 0, 0, 0xff}, wide9[] = {9, 1, 0, 0, 0xff, 0x80};
    split("a link 8 wide", qik_check_chain(LENT(wide8), 1, LENT(wide8)), 0, 0, 0);
    split("a link 9 wide", qik_check_chain(LENT(wide9), 1, LENT(wide9)), 6, 0, 0);
    static const uint8_t one_of_64[12] = {64, 1, 0, 0, 0x80}, hour[] = {61, 1, 60, 0, 255, 255, 255, 255, 255, 255, 255, 0xf8};
    static uint8_t wide64[516], wide65[13] = {65, 1}, run[16], eroded[16];
    split("64 wide, one set cell", qik_check_chain(LENT(one_of_64), 1, LENT(lone)), 0, 0, 0);
    split("a link 64 wide", qik_check_chain(LENT(lone), 1, LENT(one_of_64)), 6, 0, 0);
    split("a link 65 wide", qik_check_chain(LENT(lone), 1, LENT(wide65)), 4, 0, 0);
    wide64[0] = wide64[1] = 64, wide64[2] = wide64[3] = 63, wide64[4] = 0x80;
    split("64 x 64, the offset -63, -63", qik_check_chain(LENT(wide64), 1, LENT(lone)), 7, -63, -63);
    wide64[2] = wide64[3] = 0, wide64[515] = 1;
    split("64 x 64, the offset 63, 63", qik_check_chain(LENT(wide64), 1, LENT(lone)), 7, 63, 63);
    must("65 wide", qik_erode1(128, 1, LENT(run), LENT(wide65), LENT(eroded)) == 4);
    memset(run, 255, 8); /* 64 pings of an echo that began at the frame's edge: an hour back there is nothing else to see */
    must("an hour of echo", qik_erode1(128, 1, LENT(run), LENT(hour), LENT(eroded)) == 0 && memcmp(eroded, run, 16) == 0);
    must("an hour without", qik_dilate1(128, 1, LENT(run), LENT(hour), LENT(eroded)) == 0 && memcmp(eroded, run, 16) == 0);
    static const uint8_t six[] = {1, 1, 0, 0, 128, 1, 1, 0, 0, 128, 1, 1, 0, 0, 128, 1, 1, 0, 0, 128, 1, 1, 0, 0, 128, 1, 1, 0, 0, 128};
    split("5 links", qik_check_chain(LENT(lone), 5, six, 25), 0, 0, 0);
    split("6 links", qik_check_chain(LENT(lone), 6, LENT(six)), 6, 0, 0);
    split("no link", qik_check_chain(LENT(lone), 0, six, 0), 6, 0, 0);

    static uint8_t frame[1025 * 257], out[1025 * 257];
    must("W 1,024 and H 256", qik_erode8(1024, 256, frame, 1024 * 256, LENT(lone), LENT(out)) == 0);
    must("W 1,024 and H 256, one bit", qik_erode1(1024, 256, frame, 128 * 256, LENT(lone), LENT(out)) == 0);
    must("W 1,025", qik_erode8(1025, 256, frame, 1025 * 256, LENT(lone), LENT(out)) == 1);
    must("H 257", qik_erode8(1024, 257, frame, 1024 * 257, LENT(lone), LENT(out)) == 1);
    must("W 0", qik_erode8(0, 1, frame, 0, LENT(lone), LENT(out)) == 1);
    must("W of 33 bits", qik_erode8(4294967296u + 1, 1, frame, 1, LENT(lone), LENT(out)) == 1);
    frame[0] = 9, must("1 x 1", qik_erode8(1, 1, frame, 1, LENT(lone), LENT(out)) == 0 && out[0] == 9);
    static const uint8_t ten[] = {1, 1, 0, 0, 0x80, 10}, loud[] = {250};
    must("weight 10 on 250", qik_weighted_dilate(1, 1, LENT(loud), LENT(ten), LENT(t)) == 0 && t[0] == 255);

    static const uint8_t stored[] = {69, 67, 72, 1, 0, 3, 5, 0, 1, 0, 0x90}; /* kind 3: 01101 turned over */
    uint64_t r = qik_ech_read(LENT(stored), LENT(t));
    must("kind 3 read as kind 1", qik_read_number(r) == 0 && qik_read_kind(r) == 1 && qik_read_w(r) == 5 && qik_read_h(r) == 1 && t[0] == 0x68);
    static const uint8_t renewed[] = {69, 67, 72, 1, 0, 1, 5, 0, 1, 0, 0x68};
    uint8_t again[11];
    must("kind 3 written", qik_ech_write(3, 5, 1, t, 1, LENT(again)) == 15 && qik_ech_write(3, 5, 1, t, 1, again, 10) == 15);
    must("kind 3 written, of no size or a source too long", qik_ech_write(3, 0, 1, t, 1, LENT(again)) == 1 && qik_ech_write(3, 5, 1, frame, 2, LENT(again)) == 2);
    must("kind 3 rewritten as kind 1", qik_ech_write(qik_read_kind(r), 5, 1, t, 1, LENT(again)) == 0 && memcmp(again, renewed, sizeof again) == 0);
    must("a file that is refused", qik_ech_read(many, sizeof many, LENT(t)) == 9);
}

/* request (v): by one cell of each height, all values side by side. 0 dilates to 0 and 255 erodes to 255; opened no value is louder, and closed none fainter */
static void ends(void) {
    uint8_t cell[] = {1, 1, 0, 0, 0x80, 10}, ramp[256], t[256], m[256];
    for (int v = 0; v < 256; v++) ramp[v] = (uint8_t)v;
    must("weight 10 on 0 and on 1", qik_weighted_dilate(256, 1, LENT(ramp), LENT(cell), LENT(t)) == 0 && t[0] == 0 && t[1] == 11);
    must("weight 10 on 255 and on 254", qik_weighted_erode(256, 1, LENT(ramp), LENT(cell), LENT(t)) == 0 && t[255] == 255 && t[254] == 244);
    must("weight 10 on 5 opened", qik_weighted_open(256, 1, LENT(ramp), LENT(cell), LENT(t), LENT(m)) == 0 && t[5] == 0 && m[5] == 0);
    must("weight 10 on 250 closed", qik_weighted_close(256, 1, LENT(ramp), LENT(cell), LENT(t), LENT(m)) == 0 && t[250] == 255 && m[250] == 255);
    int empty = 1, full = 1, opened = 1, closed = 1;
    for (int g = -127; g <= 127; g++) {
        cell[5] = (uint8_t)g;
        empty = empty && qik_weighted_dilate(256, 1, LENT(ramp), LENT(cell), LENT(t)) == 0 && t[0] == 0;
        full = full && qik_weighted_erode(256, 1, LENT(ramp), LENT(cell), LENT(t)) == 0 && t[255] == 255;
        opened = opened && qik_weighted_open(256, 1, LENT(ramp), LENT(cell), LENT(t), LENT(m)) == 0;
        for (int v = 0; v < 256; v++) opened = opened && t[v] <= v;
        closed = closed && qik_weighted_close(256, 1, LENT(ramp), LENT(cell), LENT(t), LENT(m)) == 0;
        for (int v = 0; v < 256; v++) closed = closed && t[v] >= v;
    }
    must("0 dilated at every height", empty);
    must("255 eroded at every height", full);
    must("opened at every height, and no value louder", opened);
    must("closed at every height, and no value fainter", closed);
}

/* request (i): a file's text and its raster, written by hand, and what its read answers; W and H where it is done */
static void pnm(const char *name, int depth, const char *head, const char *raster, size_t raster_len, int number, unsigned pings, unsigned bins) {
    uint8_t file[128], target[16], before[16];
    size_t n = strlen(head);
    memcpy(file, head, n), memcpy(file + n, raster, raster_len);
    memset(target, 0x5a, sizeof target), memcpy(before, target, sizeof target);
    uint64_t r = (depth == 1 ? qik_pbm_read : qik_pgm_read)(file, n + raster_len, target, sizeof target);
    int good = qik_read_number(r) == (uint32_t)number;
    if (number) good = good && r == (uint64_t)number && memcmp(target, before, sizeof target) == 0;
    else good = good && qik_read_w(r) == pings && qik_read_h(r) == bins && qik_read_kind(r) == 0;
    must(name, good);
}

static void netpbm(void) {
    /* comments in every place; a comment's line end ends nothing */
    pnm("a plain PBM", 1, "P4\n5 1\n", "\x68", 1, 0, 5, 1);
    pnm("a comment after the magic", 1, "P4#c\n 5 1\n", "\x68", 1, 0, 5, 1);
    pnm("a comment before W", 1, "P4\n# c\n5 1\n", "\x68", 1, 0, 5, 1);
    pnm("a comment in W", 1, "P4\n1#c\r2 1\n", "\x68\x60", 2, 0, 12, 1);
    pnm("a comment after W", 1, "P4\n5#c\n 1\n", "\x68", 1, 0, 5, 1);
    pnm("a comment before H", 1, "P4\n5 #c # d\n1\n", "\x68", 1, 0, 5, 1);
    pnm("a comment in H", 1, "P4\n5 1#c\n0\n", "0123456789", 10, 0, 5, 10);
    pnm("a comment after H", 1, "P4\n5 1#c\n\n", "\x68", 1, 0, 5, 1);
    pnm("a comment that touches W and H alone", 1, "P4\n5#c\n1\n", "\x68", 1, 11, 0, 0);
    pnm("no white space but a comment after the magic", 1, "P4#c\n5 1\n", "\x68", 1, 11, 0, 0);
    pnm("a comment that ends the header", 1, "P4\n5 1#c\n", "\x68", 1, 11, 0, 0);
    pnm("a comment that does not end", 1, "P4\n5 1#c", "", 0, 11, 0, 0);
    pnm("a comment in the maximum", 8, "P5\n1 1\n2#c\n55\n", "\x07", 1, 0, 1, 1);
    pnm("a comment after the maximum", 8, "P5\n1 1\n255#c\n ", "\x07", 1, 0, 1, 1);
    pnm("an empty comment", 8, "P5 1#\n 1 255\n", "\x07", 1, 0, 1, 1);
    /* white space */
    pnm("every white space", 8, "P5 \t\n\v\f\r1 \t1\v255\f", "\x07", 1, 0, 1, 1);
    pnm("CR LF as the ending", 1, "P4\r\n5 1\r\n", "\x68", 1, 2, 0, 0);
    pnm("CR as the ending", 1, "P4\r5 1\r", "\x68", 1, 0, 5, 1);
    pnm("no white space after the magic", 1, "P45 1\n", "\x68", 1, 11, 0, 0);
    pnm("white space before the magic", 1, " P4\n5 1\n", "\x68", 1, 11, 0, 0);
    pnm("a NUL for white space", 1, "P4\n5 1", "\0\x68", 2, 11, 0, 0);
    /* sizes */
    pnm("P4 1 0 with its line feed", 1, "P4 1 0\n", "", 0, 1, 0, 0);
    pnm("P4 1 0 without it", 1, "P4 1 0", "", 0, 11, 0, 0);
    pnm("W of 20 digits", 1, "P4 18446744073709551617 1\n", "\x68", 1, 1, 0, 0);
    pnm("H of 20 digits", 1, "P4 5 10000000000000000001\n", "\x68", 1, 1, 0, 0);
    pnm("W of 20 digits with leading zeros", 1, "P4 00000000000000000005 1\n", "\x68", 1, 0, 5, 1);
    pnm("a sign", 1, "P4 +5 1\n", "\x68", 1, 11, 0, 0);
    pnm("a negative number", 1, "P4 5 -1\n", "\x68", 1, 11, 0, 0);
    pnm("a letter", 1, "P4 5 1x\n", "\x68", 1, 11, 0, 0);
    pnm("W missing", 1, "P4 \n", "\x68", 1, 11, 0, 0);
    pnm("H missing", 1, "P4 5\n\n", "", 0, 11, 0, 0);
    pnm("W 1,025", 1, "P4 1025 1\n", "\x68", 1, 1, 0, 0);
    pnm("H 257", 1, "P4 1 257\n", "\x68", 1, 1, 0, 0);
    /* maxima */
    pnm("the maximum 255", 8, "P5 1 1 255\n", "\x07", 1, 0, 1, 1);
    pnm("the maximum 0255", 8, "P5 1 1 0255\n", "\x07", 1, 0, 1, 1);
    pnm("the maximum 254", 8, "P5 1 1 254\n", "\x07", 1, 11, 0, 0);
    pnm("the maximum 65535", 8, "P5 1 1 65535\n", "\x07\x07", 2, 11, 0, 0);
    pnm("the maximum 2 to the 64th and 255 more", 8, "P5 1 1 18446744073709551871\n", "\x07", 1, 11, 0, 0);
    pnm("a maximum that is wrong comes before SIZE", 8, "P5 0 0 254\n", "", 0, 11, 0, 0);
    pnm("no maximum", 8, "P5 1 1\n", "\x07", 1, 11, 0, 0);
    pnm("a PBM has none", 1, "P4 1 1 255\n", "\x80", 1, 2, 0, 0);
    /* the magic */
    pnm("the other's magic", 1, "P5 1 1 255\n", "\x07", 1, 11, 0, 0);
    pnm("and the other way", 8, "P4 1 1\n", "\x80", 1, 11, 0, 0);
    pnm("a plain file", 1, "P1 1 1\n", "1", 1, 11, 0, 0);
    pnm("nothing", 1, "", "", 0, 11, 0, 0);
    pnm("P alone", 1, "P", "", 0, 11, 0, 0);
    pnm("the magic alone", 1, "P4", "", 0, 11, 0, 0);
    /* the raster is whatever follows */
    pnm("a raster that begins with white space", 1, "P4 8 2\n", " \n", 2, 0, 8, 2);
    pnm("a raster that begins with #", 1, "P4 8 2\n", "#\n", 2, 0, 8, 2);
    pnm("a raster of digits", 8, "P5 3 1 255 ", "255", 3, 0, 3, 1);
    pnm("a raster cut short", 8, "P5 3 1 255 ", "25", 2, 2, 0, 0);
    pnm("a byte after the raster", 8, "P5 3 1 255 ", "2555", 4, 2, 0, 0);
    pnm("a second picture", 1, "P4 8 1\n", "\x01P4 8 1\n\x02", 9, 2, 0, 0);
    pnm("too little room", 8, "P5 17 1 255 ", "01234567890123456", 17, 8, 0, 0);

    /* padding is read as 0, and 1 is an echo; what we write, letter by letter */
    static const uint8_t ones[] = "P4\n5 2\n\x6f\xff", clean[] = {0x68, 0xf8}, grey[] = {0, 200, 255};
    uint8_t t[16], file[32];
    must("ones in the padding", qik_pbm_read(ones, 9, t, 2) == 5 * 65536u + 2 * (uint64_t)4294967296u && memcmp(t, clean, 2) == 0);
    must("PBM written", qik_pbm_write(5, 2, clean, 2, LENT(file)) == 0 && memcmp(file, "P4\n5 2\n\x68\xf8", 9) == 0);
    must("PBM of padding 1", qik_pbm_write(5, 2, ones + 7, 2, LENT(file)) == 0 && memcmp(file, "P4\n5 2\n\x68\xf8", 9) == 0);
    must("PGM written", qik_pgm_write(3, 1, LENT(grey), file, 14) == 0 && memcmp(file, "P5\n3 1\n255\n\0\xc8\xff", 14) == 0);
    must("PGM without room", qik_pgm_write(3, 1, LENT(grey), file, 13) == 8);
}

/* request (iv): answers and pictures by hand; every refusal also where a later one would hold too */
static void grown(const char *name, const char *const *marker, const char *const *mask, const char *const *cross, const char *const *square) {
    uint8_t drawn[4][16] = {{0}}, t[16];
    const char *const *const rows[4] = {marker, mask, cross, square};
    uint64_t pings = strlen(marker[0]), n = 0;
    size_t row = row_len(1, (size_t)pings);
    while (marker[n]) n++;
    for (int k = 0; k < 4; k++)
        for (size_t y = 0; y < n; y++)
            for (size_t x = 0; x < pings; x++)
                if (rows[k][y][x] == '#') drawn[k][y * row + x / 8] |= (uint8_t)(128 >> x % 8);
    size_t len = row * (size_t)n;
    for (int aslant = 0; aslant < 2; aslant++) {
        memset(t, 0x5a, sizeof t);
        uint32_t answer = (aslant ? qik_reconstruct_square : qik_reconstruct_cross)(pings, n, drawn[0], len, drawn[1], len, t, len + 1);
        must(name, answer == 0 && memcmp(t, drawn[2 + aslant], len) == 0 && t[len] == 0x5a);
    }
}

static void reconstructed(void) {
#define ROWS(...) ((const char *const[]){__VA_ARGS__, 0})
    grown("a step aslant", ROWS("#.", ".."), ROWS("#.", ".#"), ROWS("#.", ".."), ROWS("#.", ".#"));
    grown("no step over a gap", ROWS(".#......."), ROWS("###.#####"), ROWS("###......"), ROWS("###......"));
    grown("a ring, and a point inside it", ROWS("#....", ".....", ".....", ".....", "....."), ROWS("#####", "#...#", "#.#.#", "#...#", "#####"),
          ROWS("#####", "#...#", "#...#", "#...#", "#####"), ROWS("#####", "#...#", "#...#", "#...#", "#####"));
    grown("a spiral, from its inner end", ROWS(".......", ".......", "....#..", ".......", "......."), ROWS("#######", "......#", "#####.#", "#.....#", "#######"),
          ROWS("#######", "......#", "#####.#", "#.....#", "#######"), ROWS("#######", "......#", "#####.#", "#.....#", "#######"));
    grown("a line aslant", ROWS("....", "....", "..#.", "...."), ROWS("#...", ".#..", "..#.", "...#"), ROWS("....", "....", "..#.", "...."), ROWS("#...", ".#..", "..#.", "...#"));
    grown("around the end of a row", ROWS("........#", ".........", "........."), ROWS("........#", "#........", "########."), ROWS("........#", ".........", "........."),
          ROWS("........#", ".........", "........."));
    grown("nothing to grow", ROWS("...", "..."), ROWS("###", "###"), ROWS("...", "..."), ROWS("...", "..."));
    grown("no mask", ROWS("...", "..."), ROWS("...", "..."), ROWS("...", "..."), ROWS("...", "..."));
#undef ROWS
    static const uint8_t all[] = {0xff, 0x80, 0xff, 0x80}, point[] = {0x00, 0x80, 0, 0}, holed[] = {0xff, 0x00, 0xff, 0x80}, spare[] = {0x00, 0x7f, 0x00, 0x01};
    static const uint8_t longer[5] = {0}, ones[] = {0xff, 0xff, 0xff, 0xff};
    for (int aslant = 0; aslant < 2; aslant++) {
        plain_call *grow = aslant ? qik_reconstruct_square : qik_reconstruct_cross;
        uint8_t t[5];
#define REFUSED(name, call, number)                                                                                                                    \
    memset(t, 0x5a, sizeof t);                                                                                                                         \
    must(name, (call) == (number) && t[0] == 0x5a && t[1] == 0x5a && t[2] == 0x5a && t[3] == 0x5a && t[4] == 0x5a)
        REFUSED("SIZE before the marker's length", grow(0, 2, all, 3, all, 3, t, 0), 1);
        REFUSED("H 257", grow(9, 257, all, 4, all, 4, t, 5), 1);
        REFUSED("a marker too short, and a mask", grow(9, 2, all, 3, all, 3, t, 0), 2);
        REFUSED("a marker too long", grow(9, 2, longer, 5, all, 4, t, 5), 2);
        REFUSED("marker and mask of one length, which is not the frame's", grow(9, 2, longer, 5, longer, 5, t, 5), 2);
        REFUSED("a mask too short, before MARKER", grow(9, 2, point, 4, holed, 3, t, 0), 2);
        REFUSED("MARKER before ROOM", grow(9, 2, point, 4, holed, 4, t, 0), 12);
        REFUSED("ROOM", grow(9, 2, point, 4, all, 4, t, 3), 8);
#undef REFUSED
        must("the padding of a marker is no marker point", grow(9, 2, spare, 4, all, 4, t, 5) == 0 && t[0] == 0 && t[1] == 0 && t[2] == 0 && t[3] == 0);
        must("the padding of a mask is no mask point", grow(9, 2, point, 4, ones, 4, t, 5) == 0 && memcmp(t, all, 4) == 0);
    }
}

/* an opening is always a marker inside its own picture, whatever the element; growing is done a second time with nothing changed */
static void opened_then_grown(uint64_t seed) {
    for (long round = 0; round < 200; round++) {
        begin(seed, "opened, then grown", (uint64_t)round);
        do some_frame();
        while (!is_sized());
        for (int b = 0; b < BUFFERS; b++) fresh(b, 0);
        size_t n = needed(1);
        do some_picture(SOURCE, 0, 1);
        while (length[SOURCE] != n);
        do some_element(ELEMENT, 0);
        while (qik_open1(w, h, bytes_of(SOURCE), n, bytes_of(ELEMENT), length[ELEMENT], bytes_of(TARGET), n, bytes_of(SCRATCH), n) != 0);
        plain_call *grow = round % 2 ? qik_reconstruct_square : qik_reconstruct_cross;
        must("an opening is a marker", grow(w, h, bytes_of(TARGET), n, bytes_of(SOURCE), n, bytes_of(SCRATCH), n) == 0);
        must("growing twice", grow(w, h, bytes_of(SCRATCH), n, bytes_of(SOURCE), n, bytes_of(TARGET), n) == 0 && memcmp(bytes_of(SCRATCH), bytes_of(TARGET), n) == 0);
    }
}

/* each one-bit operation, writer and chained run on a picture and on the same one with ones in its padding: same answer, same bytes */
static void repadded(void) {
    static const uint8_t clean[] = {0xb5, 0x80, 0x6e, 0x00, 0xff, 0x80}, ones[] = {0xb5, 0xff, 0x6e, 0x7f, 0xff, 0x81};
    static const uint8_t back[] = {3, 1, 2, 0, 0xe0}, next[] = {2, 1, 0, 0, 0x40}, twice[] = {2, 1, 1, 0, 0xc0, 2, 1, 1, 0, 0xc0};
    uint8_t t[2][32], m[2][32];
    const uint8_t *source[2] = {clean, ones};
    static const uint8_t full[] = {0xff, 0x80, 0xff, 0x80, 0xff, 0x80}, point[] = {0x80, 0, 0, 0, 0, 0x80};
    for (int which = 0; which < 15; which++) {
        uint32_t answer[2];
        memset(t, 0xaa, sizeof t), memset(m, 0xaa, sizeof m);
        for (int i = 0; i < 2; i++) {
            const uint8_t *s = source[i];
            switch (which) {
            case 0: answer[i] = qik_erode1(9, 3, s, 6, LENT(back), t[i], 8); break;
            case 1: answer[i] = qik_dilate1(9, 3, s, 6, LENT(back), t[i], 8); break;
            case 2: answer[i] = qik_open1(9, 3, s, 6, LENT(back), t[i], 8, m[i], 8); break;
            case 3: answer[i] = qik_close1(9, 3, s, 6, LENT(back), t[i], 8, m[i], 8); break;
            case 4: answer[i] = qik_hit_or_miss(9, 3, s, 6, LENT(back), LENT(next), t[i], 8); break;
            case 5: answer[i] = qik_chain_erode1(9, 3, s, 6, LENT(back), 2, LENT(twice), t[i], 8, m[i], 8); break;
            case 6: answer[i] = qik_chain_dilate1(9, 3, s, 6, LENT(back), 2, LENT(twice), t[i], 8, m[i], 8); break;
            case 7: answer[i] = qik_ech_write(1, 9, 3, s, 6, t[i], 18); break;
            case 8: answer[i] = qik_pbm_write(9, 3, s, 6, t[i], 18); break;
            case 9: answer[i] = qik_white_tophat1(9, 3, s, 6, LENT(back), t[i], 8, m[i], 8); break;
            case 10: answer[i] = qik_black_tophat1(9, 3, s, 6, LENT(back), t[i], 8, m[i], 8); break;
            case 11: answer[i] = qik_gradient1(9, 3, s, 6, LENT(back), t[i], 8, m[i], 8); break;
            case 12: answer[i] = qik_reconstruct_cross(9, 3, s, 6, LENT(full), t[i], 8); break;
            case 13: answer[i] = qik_reconstruct_cross(9, 3, LENT(point), s, 6, t[i], 8); break;
            default: answer[i] = qik_reconstruct_square(9, 3, LENT(point), s, 6, t[i], 8);
            }
        }
        must("ones in the padding change nothing", answer[0] == 0 && answer[1] == 0 && memcmp(t[0], t[1], 32) == 0 && memcmp(m[0], m[1], 32) == 0);
    }
}

/* the largest frame by the trailing default at both depths, and a chain of many paths: few, and slow */
static void large(uint64_t seed) {
    static const uint8_t trailing[] = {31, 1, 30, 0, 255, 255, 255, 254}, seven[] = {7, 7, 3, 3, 254, 254, 254, 254, 254, 254, 254};
    for (int i = 0; i < FUNCTIONS; i++) {
        const struct function *f = &functions[i];
        for (int b = 0; b < BUFFERS; b++) fresh(b, 0);
        if (f->kind == FLAT && f->way == 'd') {
            w = 1024, h = 256;
            do some_picture(SOURCE, 0, f->depth);
            while (length[SOURCE] != row_len(f->depth, (size_t)w) * (size_t)h);
            memcpy(bytes_of(ELEMENT), trailing, length[ELEMENT] = sizeof trailing);
            fresh(TARGET, length[SOURCE] + 3);
            compared(f, seed, -1);
        }
        if (f->kind == GROW) { /* the whole of a serpentine from its one end; the rows between the long ones have a point each */
            w = 1024, h = 256;
            fresh(SOURCE, 128 * 256), fresh(ELEMENT, 128 * 256), fresh(TARGET, 128 * 256 + 3);
            memset(bytes_of(SOURCE), 0, 128 * 256), memset(bytes_of(ELEMENT), 0, 128 * 256);
            for (int y = 0; y < 256; y++) {
                if (y % 2 == 0) memset(bytes_of(ELEMENT) + y * 128, 255, 128);
                else bytes_of(ELEMENT)[y * 128 + (y % 4 == 1 ? 127 : 0)] = y % 4 == 1 ? 1 : 128;
            }
            bytes_of(SOURCE)[0] = 128;
            compared(f, seed, -1);
            must("a serpentine is grown whole", memcmp(bytes_of(TARGET), bytes_of(ELEMENT), 128 * 256) == 0);
        }
        if (f->kind == CHECK) { /* 31 x 31 by five of 7 x 7, and the same with one cell less */
            links = 5;
            for (int k = 0; k < 5; k++) memcpy(bytes_of(OTHER) + k * 11, seven, 11);
            length[OTHER] = 55;
            uint8_t *d = bytes_of(ELEMENT);
            length[ELEMENT] = descriptor_len(31, 31, 0);
            memset(d, 255, length[ELEMENT]);
            d[0] = d[1] = 31, d[2] = d[3] = 15;
            clear_padding(d + 4, 31, 31);
            must("31 x 31 by five of 7 x 7", compared(f, seed, -1) == 0);
            d[4 + 20 * 4] ^= 4;
            must("31 x 31 less one by five of 7 x 7", compared(f, seed, -2) == 7);
            memset(d, 0, length[ELEMENT] = descriptor_len(64, 64, 0)); /* the same in a corner of 64 x 64 */
            d[0] = d[1] = 64, d[2] = d[3] = 48;
            for (int r = 33; r < 64; r++)
                for (int c = 33; c < 64; c++) set_cell(d, c, r);
            must("31 x 31 in a corner of 64 x 64", compared(f, seed, -3) == 0);
            set_cell(d, 0, 0);
            must("and the offset -48, -48", compared(f, seed, -4) == 7);
        }
    }
}

int main(int argc, char **argv) {
    uint64_t seed = argc > 1 ? strtoull(argv[1], 0, 10) : 1;
    long rounds = argc > 2 ? strtol(argv[2], 0, 10) : 1000, unmet = 0;
    printf("compare: seed %llu, %ld rounds of each of %d functions\n", (unsigned long long)seed, rounds, FUNCTIONS);
    worked();
    netpbm();
    reconstructed();
    opened_then_grown(seed);
    repadded();
    ends();
    begin(seed, "large", 0);
    large(seed);
    printf("%-16s %ld checks, %ld wrong\n", "by hand", fixed, wrong);
    for (int i = 0; i < FUNCTIONS; i++) {
        const struct function *f = &functions[i];
        long met[18] = {0}, before = differing;
        for (long round = 0; round < rounds; round++) {
            begin(seed, f->name, (uint64_t)round);
            some_call(f);
            met[compared(f, seed, round)]++;
        }
        printf("%-16s %ld calls, %ld differ; answers", f->name, rounds, differing - before);
        for (int n = 0; n < 18; n++)
            if (met[n]) printf(" %d: %ld", n, met[n]);
        for (const char *c = f->numbers; *c && rounds >= 500; c++)
            if (!met[*c - '0']) unmet++, printf(" (%d was not met)", *c - '0');
        putchar('\n');
    }
    printf("compare: %ld checks by hand, %ld wrong; %ld calls, %ld differ; %ld refusals not met\n", fixed, wrong, rounds * FUNCTIONS, differing, unmet);
    return wrong || differing || unmet;
}
