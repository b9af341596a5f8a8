#include "ownfind.h"

#include <string.h>

enum { CELLS = 64, LINK = 8, LINKS = 5, FAR = 63, GRID = 2 * FAR + 1, TRIES = 51 };

struct shape {
    int w, h, column, row;
    uint8_t set[CELLS][CELLS]; /* [row][column] */
};

static int least(int a, int b) { return a < b ? a : b; }
static int most(int a, int b) { return a > b ? a : b; }
static int positive(int a) { return a > 0 ? a : 0; }

static int read_shape(const uint8_t *d, size_t len, struct shape *s) {
    if (len < 4 || d[0] < 1 || d[0] > CELLS || d[1] < 1 || d[1] > CELLS || d[2] >= d[0] || d[3] >= d[1]) return 0;
    size_t row = (size_t)(d[0] + 7) / 8;
    if (len != 4 + d[1] * row) return 0;
    *s = (struct shape){d[0], d[1], d[2], d[3], {{0}}};
    for (size_t y = 0; y < d[1]; y++)
        for (size_t x = 0; x < 8 * row; x++) {
            int bit = d[4 + y * row + x / 8] >> (7 - x % 8) & 1;
            if (x >= d[0] && bit) return 0;
            if (x < d[0]) s->set[y][x] = (uint8_t)bit;
        }
    return 1;
}

/* ---- the check: all sums are the element's offsets, and each has a path */

static uint8_t come[LINKS + 1][GRID][GRID];

/* from (0, 0) by one cell of each link, every place on the way within the box */
static void walk(const struct shape *link, int links, int left, int right, int top, int bottom) {
    memset(come, 0, sizeof come);
    come[0][FAR][FAR] = 1;
    for (int i = 0; i < links; i++)
        for (int y = -FAR; y <= FAR; y++)
            for (int x = -FAR; x <= FAR; x++)
                for (int r = 0; come[i][y + FAR][x + FAR] && r < link[i].h; r++)
                    for (int c = 0; c < link[i].w; c++) {
                        int nx = x + c - link[i].column, ny = y + r - link[i].row;
                        if (link[i].set[r][c] && nx >= left && nx <= right && ny >= top && ny <= bottom) come[i + 1][ny + FAR][nx + FAR] = 1;
                    }
}

static int has(const struct shape *e, int x, int y) {
    int c = x + e->column, r = y + e->row;
    return c >= 0 && c < e->w && r >= 0 && r < e->h && e->set[r][c];
}

static int accepted(const struct shape *e, const struct shape *link, int links) {
    walk(link, links, -FAR, FAR, -FAR, FAR);
    for (int y = -FAR; y <= FAR; y++)
        for (int x = -FAR; x <= FAR; x++)
            if (come[links][y + FAR][x + FAR] != has(e, x, y)) return 0;
    for (int y = -FAR; y <= FAR; y++)
        for (int x = -FAR; x <= FAR; x++)
            if (has(e, x, y)) {
                walk(link, links, least(0, x), most(0, x), least(0, y), most(0, y));
                if (!come[links][y + FAR][x + FAR]) return 0;
            }
    return 1;
}

/* ---- the candidates */

/* along one side: the origin, the first and the last set cell, counted from where the hull begins, and its length */
struct side {
    int start, origin, first, last, span;
};

static struct side side_of(int origin, int first, int last) {
    int start = least(origin, first);
    return (struct side){start, origin - start, first - start, positive(last - start), positive(most(origin, last) - start)};
}

static int part(int of, int x, int i) { return least(of, positive(x - of * i)); }

/* ---- a sum: the element is taken apart, link by link */

enum { CHOICES = 512, STEPS = 64 };

/* a set of places, and its origin, which is counted round the end where a link takes it past one */
struct rest {
    uint8_t set[CELLS][CELLS];
    int x, y;
};

static int in(const struct rest *b, int x, int y) { return x >= 0 && x < CELLS && y >= 0 && y < CELLS && b->set[y][x]; }

struct ends {
    int x, y, to_x, to_y; /* the first and the last place, row by row */
};

static struct ends ends_of(const struct rest *b) {
    struct ends e = {-1, -1, -1, -1};
    for (int y = 0; y < CELLS; y++)
        for (int x = 0; x < CELLS; x++)
            if (b->set[y][x]) {
                if (e.x < 0) e.x = x, e.y = y;
                e.to_x = x, e.to_y = y;
            }
    return e;
}

static int one_place(struct ends e) { return e.x >= 0 && e.x == e.to_x && e.y == e.to_y; }

/* part number j: its first cell is in column `first` of its row 0, its last in (last, high); where the two ends lie on those of b, it has every cell that is set beside both */
static int part_no(const struct rest *b, struct ends e, int j, struct shape *p, struct rest *left) {
    int high = 7 - j / 64, last = 7 - j / 8 % 8, first = j % 8, leftmost = 0;
    *p = (struct shape){LINK, LINK, 0, 0, {{0}}};
    for (int r = 0; r <= high; r++)
        for (int c = 0; c < LINK; c++)
            if (in(b, e.x - first + c, e.y + r) && in(b, e.to_x - last + c, e.to_y - high + r)) p->set[r][c] = 1, leftmost |= c == 0;
    if (!p->set[0][first] || !p->set[high][last]) return 0;
    if (!one_place(e) && ((high == 0 && last == first) || !leftmost)) return 0;
    memset(left, 0, sizeof *left);
    for (int y = 0; y < CELLS; y++)
        for (int x = 0; x < CELLS; x++)
            if (b->set[y][x]) {
                int all = 1;
                for (int r = 0; all && r < LINK; r++)
                    for (int c = 0; c < LINK; c++)
                        if (p->set[r][c] && !in(b, x + c - first, y + r)) all = 0;
                left->set[y][x] = (uint8_t)all;
            }
    return 1;
}

/* every place of b that is in the quarter (to the right or left, below or above the origin) is a place of `left` in its quarter and a cell of p in its own; the sign 0 asks for no quarter */
static int made_up(const struct rest *b, const struct shape *p, int first, const struct rest *left, int right, int down) {
    for (int y = 0; y < CELLS; y++)
        for (int x = 0; x < CELLS; x++) {
            if (!b->set[y][x] || right * (x - b->x) < 0 || down * (y - b->y) < 0) continue;
            int found = 0;
            for (int r = 0; !found && r < LINK; r++)
                for (int c = 0; c < LINK; c++) {
                    int fx = x - c + first, fy = y - r;
                    if (p->set[r][c] && right * (c - p->column) >= 0 && down * (r - p->row) >= 0 && in(left, fx, fy) && right * (fx - left->x) >= 0 && down * (fy - left->y) >= 0) found = 1;
                }
            if (!found) return 0;
        }
    return 1;
}

/* part j with the first origin that suits all four quarters, and what it leaves */
static int divides(const struct rest *b, struct ends e, int j, struct shape *p, struct rest *left) {
    if (!part_no(b, e, j, p, left) || !made_up(b, p, j % 8, left, 0, 0)) return 0;
    for (int o = 0; o < LINK * LINK; o++) {
        p->column = o % 8, p->row = o / 8;
        left->x = (b->x + j % 8 - p->column + CELLS) % CELLS, left->y = (b->y - p->row + CELLS) % CELLS;
        if (made_up(b, p, j % 8, left, -1, -1) && made_up(b, p, j % 8, left, 1, -1) && made_up(b, p, j % 8, left, -1, 1) && made_up(b, p, j % 8, left, 1, 1)) return 1;
    }
    return 0;
}

/* the links of a sum, or 0: depth first, one part tried at each step */
static int take_apart(const struct shape *e, struct shape *link) {
    static struct rest b[LINKS + 1];
    int number[LINKS + 1] = {0}, depth = 0;
    memset(b, 0, sizeof b);
    for (int y = 0; y < e->h; y++)
        for (int x = 0; x < e->w; x++) b[0].set[y][x] = e->set[y][x];
    b[0].x = e->column, b[0].y = e->row;
    for (int step = 0; step < STEPS; step++) {
        struct ends ends = ends_of(&b[depth]);
        if (one_place(ends) && ends.x == b[depth].x && ends.y == b[depth].y) return depth;
        int j = number[depth];
        while (depth < LINKS && j < CHOICES && !divides(&b[depth], ends, j, &link[depth], &b[depth + 1])) j++;
        if (depth < LINKS && j < CHOICES)
            number[depth++] = j, number[depth] = 0;
        else if (depth > 0)
            number[--depth]++;
        else
            return 0;
    }
    struct ends ends = ends_of(&b[depth]);
    return one_place(ends) && ends.x == b[depth].x && ends.y == b[depth].y ? depth : 0;
}

/* writes the links one after another, where there is room */
static struct own_found written(const struct shape *link, int links, uint8_t *chain, size_t chain_len) {
    size_t bytes = (size_t)(links * (4 + link[0].h));
    if (chain_len < bytes) return (struct own_found){8, 0, 0, 0};
    for (int i = 0; i < links; i++) {
        *chain++ = (uint8_t)link[i].w, *chain++ = (uint8_t)link[i].h, *chain++ = (uint8_t)link[i].column, *chain++ = (uint8_t)link[i].row;
        for (int r = 0; r < link[i].h; r++, chain++) {
            *chain = 0;
            for (int c = 0; c < link[i].w; c++) *chain = (uint8_t)(*chain | link[i].set[r][c] << (7 - c));
        }
    }
    return (struct own_found){0, links, (int)bytes, 0};
}

struct own_found own_find_chain(const uint8_t *element, size_t element_len, uint8_t *chain, size_t chain_len) {
    static struct shape e, link[LINKS];
    if (!read_shape(element, element_len, &e)) return (struct own_found){4, 0, 0, 0};
    int left = CELLS, right = 0, top = CELLS, bottom = 0, near = 4 * CELLS, far = 0, low = 4 * CELLS, high = -CELLS;
    for (int r = 0; r < e.h; r++)
        for (int c = 0; c < e.w; c++)
            if (e.set[r][c]) {
                left = least(left, c), right = most(right, c), top = least(top, r), bottom = most(bottom, r);
                near = least(near, c + r), far = most(far, c + r), low = least(low, c - r), high = most(high, c - r);
            }
    struct side x = side_of(e.column, left, right), y = side_of(e.row, top, bottom);
    if (x.span > 7 * LINKS || y.span > 7 * LINKS) return (struct own_found){18, 0, 0, 0};
    int any = left < CELLS;
    int nw = any ? near - left - top : 0, se = any ? right + bottom - far : 0, sw = any ? low - (left - bottom) : 0, ne = any ? right - top - high : 0;
    for (int t = 0; t < TRIES; t++) {
        int whole = t == 0, boxed = t < 2;
        int side = boxed ? 7 : 7 - (t - 2) / 7, share = boxed ? 7 : 7 - (t - 2) % 7, cut = boxed ? 0 : share;
        int n = most(x.span, y.span), links = 1;
        while (!whole && links < LINKS && links * side < n) links++;
        for (int i = 0; i < links; i++) {
            link[i] = (struct shape){least(side, x.span) + 1, least(side, y.span) + 1, part(share, x.origin, i), part(share, y.origin, i), {{0}}};
            int f = part(side, x.first, i), l = part(side, x.last, i), u = part(side, y.first, i), d = part(side, y.last, i);
            for (int r = 0; r < link[i].h; r++)
                for (int c = 0; c < link[i].w; c++) {
                    if (whole) {
                        link[i].set[r][c] = y.start + r < CELLS && x.start + c < CELLS && e.set[y.start + r][x.start + c];
                        continue;
                    }
                    int begin = f + most(positive(part(cut, nw, i) - (r - u)), positive(part(cut, sw, i) - (d - r)));
                    int end = positive(l - most(positive(part(cut, ne, i) - (r - u)), positive(part(cut, se, i) - (d - r))));
                    link[i].set[r][c] = r >= u && r <= d && c >= begin && c <= end;
                }
        }
        if (accepted(&e, link, links)) return written(link, links, chain, chain_len);
    }
    int links = take_apart(&e, link);
    if (links && accepted(&e, link, links)) return written(link, links, chain, chain_len);
    return (struct own_found){18, 0, 0, 1};
}
