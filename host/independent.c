#include "independent.h"

#include <stdio.h>
#include <stdlib.h>
#include <string.h>

/* ---- pictures */

/* a frame as the definitions see it: values of points, and nothing of packing */
struct picture {
    int w, h;
    uint8_t *value;
};

/* the value of a point */
static uint8_t *at(const struct picture *a, int x, int y) { return a->value + y * a->w + x; }

static int sized(uint64_t w, uint64_t h) { return w >= 1 && w <= 1024 && h >= 1 && h <= 256; }

static size_t picture_len(int depth, uint64_t w, uint64_t h) { return (size_t)(depth == 1 ? (w + 7) / 8 * h : w * h); }

/* bit number i of a row, counted from the highest of its first byte */
static int bit_of(const uint8_t *row, size_t i) { return row[i / 8] >> (7 - i % 8) & 1; }

/* whether all bits of rows of w after the w-th are 0 */
static int padding_clear(const uint8_t *rows, size_t w, size_t h) {
    size_t bytes = (w + 7) / 8;
    for (size_t y = 0; y < h; y++)
        for (size_t x = w; x < bytes * 8; x++)
            if (bit_of(rows + y * bytes, x)) return 0;
    return 1;
}

static struct picture *new_picture(int w, int h) {
    struct picture *a = calloc(1, sizeof *a + (size_t)(w * h));
    if (!a) abort();
    a->w = w, a->h = h, a->value = (uint8_t *)(a + 1);
    return a;
}

static struct picture *picture_from(int depth, uint64_t w, uint64_t h, const uint8_t *bytes) {
    struct picture *a = new_picture((int)w, (int)h);
    for (int y = 0; y < a->h; y++)
        for (int x = 0; x < a->w; x++)
            *at(a, x, y) = depth == 1 ? (uint8_t)bit_of(bytes + (size_t)y * ((w + 7) / 8), (size_t)x) : bytes[(size_t)y * w + (size_t)x];
    return a;
}

static void picture_to(int depth, const struct picture *a, uint8_t *bytes) {
    size_t row = picture_len(depth, (uint64_t)a->w, 1);
    memset(bytes, 0, row * (size_t)a->h);
    for (int y = 0; y < a->h; y++)
        for (int x = 0; x < a->w; x++) {
            if (depth == 8) bytes[(size_t)y * row + (size_t)x] = *at(a, x, y);
            else if (*at(a, x, y)) bytes[(size_t)y * row + (size_t)(x / 8)] |= (uint8_t)(128 >> x % 8);
        }
}

/* the complement within the frame */
static void turn_over(struct picture *a) {
    for (int y = 0; y < a->h; y++)
        for (int x = 0; x < a->w; x++) *at(a, x, y) = !*at(a, x, y);
}

/* 1 and 2 of the table, or 0: what stands in the padding is free */
static int source_refusal(int depth, uint64_t w, uint64_t h, struct lent source) {
    if (!sized(w, h)) return 1;
    if (source.len != picture_len(depth, w, h)) return 2;
    return 0;
}

/* ---- elements */

struct offset {
    int dx, dy, height;
};

struct element {
    int w, h, n;
    struct offset b[4096];
};

/* the bytes of the descriptor that starts here, weights apart; 0 where it does not say a w and h in range */
static size_t descriptor_len(struct lent d) {
    if (d.len < 2 || d.at[0] < 1 || d.at[0] > 64 || d.at[1] < 1 || d.at[1] > 64) return 0;
    return 4 + (size_t)d.at[1] * ((d.at[0] + 7u) / 8);
}

/* whether d is a descriptor, and if so its element */
static int read_element(struct lent d, int weighted, struct element *e) {
    size_t cells_end = descriptor_len(d);
    if (cells_end == 0) return 0;
    int w = d.at[0], h = d.at[1];
    size_t row = (size_t)(w + 7) / 8;
    if (d.len != cells_end + (weighted ? (size_t)(w * h) : 0)) return 0;
    if (d.at[2] >= w || d.at[3] >= h) return 0;
    if (!padding_clear(d.at + 4, (size_t)w, (size_t)h)) return 0;
    e->w = w, e->h = h, e->n = 0;
    for (int r = 0; r < h; r++)
        for (int c = 0; c < w; c++) {
            int set = bit_of(d.at + 4 + (size_t)r * row, (size_t)c);
            int height = weighted ? d.at[cells_end + (size_t)(r * w + c)] : 0;
            if (height > 127) height -= 256;
            if (height == -128 || (!set && height != 0)) return 0;
            if (set) e->b[e->n++] = (struct offset){c - d.at[2], r - d.at[3], height};
        }
    return 1;
}

static int has(const struct element *e, int dx, int dy) {
    for (int i = 0; i < e->n; i++)
        if (e->b[i].dx == dx && e->b[i].dy == dy) return 1;
    return 0;
}

/* ---- the definitions */

static int inside(const struct picture *a, int x, int y) { return x >= 0 && x < a->w && y >= 0 && y < a->h; }

static int held(int v) { return v < 0 ? 0 : v > 255 ? 255 : v; }

/* the least A(p + b) - g(b), where 255 contributes 255 at any height (request (v)), or top with no such b; one bit is the same with top 1 */
static struct picture *eroded(const struct picture *a, const struct element *e, int top) {
    struct picture *t = new_picture(a->w, a->h);
    for (int y = 0; y < a->h; y++)
        for (int x = 0; x < a->w; x++) {
            int least = 1000, any = 0;
            for (int i = 0; i < e->n; i++) {
                int u = x + e->b[i].dx, v = y + e->b[i].dy;
                if (!inside(a, u, v)) continue;
                int value = *at(a, u, v) == 255 ? 255 : *at(a, u, v) - e->b[i].height;
                if (!any || value < least) least = value;
                any = 1;
            }
            *at(t, x, y) = (uint8_t)(any ? held(least) : top);
        }
    return t;
}

/* the greatest A(p - b) + g(b), where 0 contributes 0 at any height, or 0 with no such b */
static struct picture *dilated(const struct picture *a, const struct element *e) {
    struct picture *t = new_picture(a->w, a->h);
    for (int y = 0; y < a->h; y++)
        for (int x = 0; x < a->w; x++) {
            int greatest = -1000, any = 0;
            for (int i = 0; i < e->n; i++) {
                int u = x - e->b[i].dx, v = y - e->b[i].dy;
                if (!inside(a, u, v)) continue;
                int value = *at(a, u, v) == 0 ? 0 : *at(a, u, v) + e->b[i].height;
                if (!any || value > greatest) greatest = value;
                any = 1;
            }
            *at(t, x, y) = (uint8_t)(any ? held(greatest) : 0);
        }
    return t;
}

/* request (ii): each point less the other's, held at 0; of one bit that is set difference */
static void take_away(struct picture *a, const struct picture *b) {
    for (int y = 0; y < a->h; y++)
        for (int x = 0; x < a->w; x++) *at(a, x, y) = (uint8_t)held(*at(a, x, y) - *at(b, x, y));
}

static struct picture *swept(int depth, char way, const struct picture *a, const struct element *e) {
    return way == 'e' ? eroded(a, e, depth == 1 ? 1 : 255) : dilated(a, e);
}

static int operate(int depth, char way, uint64_t w, uint64_t h, struct lent source, struct lent element, int weighted, struct lent target,
                   struct lent scratch) {
    struct element e;
    int no = source_refusal(depth, w, h, source);
    if (no) return no;
    if (!read_element(element, weighted, &e)) return 4;
    size_t need = picture_len(depth, w, h);
    if (target.len < need || (way != 'e' && way != 'd' && scratch.len < need)) return 8;
    struct picture *a = picture_from(depth, w, h, source.at);
    if (way == 'e' || way == 'd') {
        struct picture *t = swept(depth, way, a, &e);
        picture_to(depth, t, target.at);
        free(t);
    } else {
        /* opening and white top-hat begin with erosion, closing and black top-hat with dilation, and go on from there; the gradient has both of the picture itself */
        int closes = way == 'c' || way == 'b';
        struct picture *middle = swept(depth, closes ? 'd' : 'e', a, &e);
        struct picture *t = swept(depth, closes ? 'e' : 'd', way == 'g' ? a : middle, &e);
        picture_to(depth, middle, scratch.at);
        if (way == 'b') take_away(t, a);
        if (way == 'g') take_away(t, middle);
        if (way == 'w') take_away(a, t);
        picture_to(depth, way == 'w' ? a : t, target.at);
        free(middle);
        free(t);
    }
    free(a);
    return 0;
}

int own_flat(int depth, char way, uint64_t w, uint64_t h, struct lent source, struct lent element, struct lent target, struct lent scratch) {
    return operate(depth, way, w, h, source, element, 0, target, scratch);
}

int own_weighted(char way, uint64_t w, uint64_t h, struct lent source, struct lent element, struct lent target, struct lent scratch) {
    return operate(8, way, w, h, source, element, 1, target, scratch);
}

int own_hit_or_miss(uint64_t w, uint64_t h, struct lent source, struct lent hit, struct lent miss, struct lent target) {
    struct element b, c;
    int no = source_refusal(1, w, h, source);
    if (no) return no;
    if (!read_element(hit, 0, &b) || !read_element(miss, 0, &c)) return 4;
    for (int i = 0; i < b.n; i++)
        if (has(&c, b.b[i].dx, b.b[i].dy)) return 5;
    if (target.len < picture_len(1, w, h)) return 8;
    struct picture *a = picture_from(1, w, h, source.at), *not_a = picture_from(1, w, h, source.at);
    turn_over(not_a);
    struct picture *in = eroded(a, &b, 1), *out = eroded(not_a, &c, 1);
    for (int y = 0; y < a->h; y++)
        for (int x = 0; x < a->w; x++) *at(in, x, y) = *at(in, x, y) && *at(out, x, y);
    picture_to(1, in, target.at);
    free(a);
    free(not_a);
    free(in);
    free(out);
    return 0;
}

/* ---- request (iv): growing a marker inside a mask */

int own_reconstruct(int aslant, uint64_t w, uint64_t h, struct lent marker, struct lent mask, struct lent target) {
    int no = source_refusal(1, w, h, marker);
    if (!no) no = source_refusal(1, w, h, mask);
    if (no) return no;
    struct picture *from = picture_from(1, w, h, marker.at), *in = picture_from(1, w, h, mask.at), *t = new_picture((int)w, (int)h);
    struct point {
        int x, y;
    } *queue = malloc((size_t)(w * h) * sizeof *queue);
    size_t first = 0, last = 0;
    if (!queue) abort();
    for (int y = 0; y < t->h; y++)
        for (int x = 0; x < t->w; x++) {
            if (!*at(from, x, y)) continue;
            if (!*at(in, x, y)) no = 12;
            *at(t, x, y) = 1, queue[last++] = (struct point){x, y};
        }
    if (!no && target.len < picture_len(1, w, h)) no = 8;
    /* each point is put into the queue once, when it is set */
    while (!no && first < last) {
        struct point p = queue[first++];
        for (int dy = -1; dy <= 1; dy++)
            for (int dx = -1; dx <= 1; dx++) {
                int x = p.x + dx, y = p.y + dy;
                if ((dx && dy && !aslant) || !inside(t, x, y) || !*at(in, x, y) || *at(t, x, y)) continue;
                *at(t, x, y) = 1, queue[last++] = (struct point){x, y};
            }
    }
    if (!no) picture_to(1, t, target.at);
    free(from);
    free(in);
    free(t);
    free(queue);
    return no;
}

/* ---- chains */

struct chain {
    int links;
    struct element link[5];
};

static const struct told none_told = {0, 0, 0};

/* 6 and 4 of a chain's own order, or 0 and the links */
static int read_chain(uint64_t links, struct lent bytes, struct chain *chain) {
    if (links < 1 || links > 5) return 6;
    chain->links = (int)links;
    for (int i = 0; i < chain->links; i++) {
        size_t len = descriptor_len(bytes);
        if (len == 0 || len > bytes.len) return 4;
        if (!read_element((struct lent){bytes.at, len}, 0, &chain->link[i])) return 4;
        if (chain->link[i].w > 8 || chain->link[i].h > 8) return 6;
        bytes.at += len, bytes.len -= len;
    }
    return bytes.len ? 4 : 0;
}

static int check_refusal(struct lent element, uint64_t links, struct lent chain, struct element *e, struct chain *c) {
    if (!read_element(element, 0, e)) return 4;
    return read_chain(links, chain, c);
}

/* no element has an offset further than 63 and no chain a sum further than 35 */
enum { FAR = 64, SIDE = 2 * FAR + 1 };

/* where a lone echo at (x, y) comes to, in a frame of w by h */
static void lone_echo(const struct chain *c, int w, int h, int x, int y, uint8_t come[SIDE][SIDE]) {
    memset(come, 0, SIDE * SIDE);
    come[y][x] = 1;
    for (int i = 0; i < c->links; i++) {
        uint8_t next[SIDE][SIDE];
        memset(next, 0, sizeof next);
        for (int v = 0; v < h; v++)
            for (int u = 0; u < w; u++) {
                if (!come[v][u]) continue;
                for (int k = 0; k < c->link[i].n; k++) {
                    int p = u + c->link[i].b[k].dx, q = v + c->link[i].b[k].dy;
                    if (p >= 0 && p < w && q >= 0 && q < h) next[q][p] = 1;
                }
            }
        memcpy(come, next, SIDE * SIDE);
    }
}

static int path_to(const struct chain *c, int dx, int dy) {
    uint8_t come[SIDE][SIDE];
    int x = dx < 0 ? -dx : 0, y = dy < 0 ? -dy : 0;
    lone_echo(c, abs(dx) + 1, abs(dy) + 1, x, y, come);
    return come[y + dy][x + dx];
}

struct told own_check_chain(struct lent element, uint64_t links, struct lent chain) {
    struct element e;
    struct chain c;
    uint8_t sum[SIDE][SIDE];
    int no = check_refusal(element, links, chain, &e, &c);
    if (no) return (struct told){no, 0, 0};
    lone_echo(&c, SIDE, SIDE, FAR, FAR, sum);
    for (int dy = -FAR; dy <= FAR; dy++)
        for (int dx = -FAR; dx <= FAR; dx++)
            if (has(&e, dx, dy) ? !path_to(&c, dx, dy) : sum[FAR + dy][FAR + dx]) return (struct told){7, dx, dy};
    return none_told;
}

double own_choices(struct lent element, uint64_t links, struct lent chain) {
    struct element e;
    struct chain c;
    double n = 1;
    if (check_refusal(element, links, chain, &e, &c)) return 0;
    for (int i = 0; i < c.links; i++) n *= c.link[i].n;
    return n;
}

static int between(int v, int end) { return end < 0 ? v >= end && v <= 0 : v >= 0 && v <= end; }

struct told own_check_chain_by_choices(struct lent element, uint64_t links, struct lent chain) {
    struct element e;
    struct chain c;
    static uint8_t sum[SIDE][SIDE], path[SIDE][SIDE];
    int chosen[5] = {0};
    int no = check_refusal(element, links, chain, &e, &c);
    if (no) return (struct told){no, 0, 0};
    memset(sum, 0, sizeof sum);
    memset(path, 0, sizeof path);
    int any = 1;
    for (int i = 0; i < c.links; i++) any = any && c.link[i].n > 0;
    while (any) {
        int dx = 0, dy = 0, x = 0, y = 0, good = 1, i;
        for (i = 0; i < c.links; i++) dx += c.link[i].b[chosen[i]].dx, dy += c.link[i].b[chosen[i]].dy;
        for (i = 0; i < c.links; i++) {
            x += c.link[i].b[chosen[i]].dx, y += c.link[i].b[chosen[i]].dy;
            good = good && between(x, dx) && between(y, dy);
        }
        sum[FAR + dy][FAR + dx] = 1;
        if (good) path[FAR + dy][FAR + dx] = 1;
        for (i = 0; i < c.links && ++chosen[i] == c.link[i].n; i++) chosen[i] = 0;
        any = i < c.links;
    }
    for (int dy = -FAR; dy <= FAR; dy++)
        for (int dx = -FAR; dx <= FAR; dx++)
            if (has(&e, dx, dy) ? !path[FAR + dy][FAR + dx] : sum[FAR + dy][FAR + dx]) return (struct told){7, dx, dy};
    return none_told;
}

struct told own_chained(int depth, char way, uint64_t w, uint64_t h, struct lent source, struct lent element, uint64_t links, struct lent chain,
                        struct lent first, struct lent second) {
    struct chain c;
    int no = source_refusal(depth, w, h, source);
    if (no) return (struct told){no, 0, 0};
    struct told checked = own_check_chain(element, links, chain);
    if (checked.number) return checked;
    size_t need = picture_len(depth, w, h);
    if (first.len < need || second.len < need) return (struct told){8, 0, 0};
    read_chain(links, chain, &c);
    struct picture *a = picture_from(depth, w, h, source.at);
    for (int i = 0; i < c.links; i++) {
        struct picture *t = swept(depth, way, a, &c.link[i]);
        picture_to(depth, t, i % 2 == 0 ? first.at : second.at);
        free(a);
        a = t;
    }
    free(a);
    return none_told;
}

struct lent own_last_picture(struct lent first, struct lent second, int depth, uint64_t w, uint64_t h, uint64_t links) {
    size_t need = sized(w, h) ? picture_len(depth, w, h) : 0;
    if (need == 0 || links < 1 || links > 5 || first.len < need || second.len < need) return (struct lent){first.at, 0};
    return (struct lent){links % 2 == 1 ? first.at : second.at, need};
}

/* ---- ECH */

static int depth_of(uint64_t kind) { return kind == 2 ? 8 : 1; }

struct file_told own_ech_read(struct lent file, struct lent target) {
    struct file_told r = {0, 0, 0, 0};
    const uint8_t *f = file.at;
    if (file.len < 10 || f[0] != 69 || f[1] != 67 || f[2] != 72 || f[3] != 1 || f[4] != 0 || f[5] < 1 || f[5] > 3) {
        r.number = 9;
        return r;
    }
    unsigned w = f[6] + 256u * f[7], h = f[8] + 256u * f[9];
    struct lent body = {file.at + 10, file.len - 10};
    r.number = source_refusal(depth_of(f[5]), w, h, body);
    if (!r.number && f[5] != 2 && !padding_clear(body.at, w, h)) r.number = 3;
    if (!r.number && target.len < body.len) r.number = 8;
    if (r.number) return r;
    struct picture *a = picture_from(depth_of(f[5]), w, h, body.at);
    if (f[5] == 3) turn_over(a);
    picture_to(depth_of(f[5]), a, target.at);
    free(a);
    return (struct file_told){0, f[5] == 2 ? 2 : 1, w, h}; /* kind 3 is reported as kind 1 */
}

int own_ech_write(uint64_t kind, uint64_t w, uint64_t h, struct lent source, struct lent target) {
    if (kind < 1 || kind > 3) return 9;
    int no = source_refusal(depth_of(kind), w, h, source);
    if (no) return no;
    if (kind == 3) return 15;
    if (target.len < 10 + source.len) return 8;
    const uint8_t head[10] = {69, 67, 72, 1, 0, (uint8_t)kind, (uint8_t)(w % 256), (uint8_t)(w / 256), (uint8_t)(h % 256), (uint8_t)(h / 256)};
    memcpy(target.at, head, 10);
    struct picture *a = picture_from(depth_of(kind), w, h, source.at);
    picture_to(depth_of(kind), a, target.at + 10);
    free(a);
    return 0;
}

/* ---- Netpbm */

/* the bytes past the magic that count, comments left out, and where each of them stood */
struct counted {
    const uint8_t *file;
    size_t *place, n, next;
};

static struct counted counted_of(struct lent file) {
    struct counted c = {file.at, malloc((file.len + 1) * sizeof(size_t)), 0, 0};
    if (!c.place) abort();
    for (size_t i = 2; i < file.len; i++) {
        if (file.at[i] == '#') {
            while (i < file.len && file.at[i] != '\n' && file.at[i] != '\r') i++;
            continue;
        }
        c.place[c.n++] = i;
    }
    return c;
}

static int is_white(uint8_t b) { return strchr(" \t\n\v\f\r", b) != 0 && b != 0; }

static int is_at(const struct counted *c, int white) {
    if (c->next >= c->n) return 0;
    uint8_t b = c->file[c->place[c->next]];
    return white ? is_white(b) : b >= '0' && b <= '9';
}

/* white space, one or more, then a number; 0 where either is missing */
static int take_number(struct counted *c, double *value) {
    if (!is_at(c, 1)) return 0;
    while (is_at(c, 1)) c->next++;
    if (!is_at(c, 0)) return 0;
    for (*value = 0; is_at(c, 0); c->next++) *value = *value * 10 + (c->file[c->place[c->next]] - '0');
    return 1;
}

struct file_told own_pnm_read(int depth, struct lent file, struct lent target) {
    struct file_told r = {11, 0, 0, 0};
    if (file.len < 2 || file.at[0] != 'P' || file.at[1] != (depth == 1 ? '4' : '5')) return r;
    struct counted c = counted_of(file);
    double w = 0, h = 0, most = 255;
    int whole = take_number(&c, &w) && take_number(&c, &h) && (depth == 1 || take_number(&c, &most)) && is_at(&c, 1) && most == 255;
    size_t begins = whole ? c.place[c.next] + 1 : 0;
    free(c.place);
    if (!whole) return r;
    struct lent raster = {file.at + begins, file.len - begins};
    r.number = w < 1 || w > 1024 || h < 1 || h > 256 ? 1 : raster.len != picture_len(depth, (uint64_t)w, (uint64_t)h) ? 2 : target.len < raster.len ? 8 : 0;
    if (r.number) return r;
    struct picture *a = picture_from(depth, (uint64_t)w, (uint64_t)h, raster.at);
    picture_to(depth, a, target.at);
    free(a);
    return (struct file_told){0, 0, (unsigned)w, (unsigned)h};
}

int own_pnm_write(int depth, uint64_t w, uint64_t h, struct lent source, struct lent target) {
    int no = source_refusal(depth, w, h, source);
    if (no) return no;
    char head[32];
    size_t n = (size_t)sprintf(head, depth == 1 ? "P4\n%u %u\n" : "P5\n%u %u\n255\n", (unsigned)w, (unsigned)h);
    if (target.len < n + source.len) return 8;
    memcpy(target.at, head, n);
    struct picture *a = picture_from(depth, w, h, source.at);
    picture_to(depth, a, target.at + n);
    free(a);
    return 0;
}

/* ---- echtext */

static size_t refused(int number, char *text) { return (size_t)sprintf(text, "refused %d\n", number); }

size_t own_echtext(const uint8_t *job, size_t job_len, char *text) {
    if (job_len < 2 || job_len > 32768) return refused(10, text);
    char way = (char)job[0];
    if (way != 'e' && way != 'd' && way != 'o' && way != 'c') return refused(10, text);
    if (job[1] > 2) return refused(10, text);

    uint8_t bytes[32768], ours[8] = {31, 1, job[1] == 2 ? 30 : 0, 0, 255, 255, 255, 254};
    memcpy(bytes, job, job_len);
    struct lent rest = {bytes + 2, job_len - 2}, element = {ours, sizeof ours};
    struct element e;
    if (job[1] == 1) {
        size_t len = descriptor_len(rest);
        if (len == 0 || len > rest.len) return refused(4, text);
        element = (struct lent){rest.at, len};
        rest.at += len, rest.len -= len;
    }
    if (!read_element(element, 0, &e)) return refused(4, text);

    uint8_t *buffers = malloc(3 * 262144);
    if (!buffers) abort();
    struct lent source = {buffers, 262144}, target = {buffers + 262144, 262144}, scratch = {buffers + 2 * 262144, 262144};
    struct file_told r = own_ech_read(rest, source);
    size_t n = 0;
    if (r.number) {
        n = refused(r.number, text);
    } else {
        source.len = picture_len(depth_of((uint64_t)r.kind), r.w, r.h);
        own_flat(depth_of((uint64_t)r.kind), way, r.w, r.h, source, element, target, scratch);
        struct picture *a = picture_from(depth_of((uint64_t)r.kind), r.w, r.h, target.at);
        n += (size_t)sprintf(text, "ECH %ux%u kind %d\n", r.w, r.h, r.kind);
        for (int y = 0; y < a->h; y++) {
            for (int x = 0; x < a->w; x++) {
                if (r.kind != 2) text[n++] = *at(a, x, y) ? '#' : '.';
                else n += (size_t)sprintf(text + n, x == 0 ? "%d" : " %d", *at(a, x, y));
            }
            text[n++] = '\n';
        }
        free(a);
    }
    free(buffers);
    return n;
}
