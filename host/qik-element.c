#define _POSIX_C_SOURCE 200809L
#include "qik-element.h"

#include "qik-drawing.h"
#include "qik-file.h"
#include "qik-parts.h"
#include "qik-say.h"
#include "qiksavlut.h"

#include <stdio.h>
#include <stdlib.h>
#include <string.h>

/* the pings of both default elements */
enum { DEFAULT = 31 };

/* ---- names */

static struct element full(int w, int h, int column, int row, const char *name) {
    struct element element = none_set(w, h, column, row, name);
    for (int y = 0; y < h; y++)
        for (int x = 0; x < w; x++) set_cell(&element, x, y);
    return element;
}

static struct element row(int n, const char *name) { return full(n, 1, 0, 0, name); }
static struct element trailing(int n, const char *name) { return full(n, 1, n - 1, 0, name); }
static struct element column(int n, const char *name) { return full(1, n, 0, 0, name); }
static struct element square(int n, const char *name) { return full(n, n, n / 2, n / 2, name); }

static struct element disc(int radius, const char *name) {
    struct element element = none_set(2 * radius + 1, 2 * radius + 1, radius, radius, name);
    for (int y = -radius; y <= radius; y++)
        for (int x = -radius; x <= radius; x++)
            if (x * x + y * y <= radius * radius) set_cell(&element, x + radius, y + radius);
    return element;
}

static const struct named {
    const char *name, *number; /* number: what it may be, in words */
    struct element (*make)(int, const char *);
    int least, most; /* most: what a descriptor can say; the library takes less, and refuses the rest */
} names[] = {
    {"row", "a number of cells, 1 to 64", row, 1, MOST_SIDE},
    {"trailing", "a number of cells, 1 to 64", trailing, 1, MOST_SIDE},
    {"column", "a number of cells, 1 to 64", column, 1, MOST_SIDE},
    {"square", "the number of cells of a side, 1 to 64", square, 1, MOST_SIDE},
    {"disc", "its radius, 0 to 31", disc, 0, (MOST_SIDE - 1) / 2},
};

static int all_digits(const char *text) { return *text && strspn(text, "0123456789") == strlen(text); }

/* ---- books and files */

void book_place(const char *text, int *export, uint64_t *number) {
    const char *colon = strchr(text, ':');
    size_t n = colon ? (size_t)(colon - text) : strlen(text);
    *export = n == 6 && strncmp(text, "export", n) == 0;
    if (!*export && !(n == 7 && strncmp(text, "display", n) == 0)) wrong("%s: a place in a book is display:0 to display:7 or export:0 to export:7", text);
    if (!colon || !all_digits(colon + 1) || strlen(colon + 1) > 18) wrong("%s: a place in a book has a number, as display:3 has", text);
    *number = strtoull(colon + 1, NULL, 10);
}

static struct element from_book(const char *text) {
    char *file = strdup(text + strlen("book:")), *number = strrchr(file, ':'), *party;
    int export;
    uint64_t place;
    if (number) *number = 0;
    party = strrchr(file, ':');
    if (!number || !party || party == file) wrong("%s: an element of a book is book:FILE:display:3", text);
    *number = ':';
    *party = 0;
    book_place(party + 1, &export, &place);
    struct bytes book = read_file(file);
    uint64_t got = (export ? qik_export_get : qik_display_get)(book.at, book.len, place);
    judged(text, qik_get_number(got));
    return element_of(book.at + qik_get_place(got), qik_get_length(got), text);
}

static struct element from_file(const char *file) {
    struct bytes bytes = read_file(file);
    return element_of(bytes.at, bytes.len, file);
}

/* ---- words */

static struct element from_word(const char *text) {
    if (strncmp(text, "book:", 5) == 0) return from_book(text);
    if (strncmp(text, "file:", 5) == 0) return from_file(text + 5);
    if (strcmp(text, "default") == 0) return row(DEFAULT, text);
    if (strcmp(text, "trailing") == 0) return trailing(DEFAULT, text);
    if (is_drawing(text)) return drawn(text);
    if (has_heights(text)) return drawn_with_heights(text);
    return from_file(text);
}

/* the number of a name: in the same word after a space, or the next word; NULL where neither is there */
static const char *number_after(const char *text, size_t n, const struct words *words, int *place) {
    const char *rest = text + n + strspn(text + n, " ");
    if (*rest) return rest;
    return *place < words->count && all_digits(words->at[*place]) ? words->at[(*place)++] : NULL;
}

struct element element_at(const struct asked *asked, const struct words *words, int *place, const char *what) {
    if (*place >= words->count) misused(asked, " is missing (a drawing is quoted: '##O')", what);
    const char *text = words->at[(*place)++];
    size_t n = strcspn(text, " ");
    for (size_t i = 0; i < sizeof names / sizeof *names; i++) {
        const struct named *named = &names[i];
        if (strlen(named->name) != n || strncmp(text, named->name, n) != 0) continue;
        const char *number = number_after(text, n, words, place);
        if (!number && named->make == trailing) break; /* the trailing default, as tools/job has it */
        if (!number || !all_digits(number) || strlen(number) > 3 || atoi(number) < named->least || atoi(number) > named->most)
            wrong("%s%s%s: after %s comes %s", named->name, number ? " " : "", number ? number : "", named->name, named->number);
        char *name = room(n + strlen(number) + 2);
        sprintf(name, "%s %s", named->name, number);
        return named->make(atoi(number), name);
    }
    return from_word(text);
}

void run_element(const struct asked *asked) {
    int place = 0;
    struct element element = element_at(asked, &asked->given, &place, "ELEMENT");
    no_more_than(asked, place + 1);
    write_element(asked, &element, file_at(asked, place));
}
