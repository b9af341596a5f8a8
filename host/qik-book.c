/* The element book in a file: the file's bytes are the book. */
#define _POSIX_C_SOURCE 200809L
#include "qik-element.h"
#include "qik-file.h"
#include "qik-parts.h"
#include "qik-say.h"
#include "qiksavlut.h"

#include <string.h>
#include <unistd.h>

enum { NUMBERS = 8, SHARE = 1000 }; /* of display and of export each */

static const struct party {
    const char *name;
    uint32_t (*put)(uint8_t *, size_t, uint64_t, const uint8_t *, size_t);
    uint32_t (*remove)(uint8_t *, size_t, uint64_t);
    uint32_t (*tidy)(uint8_t *, size_t);
    uint64_t (*get)(const uint8_t *, size_t, uint64_t);
} parties[] = {
    {"display", qik_display_put, qik_display_remove, qik_display_tidy, qik_display_get},
    {"export", qik_export_put, qik_export_remove, qik_export_tidy, qik_export_get},
};

/* the descriptor under a number, in the book's own bytes; at is NULL where there is none */
static struct element held(const struct bytes *book, const struct party *party, uint64_t number, uint32_t *answer) {
    uint64_t got = party->get(book->at, book->len, number);
    *answer = qik_get_number(got);
    struct element element = {*answer == QIK_DONE ? book->at + qik_get_place(got) : NULL, qik_get_length(got), 0, party->name};
    return element;
}

static void start(const struct asked *asked, const char *file) {
    no_more_than(asked, 2);
    struct bytes book = {room(QIK_BOOK_BYTES), QIK_BOOK_BYTES};
    if (!asked->again && access(file, F_OK) == 0) wrong("%s is there: book start %s --again empties it", file, file);
    judged(file, qik_book_start(book.at, book.len));
    write_file(file, book.at, book.len);
}

static void put(const struct asked *asked, const char *file) {
    int export, place = 3;
    uint64_t number;
    book_place(word_at(asked, 2, "PLACE"), &export, &number);
    struct element element = element_at(asked, &asked->given, &place, "ELEMENT");
    no_more_than(asked, place);
    struct bytes book = read_file(file);
    judged(file, parties[export].put(book.at, book.len, number, element.at, element.len));
    write_file(file, book.at, book.len);
}

static void get(const struct asked *asked, const char *file) {
    int export;
    uint64_t number;
    uint32_t answer;
    book_place(word_at(asked, 2, "PLACE"), &export, &number);
    no_more_than(asked, 4);
    struct bytes book = read_file(file);
    struct element element = held(&book, &parties[export], number, &answer);
    judged(file, answer);
    write_element(asked, &element, file_at(asked, 3));
}

static void remove_from(const struct asked *asked, const char *file) {
    int export;
    uint64_t number;
    book_place(word_at(asked, 2, "PLACE"), &export, &number);
    no_more_than(asked, 3);
    struct bytes book = read_file(file);
    judged(file, parties[export].remove(book.at, book.len, number));
    write_file(file, book.at, book.len);
}

static void tidy(const struct asked *asked, const char *file) {
    const char *name = word_at(asked, 2, "display or export");
    int export = strcmp(name, "export") == 0;
    if (!export && strcmp(name, "display") != 0) misused(asked, " is neither display nor export", name);
    no_more_than(asked, 3);
    struct bytes book = read_file(file);
    judged(file, parties[export].tidy(book.at, book.len));
    write_file(file, book.at, book.len);
}

static void list(const struct asked *asked, const char *file) {
    no_more_than(asked, 2);
    struct bytes book = read_file(file);
    struct text text;
    open_text(&text);
    for (int export = 0; export < 2; export++) {
        size_t used = 0;
        for (uint64_t number = 0; number < NUMBERS; number++) {
            uint32_t answer;
            struct element element = held(&book, &parties[export], number, &answer);
            if (answer != QIK_ABSENT) judged(file, answer);
            if (!element.at) continue;
            used += element.len;
            fprintf(text.to, "%s:%d  %d x %d, origin %d, %d, %d cells, %d bytes\n", parties[export].name, (int)number, element.at[0], element.at[1], element.at[2],
                    element.at[3], cells_of(&element), (int)element.len);
        }
        fprintf(text.to, "%s    %d of %d bytes are left\n", parties[export].name, (int)(SHARE - used), SHARE);
    }
    close_text(&text, "-");
}

void run_book(const struct asked *asked) {
    static const struct {
        const char *name;
        void (*run)(const struct asked *, const char *);
    } calls[] = {{"start", start}, {"put", put}, {"get", get}, {"remove", remove_from}, {"tidy", tidy}, {"list", list}};
    const char *name = word_at(asked, 0, "start, put, get, remove, tidy or list");
    for (size_t i = 0; i < sizeof calls / sizeof *calls; i++) {
        if (strcmp(calls[i].name, name) != 0) continue;
        const char *file = word_at(asked, 1, "FILE");
        if (asked->again && i) misused(asked, " goes with book start alone", "--again");
        if (asked->to && calls[i].run != get) misused(asked, " goes with book get alone", "--text");
        calls[i].run(asked, file);
        return;
    }
    misused(asked, " is none of start, put, get, remove, tidy and list", name);
}
