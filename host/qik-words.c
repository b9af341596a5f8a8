#include "qik-words.h"

#include "qik-file.h"
#include "qik-say.h"

#include <ctype.h>
#include <string.h>

void misused(const struct asked *asked, const char *why, const char *word) {
    wrong("%s: %s%s: qik %s%s", asked->part, word ? word : "", why, asked->part, asked->usage);
}

/* the value of an option: after = in the same word, or the next word */
static const char *value_of(const struct asked *asked, const char *word, const char *name, char **words, int count, int *place) {
    size_t n = strlen(name);
    if (word[n] == '=') return word + n + 1;
    if (++*place == count) misused(asked, " has no value", name);
    return words[*place];
}

static int is_option(const char *word, const char *name) {
    size_t n = strlen(name);
    return strncmp(word, name, n) == 0 && (word[n] == 0 || word[n] == '=');
}

struct asked ask(const char *part, const char *usage, int takes, char **words, int count) {
    struct words none = {room(sizeof *words * (size_t)count), 0}, no_link = {room(sizeof *words * (size_t)count), 0};
    struct asked asked = {part, usage, none, no_link, NULL, 0, 0, 0};
    int links = 0, plain = 0; /* whether the words are links now, and whether no word is an option any more */
    for (int i = 0; i < count; i++) {
        char *word = words[i];
        /* - is a file, and -3 the height of a cell */
        if (plain || word[0] != '-' || word[1] == 0 || isdigit((unsigned char)word[1])) {
            struct words *where = links ? &asked.chain : &asked.given;
            where->at[where->count++] = word;
        } else if (strcmp(word, "--") == 0) { /* ends the links; else the options */
            plain = !links;
            links = 0;
        } else if (strcmp(word, "--chain") == 0 && takes & TAKES_CHAIN) {
            links = asked.chained = 1;
        } else {
            links = 0;
            if (strcmp(word, "--help") == 0) asked.help = 1;
            else if (strcmp(word, "--text") == 0 && takes & TAKES_TO) asked.to = "text";
            else if (is_option(word, "--to") && takes & TAKES_TO) asked.to = value_of(&asked, word, "--to", words, count, &i);
            else if (strcmp(word, "--again") == 0 && takes & TAKES_AGAIN) asked.again = 1;
            else misused(&asked, " is no option of it", word);
        }
    }
    return asked;
}

const char *word_at(const struct asked *asked, int place, const char *what) {
    if (place >= asked->given.count) misused(asked, " is missing", what);
    return asked->given.at[place];
}

void no_more_than(const struct asked *asked, int places) {
    if (asked->given.count > places) misused(asked, " is a word too many", asked->given.at[places]);
}

const char *file_at(const struct asked *asked, int place) { return place < asked->given.count ? asked->given.at[place] : "-"; }
