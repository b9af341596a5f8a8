/* The command line: its part, its options, and the words that are left. */
#ifndef QIK_WORDS_H
#define QIK_WORDS_H

struct words {
    char **at;
    int count;
};

struct asked {
    const char *part, *usage;
    struct words given; /* the words that are no option, after the part */
    struct words chain; /* the words of --chain */
    const char *to;     /* --to, or text for --text; NULL where neither is said */
    int chained, again, help;
};

/* the options that a part takes, --help aside */
enum { TAKES_TO = 1, TAKES_CHAIN = 2, TAKES_AGAIN = 4 };

/* the words of a command line after the part's name; all that is wrong with an option ends qik */
struct asked ask(const char *part, const char *usage, int takes, char **words, int count);

/* the usage of the part is not kept: ends qik with why and with the usage */
void misused(const struct asked *asked, const char *why, const char *word) __attribute__((noreturn));

/* the word at a place, which has to be there: what is its name in the usage */
const char *word_at(const struct asked *asked, int place, const char *what);

/* the word at a place, or - where it is not there */
const char *file_at(const struct asked *asked, int place);

/* there are at most so many words */
void no_more_than(const struct asked *asked, int places);

#endif
