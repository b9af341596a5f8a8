#define _POSIX_C_SOURCE 200809L
#include "qik-say.h"

#include "qiksavlut.h"

#include <stdarg.h>
#include <stdio.h>
#include <stdlib.h>
#include <string.h>
#include <unistd.h>

/* The refusals, by number: the one place where qik has words for them. */
static const struct { const char *name, *words; } refusals[] = {
    [QIK_SIZE] = {"SIZE", "a picture has 1 to 1,024 pings and 1 to 256 bins"},
    [QIK_SOURCE] = {"SOURCE", "the file has more or fewer bytes than the picture that its header promises"},
    [QIK_PAD] = {"PAD", "an unused bit at the end of a row is 1, and in an ECH file it has to be 0"},
    [QIK_SHAPE] = {"SHAPE", "no well made element: 1 to 64 cells each way, the origin among them, heights for erode, dilate, open and close at 8 bits alone"},
    [QIK_OVERLAP] = {"OVERLAP", "the element that has to hit and the one that has to miss share an offset"},
    [QIK_CHAIN] = {"CHAIN", "a chain has 1 to 5 links, each at most 8 cells wide and 8 high"},
    [QIK_SPLIT] = {"SPLIT", "the chain does not do what the element does; this is the first offset at which they part"},
    [QIK_ROOM] = {"ROOM", "a buffer is too short for what has to go there"},
    [QIK_FORM] = {"FORM", "neither an ECH file of version 1 and of a kind that there is, nor a raw PBM or PGM file"},
    [QIK_JOB] = {"JOB", "no job for echtext"},
    [QIK_NETPBM] = {"NETPBM", "its header is not that of a raw PBM file (P4) or of a raw PGM file (P5) with the maximum 255"},
    [QIK_MARKER] = {"MARKER", "a point of the marker lies outside the mask"},
    [QIK_FULL] = {"FULL", "no room for it in the book: display and export have 1,000 bytes of descriptors each"},
    [QIK_ABSENT] = {"ABSENT", "the book holds nothing under this number; its numbers are 0 to 7"},
    [QIK_RETIRED] = {"RETIRED", "files of kind 3 are no longer made"},
    [QIK_NEST] = {"NEST", "the nest is listed of at most 16,384 points and 255 regions"},
    [QIK_BOOK] = {"BOOK", "no element book of this version, or a damaged one: book start makes a new one"},
    [QIK_NOCHAIN] = {"NOCHAIN", "no chain of at most five links, each at most 8 cells wide and 8 high, was found"},
};

const char *refusal_name(uint32_t number) { return number < sizeof refusals / sizeof *refusals ? refusals[number].name : NULL; }

const char *refusal_words(uint32_t number) { return refusal_name(number) ? refusals[number].words : NULL; }

int looked_at(int fd) { return isatty(fd); }

int coloured(int fd) {
    const char *terminal = getenv("TERM"), *none = getenv("NO_COLOR");
    return looked_at(fd) && !(none && *none) && terminal && strcmp(terminal, "dumb") != 0;
}

/* one line, whatever stands in the names of files */
static void say(const char *colour, const char *format, va_list values) {
    char line[2000];
    vsnprintf(line, sizeof line, format, values);
    for (char *c = line; *c; c++)
        if ((unsigned char)*c < ' ' || *c == 127) *c = '?';
    if (coloured(STDERR_FILENO)) fprintf(stderr, "%sqik:\033[0m %s\n", colour, line);
    else fprintf(stderr, "qik: %s\n", line);
}

static void say_now(const char *format, ...) {
    va_list values;
    va_start(values, format);
    say("\033[1;31m", format, values);
    va_end(values);
}

void wrong(const char *format, ...) {
    va_list values;
    va_start(values, format);
    say("\033[1;33m", format, values);
    va_end(values);
    exit(STATUS_USAGE);
}

void remark(const char *format, ...) {
    va_list values;
    if (!looked_at(STDERR_FILENO)) return;
    va_start(values, format);
    say("\033[2m", format, values);
    va_end(values);
}

void failed(const char *name, int error) {
    say_now("%s: %s", name, strerror(error));
    exit(STATUS_FILE);
}

void refused(const char *what, uint32_t number, const char *where, const char *more) {
    const char *name = refusal_name(number), *words = refusal_words(number);
    say_now("%s: refused %u %s%s: %s%s", what, (unsigned)number, name ? name : "?", where, words ? words : "a number that qik does not know", more);
    exit(STATUS_REFUSED);
}

void judged(const char *what, uint32_t answer) {
    uint32_t number = qik_number(answer);
    if (number == QIK_DONE) return;
    char at[40] = "";
    if (number == QIK_SPLIT) snprintf(at, sizeof at, " at dx %d, dy %d", qik_dx(answer), qik_dy(answer));
    refused(what, number, at, "");
}
