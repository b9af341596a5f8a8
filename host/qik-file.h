/* The bytes of files: read whole, and written whole or not at all. */
#ifndef QIK_FILE_H
#define QIK_FILE_H

#include <stddef.h>
#include <stdint.h>
#include <stdio.h>

struct bytes {
    uint8_t *at;
    size_t len;
};

/* room for len bytes, all 0, and never NULL */
void *room(size_t len);

/* all bytes of a file; - is standard input */
struct bytes read_file(const char *name);

/* the bytes become the file: a file beside it is written and then renamed, so that there is never a part of it. - is standard output */
void write_file(const char *name, const uint8_t *at, size_t len);

/* text that is written like a file: print to the stream that open_text gives, then close_text */
struct text {
    FILE *to;
    char *at;
    size_t len;
};
void open_text(struct text *text);
void close_text(struct text *text, const char *name);

#endif
