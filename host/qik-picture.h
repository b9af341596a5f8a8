/* Pictures, read from files of any format and written in one: by the library's readers and writers alone. */
#ifndef QIK_PICTURE_H
#define QIK_PICTURE_H

#include "qik-words.h"

#include <stddef.h>
#include <stdint.h>

enum format { FORMAT_ECH, FORMAT_PBM, FORMAT_PGM, FORMAT_TEXT };

struct picture {
    uint32_t w, h;
    int bits; /* 1 or 8 */
    size_t len;
    uint8_t *at;
    enum format format; /* of the file that it came from */
    int kind;           /* of an ECH file, as it is stored: 1, 2 or 3; else 0 */
    const char *name;   /* for messages */
};

/* a picture's file, told by its first bytes; - is standard input */
struct picture read_picture(const char *name);

/* the same, of a part that takes one-bit pictures alone */
struct picture read_one_bit(const struct asked *asked, const char *name);

/* room for another picture of the same frame, all 0 */
struct picture blank(const struct picture *like);

/* the value at a ping and a bin: 0 or 1, or 0 to 255 */
int value_at(const struct picture *picture, uint32_t ping, uint32_t bin);

/* writes the picture in the format that was asked for, that the name ends in, or that it came in; - is standard output */
void write_picture(const struct asked *asked, const struct picture *picture, const char *name);

#endif
