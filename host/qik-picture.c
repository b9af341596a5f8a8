#define _POSIX_C_SOURCE 200809L
#include "qik-picture.h"

#include "qik-text.h"
#include "qik-file.h"
#include "qik-say.h"
#include "qiksavlut.h"

#include <string.h>
#include <strings.h>
#include <unistd.h>

/* the bytes of the largest picture */
enum { MOST_PICTURE = 1024 * 256 };

static const char *const format_names[] = {"ech", "pbm", "pgm", "text"};

/* a file without a picture's mark is handed to the reader that says so */
static uint64_t read_by_mark(const struct bytes *file, struct picture *picture) {
    int netpbm = file->len >= 1 && file->at[0] == 'P', bits = file->len >= 2 && file->at[1] == '4';
    picture->format = !netpbm ? FORMAT_ECH : bits ? FORMAT_PBM : FORMAT_PGM;
    return (!netpbm ? qik_ech_read : bits ? qik_pbm_read : qik_pgm_read)(file->at, file->len, picture->at, MOST_PICTURE);
}

struct picture read_picture(const char *name) {
    if (strcmp(name, "-") == 0 && looked_at(STDIN_FILENO)) wrong("standard input is a terminal, and no picture comes from there: name a file");
    struct bytes file = read_file(name);
    struct picture picture = {0, 0, 8, 0, room(MOST_PICTURE), FORMAT_ECH, 0, strcmp(name, "-") == 0 ? "standard input" : name};
    uint64_t answer = read_by_mark(&file, &picture);
    judged(picture.name, qik_read_number(answer));
    picture.w = qik_read_w(answer);
    picture.h = qik_read_h(answer);
    if (picture.format == FORMAT_ECH) picture.kind = file.at[5];
    if (picture.format == FORMAT_PBM || qik_read_kind(answer) == 1) picture.bits = 1;
    picture.len = (size_t)(picture.bits == 1 ? (picture.w + 7) / 8 : picture.w) * picture.h;
    return picture;
}

struct picture read_one_bit(const struct asked *asked, const char *name) {
    struct picture picture = read_picture(name);
    if (picture.bits != 1) wrong("%s: %s has 8 bits, and one-bit pictures alone are taken: PBM, or ECH of kind 1", asked->part, picture.name);
    return picture;
}

struct picture blank(const struct picture *like) {
    struct picture picture = *like;
    picture.at = room(like->len);
    return picture;
}

int value_at(const struct picture *picture, uint32_t ping, uint32_t bin) {
    if (picture->bits == 8) return picture->at[(size_t)bin * picture->w + ping];
    return picture->at[(size_t)bin * ((picture->w + 7) / 8) + ping / 8] >> (7 - ping % 8) & 1;
}

static enum format format_called(const char *name) {
    for (int f = FORMAT_ECH; f <= FORMAT_TEXT; f++)
        if (strcasecmp(name, format_names[f]) == 0) return (enum format)f;
    wrong("--to %s: the formats are ech, pbm, pgm and text", name);
}

static enum format format_for(const struct asked *asked, const struct picture *picture, const char *name) {
    if (asked->to) return format_called(asked->to);
    const char *end = strrchr(name, '.');
    for (int f = FORMAT_ECH; end && f <= FORMAT_PGM; f++)
        if (strcasecmp(end + 1, format_names[f]) == 0) return (enum format)f;
    return end && strcasecmp(end, ".txt") == 0 ? FORMAT_TEXT : picture->format;
}

/* the bytes that the library's writer puts before the picture */
static size_t head_of(const struct picture *picture, enum format format) {
    if (format == FORMAT_ECH) return 10;
    return (size_t)snprintf(NULL, 0, format == FORMAT_PBM ? "P4\n%u %u\n" : "P5\n%u %u\n255\n", picture->w, picture->h);
}

void write_picture(const struct asked *asked, const struct picture *picture, const char *name) {
    enum format format = format_for(asked, picture, name);
    if (format == FORMAT_TEXT) {
        draw_picture(picture, name);
        return;
    }
    if (format == (picture->bits == 1 ? FORMAT_PGM : FORMAT_PBM))
        wrong("the picture has %s, and %s has no place for it: take %s or ech", picture->bits == 1 ? "one bit" : "8 bits", format_names[format], picture->bits == 1 ? "pbm" : "pgm");
    if (strcmp(name, "-") == 0 && looked_at(STDOUT_FILENO)) wrong("standard output is a terminal: name a file for the picture, or say --text");
    size_t len = head_of(picture, format) + picture->len;
    uint8_t *file = room(len);
    uint32_t answer = format == FORMAT_ECH   ? qik_ech_write(picture->bits == 1 ? 1 : 2, picture->w, picture->h, picture->at, picture->len, file, len)
                      : format == FORMAT_PBM ? qik_pbm_write(picture->w, picture->h, picture->at, picture->len, file, len)
                                             : qik_pgm_write(picture->w, picture->h, picture->at, picture->len, file, len);
    judged(name, answer);
    write_file(name, file, len);
}
