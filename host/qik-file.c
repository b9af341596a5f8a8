#define _XOPEN_SOURCE 700
#include "qik-file.h"

#include "qik-say.h"

#include <errno.h>
#include <fcntl.h>
#include <signal.h>
#include <stdlib.h>
#include <string.h>
#include <sys/stat.h>
#include <unistd.h>

/* no picture, element or book comes near it; an input without end stops here */
enum { MOST_BYTES = 1 << 24 };

void *room(size_t len) {
    void *at = calloc(len ? len : 1, 1);
    if (!at) failed("memory", ENOMEM);
    return at;
}

static const char *called(const char *name, const char *standard) { return strcmp(name, "-") == 0 ? standard : name; }

struct bytes read_file(const char *name) {
    const char *title = called(name, "standard input");
    int fd = strcmp(name, "-") == 0 ? STDIN_FILENO : open(name, O_RDONLY);
    struct stat about;
    if (fd < 0 || fstat(fd, &about) != 0) failed(title, errno);
    /* one byte more than the file has, so that its end is met without another buffer */
    size_t size = S_ISREG(about.st_mode) && about.st_size < MOST_BYTES ? (size_t)about.st_size + 1 : 1 << 16;
    struct bytes file = {room(size), 0};
    for (;;) {
        if (file.len == size) {
            file.at = realloc(file.at, size *= 2);
            if (!file.at) failed("memory", ENOMEM);
        }
        ssize_t n = read(fd, file.at + file.len, size - file.len);
        if (n == 0) break;
        if (n < 0 && errno == EINTR) continue;
        if (n < 0) failed(title, errno);
        file.len += (size_t)n;
        if (file.len > MOST_BYTES) failed(title, EFBIG);
    }
    if (fd != STDIN_FILENO) close(fd);
    return file;
}

/* 0, or the error that came */
static int write_all(int fd, const uint8_t *at, size_t len) {
    while (len) {
        ssize_t n = write(fd, at, len);
        if (n < 0 && errno == EINTR) continue;
        if (n < 0) return errno;
        at += n;
        len -= (size_t)n;
    }
    return close(fd) == 0 ? 0 : errno;
}

/* a file that is there keeps its permissions, a new one has those that the user's mask leaves */
static mode_t mode_of(const struct stat *there) {
    if (there) return there->st_mode & 07777;
    mode_t mask = umask(0);
    umask(mask);
    return 0666 & ~mask;
}

/* the file beside, written, and then renamed; no part of it is left where an error came */
static int make_beside(char *beside, const char *name, const struct stat *there, const uint8_t *at, size_t len) {
    int fd = mkstemp(beside), error;
    if (fd < 0) return errno;
    if (fchmod(fd, mode_of(there)) != 0) {
        error = errno;
        close(fd);
    } else {
        error = write_all(fd, at, len);
    }
    if (!error && rename(beside, name) != 0) error = errno;
    if (error) unlink(beside);
    return error;
}

static int replace(const char *name, const struct stat *there, const uint8_t *at, size_t len) {
    const char *slash = strrchr(name, '/');
    int folder = slash ? (int)(slash - name) + 1 : 0;
    char *beside = room((size_t)folder + sizeof ".qik-XXXXXX");
    sprintf(beside, "%.*s.qik-XXXXXX", folder, name);
    sigset_t ends, before;
    sigemptyset(&ends);
    sigaddset(&ends, SIGINT);
    sigaddset(&ends, SIGTERM);
    sigaddset(&ends, SIGHUP);
    /* who interrupts waits for the moment that it takes, and the file beside is never left */
    sigprocmask(SIG_BLOCK, &ends, &before);
    int error = make_beside(beside, name, there, at, len);
    sigprocmask(SIG_SETMASK, &before, NULL);
    return error;
}

static int write_named(const char *name, const uint8_t *at, size_t len) {
    struct stat about;
    if (stat(name, &about) != 0) return replace(name, NULL, at, len);
    if (!S_ISREG(about.st_mode)) { /* a pipe or a device is written, not replaced */
        int fd = open(name, O_WRONLY);
        return fd < 0 ? errno : write_all(fd, at, len);
    }
    if (access(name, W_OK) != 0) return errno;
    char *real = realpath(name, NULL); /* of a link, what it leads to */
    return real ? replace(real, &about, at, len) : errno;
}

void write_file(const char *name, const uint8_t *at, size_t len) {
    int error = strcmp(name, "-") == 0 ? write_all(STDOUT_FILENO, at, len) : write_named(name, at, len);
    if (error) failed(called(name, "standard output"), error);
}

void open_text(struct text *text) {
    text->to = open_memstream(&text->at, &text->len);
    if (!text->to) failed("memory", errno);
}

void close_text(struct text *text, const char *name) {
    if (fclose(text->to) != 0) failed("memory", errno);
    write_file(name, (const uint8_t *)text->at, text->len);
}
