/* What qik says to people. Every message is one line on standard error, and qik ends with it. */
#ifndef QIK_SAY_H
#define QIK_SAY_H

#include <stdint.h>

enum status { STATUS_DONE = 0, STATUS_REFUSED = 1, STATUS_USAGE = 2, STATUS_FILE = 3 };

/* the command cannot be meant: status 2 */
void wrong(const char *format, ...) __attribute__((noreturn, format(printf, 1, 2)));

/* a file cannot be read or written: status 3, with the system's words for error */
void failed(const char *name, int error) __attribute__((noreturn));

/* an answer of the library to what: DONE goes on, a refusal ends with its number, its name and its meaning: status 1 */
void judged(const char *what, uint32_t answer);

/* a refusal of what, with where it was found behind its name and more behind its meaning, both often empty: status 1 */
void refused(const char *what, uint32_t number, const char *where, const char *more) __attribute__((noreturn));

/* a remark, for a terminal alone: qik goes on */
void remark(const char *format, ...) __attribute__((format(printf, 1, 2)));

/* the name and the meaning of a refusal's number; NULL where the library has no such number */
const char *refusal_name(uint32_t number);
const char *refusal_words(uint32_t number);

/* whether someone looks at the stream fd, and wants colour there */
int looked_at(int fd);
int coloured(int fd);

#endif
