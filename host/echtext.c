/* echtext as the independent implementation has it: a job on standard input, its text on standard output. For the comparison. */
#include "independent.h"

#include <stdio.h>

int main(void) {
    static uint8_t job[32769];
    static char text[OWN_MOST_TEXT];
    size_t len = fread(job, 1, sizeof job, stdin);
    size_t n = own_echtext(job, len, text);
    return fwrite(text, 1, n, stdout) != n;
}
