/* bench-qik QIK MORNING.pgm FOLDER: what `qik open` takes on a PGM file of the largest size, its whole process, beside the library's call
 * alone, a copy of the file by cp, Netpbm's pgmmorphconv and ImageMagick's convert where they are installed. Run by host/bench qik. */
#define _DEFAULT_SOURCE
#include "qiksavlut.h"
#include "timed.h"

#include <spawn.h>
#include <stdio.h>
#include <string.h>
#include <sys/resource.h>
#include <sys/wait.h>

enum { W = 1024, H = 256, MOST = W * H };

extern char **environ;

static uint8_t file[MOST + 64], source[MOST], target[MOST], scratch[MOST], element[4 + 64 * 8];
static size_t element_len;

static int call(void) { return qik_open8(W, H, source, MOST, element, element_len, target, MOST, scratch, MOST) == QIK_DONE; }

static double seconds(struct timeval t) { return (double)t.tv_sec + 1e-6 * (double)t.tv_usec; }

/* the processor time of one run of a command, in milliseconds, or less than 0 where it cannot be run or fails */
static double once(char *const words[]) {
    pid_t child;
    int status;
    struct rusage used;
    if (posix_spawnp(&child, words[0], NULL, NULL, words, environ) != 0 || wait4(child, &status, 0, &used) != child || status != 0) return -1;
    return 1000 * (seconds(used.ru_utime) + seconds(used.ru_stime));
}

/* the least of some runs */
static double best_command(char *const words[]) {
    double least = once(words);
    for (double all = least; least >= 0 && all < 1000;) {
        double t = once(words);
        if (t < 0) return -1;
        if (t < least) least = t;
        all += t;
    }
    return least;
}

static void print_time(double took, double qik) {
    if (took < 0) printf("%22s", "");
    else printf("%12.3f (%6.2f) ", took, took / qik);
}

int main(int argc, char **argv) {
    static char out[900], template[900];
    FILE *in = argc == 4 ? fopen(argv[2], "rb") : NULL;
    if (!in) return 2;
    uint64_t read = qik_pgm_read(file, fread(file, 1, sizeof file, in), source, MOST);
    if (qik_read_number(read) != QIK_DONE || qik_read_w(read) != W || qik_read_h(read) != H) return 2;
    fclose(in);
    snprintf(out, sizeof out, "%s/out.pgm", argv[3]);
    snprintf(template, sizeof template, "%s/template.pbm", argv[3]);
    char *copy[] = {"cp", argv[2], out, NULL};
    double copying = best_command(copy);
    puts("qik open of a PGM file of 1,024 x 256 points. Milliseconds, processor time, the best run in a second; of a process all of it, its start and its\n"
         "end too. In brackets, times what qik takes; and last what qik takes, times the call and the copy together.\n");
    puts("element       call  copy by cp   qik open        pgmmorphconv         ImageMagick    qik / (call + copy)");
    static const struct {
        const char *name, *shape;
        int w, h;
    } elements[] = {{"row 31", "Rectangle:31x1", 31, 1}, {"square 3", "Square:1", 3, 3}, {"square 31", "Square:15", 31, 31}};
    for (size_t i = 0; i < sizeof elements / sizeof *elements; i++) {
        int w = elements[i].w, h = elements[i].h, row = (w + 7) / 8;
        memset(element, 0, sizeof element);
        element[0] = (uint8_t)w;
        element[1] = (uint8_t)h;
        element[2] = (uint8_t)(w == 31 && h == 1 ? 0 : w / 2);
        element[3] = (uint8_t)(h / 2);
        for (int y = 0; y < h; y++)
            for (int x = 0; x < w; x++) element[4 + y * row + x / 8] |= (uint8_t)(0x80 >> x % 8);
        element_len = (size_t)(4 + h * row);
        /* what is white in pgmmorphconv's template is set */
        FILE *f = fopen(template, "wb");
        if (!f) return 2;
        fprintf(f, "P4\n%d %d\n", w, h);
        for (int j = 0; j < h * row; j++) putc(0, f);
        fclose(f);
        char *ours[] = {argv[1], "open", (char *)elements[i].name, argv[2], out, NULL};
        char *netpbm[] = {"sh", "-c", "pgmmorphconv -open \"$1\" \"$2\" >\"$3\"", "sh", template, argv[2], out, NULL};
        char *magick[] = {"convert", argv[2], "-morphology", "Open", (char *)elements[i].shape, out, NULL};
        double calling = best(call) * 1000, qik = best_command(ours);
        printf("%-10s%8.3f%12.3f%11.3f ", elements[i].name, calling, copying, qik);
        print_time(best_command(netpbm), qik);
        print_time(best_command(magick), qik);
        printf("%15.2f\n", qik / (calling + copying));
    }
    return 0;
}
