/* qik: every operation of the library on ordinary files. Each part reads files, makes one call of include/qiksavlut.h and writes a file; docs/qik.1 is its page.
 * A further part is a line of the table below and a function of qik-parts.h. */
#define _POSIX_C_SOURCE 200809L
#include "qik-file.h"
#include "qik-parts.h"
#include "qik-say.h"
#include "qiksavlut.h"

#include <fcntl.h>
#include <signal.h>
#include <string.h>
#include <unistd.h>

static const struct part {
    const char *name, *usage;
    int takes;
    void (*run)(const struct asked *);
    const char *brief, *more;
} parts[] = {
    {"erode", " ELEMENT [IN [OUT]] [--chain LINK..]", TAKES_TO | TAKES_CHAIN, run_operation, "keep a point where the element fits",
     "A point gets the least value under the element; what lies beyond the frame counts as full.\n"
     "With --chain the links are applied in turn, once they are found to do what the element does.\n"
     "By an element with heights, of 8 bits alone, each height is taken away first.\n"},
    {"dilate", " ELEMENT [IN [OUT]] [--chain LINK..]", TAKES_TO | TAKES_CHAIN, run_operation, "put the element at every point",
     "A point gets the greatest value under the turned element; what lies beyond the frame counts as\n"
     "empty. --chain and heights, which are added, as for erode.\n"},
    {"open", " ELEMENT [IN [OUT]]", TAKES_TO, run_operation, "erode, then dilate: what is narrower than the element goes", "Elements with heights are taken at 8 bits.\n"},
    {"close", " ELEMENT [IN [OUT]]", TAKES_TO, run_operation, "dilate, then erode: gaps narrower than the element are filled", "Elements with heights are taken at 8 bits.\n"},
    {"white-tophat", " ELEMENT [IN [OUT]]", TAKES_TO, run_operation, "what the opening takes away, alone", ""},
    {"black-tophat", " ELEMENT [IN [OUT]]", TAKES_TO, run_operation, "what the closing fills, alone", ""},
    {"gradient", " ELEMENT [IN [OUT]]", TAKES_TO, run_operation, "edges: the dilation less the erosion", ""},
    {"hit-or-miss", " HIT MISS [IN [OUT]]", TAKES_TO, run_hit_or_miss, "where one element fits the echoes, and another the rest",
     "HIT and MISS are elements that share no offset. Of one-bit pictures.\n"},
    {"reconstruct", " cross|square MARKER MASK [OUT]", TAKES_TO, run_reconstruct, "each echo of MASK that MARKER touches, whole",
     "The marker grows inside the mask, by steps along rows and columns (cross) or aslant too (square).\n"
     "An opening is a marker for the picture that it came from. Of one-bit pictures.\n"},
    {"spectrum", " [IN [OUT]]", 0, run_spectrum, "how much of a picture is in small marks",
     "For squares of 1 to 32 cells a side: the points that survive the opening by a side and not by the\n"
     "next, with a bar for their share of all. Of one-bit pictures.\n"},
    {"nest", " [IN [OUT]]", 0, run_nest, "which echo lies inside which",
     "A line for each region with its points, indented by its depth: the outside, the echoes in it, the\n"
     "holes in them, and so on. Of one-bit pictures.\n"},
    {"check", " ELEMENT LINK..", 0, run_check, "whether a chain of small elements stands for a large one",
     "On every picture in every frame; else refused as SPLIT, with the first offset at which they part.\n"},
    {"chain-for", " ELEMENT [OUT]", 0, run_chain_for, "a chain of small elements that stands for a large one",
     "A link to a line, as it is drawn, for check and --chain. It is checked before it is handed out.\n"
     "Where none is found it is refused as NOCHAIN: there is none, or the search gave up.\n"},
    {"element", " ELEMENT [OUT]", TAKES_TO, run_element, "an element's descriptor, or with --text its drawing", ""},
    {"convert", " [IN [OUT]]", TAKES_TO, run_convert, "a picture in another format", "One bit stays one bit, and 8 stay 8: ECH and PBM, or ECH and PGM.\n"},
    {"info", " [IN]", 0, run_info, "what a picture's file is", ""},
    {"book", " start|put|get|remove|tidy|list FILE ..", TAKES_TO | TAKES_AGAIN, run_book, "the element book in a file",
     "  start FILE [--again]        a new book; --again empties one that is there\n"
     "  put FILE PLACE ELEMENT      keeps an element under display:0 to display:7 or export:0 to export:7\n"
     "  get FILE PLACE [OUT]        its descriptor, or with --text its drawing\n"
     "  remove FILE PLACE           gives it up\n"
     "  tidy FILE display|export    sets to 0 the bytes that hold nothing\n"
     "  list FILE                   what it holds, and the room that is left\n"},
};

enum { PARTS = sizeof parts / sizeof *parts };

static const char elements[] =
    "An ELEMENT is one of\n"
    "  '##O'                 a drawing: # a set cell, . an unset one, O the origin, o an unset origin;\n"
    "                        rows parted by /, as in '.#./#O#/.#.'\n"
    "  default               31 pings from the origin on: dx 0 to 30\n"
    "  row N, column N       N cells from the origin on\n"
    "  trailing N            N pings up to the origin: dx -(N - 1) to 0; trailing alone is trailing 31\n"
    "  square N, disc R      about the origin: N cells a side; all cells within R of it\n"
    "  '2 (5) 2'             a drawing with heights, . for an unset cell, the origin in brackets\n"
    "  book:FILE:display:3   what an element book holds\n"
    "  FILE                  a descriptor's bytes; file:FILE whatever its name looks like\n";

static const char files[] =
    "IN is ECH, raw PBM or raw PGM, told by its first bytes. - or nothing is standard input, and output.\n"
    "OUT has the format of --to (ech, pbm, pgm or text), of its name's ending, or else that of IN. It is\n"
    "written whole or not at all. --text draws: # and ., or values; at a terminal, as much as fits.\n";

static void print_part(FILE *to, const struct part *part) {
    fprintf(to, "qik %s%s\n\n%s.\n%s", part->name, part->usage, part->brief, part->more);
    if (strstr(part->usage, "ELEMENT") || strstr(part->usage, "HIT") || part->run == run_book) fprintf(to, "\n%s", elements);
    if (part->takes & TAKES_TO && part->run != run_book && part->run != run_element) fprintf(to, "\n%s", files);
}

static void print_refusals(FILE *to) {
    for (uint32_t number = 1; number < 256; number++)
        if (refusal_name(number)) fprintf(to, "%2u %-8s %s\n", (unsigned)number, refusal_name(number), refusal_words(number));
}

static void print_all(FILE *to) {
    fputs("qik PART ..: morphology of echo pictures, by the proved library Qiksavlut.\n\n", to);
    for (int i = 0; i < PARTS; i++) fprintf(to, "  %-13s %s\n", parts[i].name, parts[i].brief);
    fprintf(to, "\n%s\n%s\n", elements, files);
    fputs("qik PART --help tells of a part, qik --help refusals what each refusal's number means.\n"
          "Status: 0 done, 1 refused, 2 wrong usage, 3 a file that cannot be read or written.\n", to);
}

static const struct part *part_called(const char *name) {
    for (int i = 0; i < PARTS; i++)
        if (strcmp(parts[i].name, name) == 0) return &parts[i];
    wrong("%s is no part of qik; qik --help lists them", name);
}

static void help(const char *topic) {
    struct text text;
    open_text(&text);
    if (!topic) print_all(text.to);
    else if (strcmp(topic, "refusals") == 0) print_refusals(text.to);
    else print_part(text.to, part_called(topic));
    close_text(&text, "-");
}

static void version(void) {
    struct text text;
    open_text(&text);
    fprintf(text.to, "qik %s\n", QIK_VERSION);
    close_text(&text, "-");
}

/* a stream that was closed before is given an end on which its use fails, so that no file that is opened takes its place */
static void hold_streams(void) {
    for (int fd = STDIN_FILENO; fd <= STDERR_FILENO; fd++)
        if (fcntl(fd, F_GETFD) < 0 && open("/dev/null", fd == STDIN_FILENO ? O_WRONLY : O_RDONLY) < 0) _exit(STATUS_FILE);
}

int main(int argc, char **argv) {
    hold_streams();
    /* a closed pipe and a full disk are told of, like any other file that cannot be written */
    signal(SIGPIPE, SIG_IGN);
    signal(SIGXFSZ, SIG_IGN);
    if (argc < 2) wrong("what is to be done? qik --help lists the parts");
    if (strcmp(argv[1], "--version") == 0) {
        version();
    } else if (strcmp(argv[1], "--help") == 0 || strcmp(argv[1], "help") == 0) {
        help(argc > 2 ? argv[2] : NULL);
    } else {
        const struct part *part = part_called(argv[1]);
        struct asked asked = ask(part->name, part->usage, part->takes, argv + 2, argc - 2);
        if (asked.help) help(part->name);
        else part->run(&asked);
    }
    return STATUS_DONE;
}
