/* superframe's command line. In order: its help; how the program ends; numbers and flags; where files are written; the whole line. */
#define _GNU_SOURCE /* vasprintf */
#include <errno.h>
#include <inttypes.h>
#include <stdarg.h>
#include <stdio.h>
#include <stdlib.h>
#include <string.h>
#include <sys/stat.h>
#include <unistd.h>

#include "command_line.h"
#include "sillcandle.h"

static const char help[] =
    "superframe PICTURE [FLAG VALUE]..\n"
    "Builds the super frame of a picture: the levels that motion search reads, with their sub-pel planes.\n"
    "Prints the word that a report stores, the settings and the layout.\n"
    "\n"
    "PICTURE is one of:\n"
    "  an 8-bit binary PGM   one plane, which is built\n"
    "  a Y4M, 8-bit 4:2:0    as ffmpeg and mpv write it. Y, U and V of its first frame are built in one; others aren't read.\n"
    "                        Where a side is odd, the last column or row of U and V has no part in a super frame.\n"
    "\n"
    "Settings; one that isn't given has its default:\n"
    "  --pel N        1, 2 or 4: level 0 is kept as N * N planes (default 2)\n"
    "  --gpu N        0, 1 or 2: at 2 the planes between are left to the GPU; up counts only at 0 (default 1)\n"
    "  --down N       how levels are halved: 0 or 1 average, 2 bilinear, 3 quadratic, 4 cubic (default 4)\n"
    "  --up N         how planes between are made: 0 bilinear, 1 bicubic, any other Wiener (default 2)\n"
    "  --full yes|no  whether level 0 is kept; no is for a PGM alone (default yes)\n"
    "  --rc yes|no    a mark in the word, without effect on the build (default no)\n"
    "  --lean yes|no  likewise, and the super frame is said to be 2 high (default no)\n"
    "Layout, for a PGM alone: the planes of a Y4M have pitches and shifts of their own:\n"
    "  --pitch N      bytes from row to row (default: a row, raised to a multiple of 16)\n"
    "  --shift-x N    1: PICTURE is a plane of half the width of its picture, as chroma is (default 0)\n"
    "  --shift-y N    1: the same for the height (default 0)\n"
    "                 With a shift, the picture is taken to have twice PICTURE's width or height.\n"
    "Output:\n"
    "  -o OUT            the built frame: of a PGM, a PGM whose rows are the pitch; of a Y4M, the bytes of Y, U and V joined,\n"
    "                    with no header: what is printed says where each begins\n"
    "  --view SHEET.pgm  a contact sheet: level 0's planes side by side, the smaller levels below; below Y's, U's and V's\n"
    "                    A file is made beside its place and put there when whole. Where a run makes none, as after a\n"
    "                    refusal, an older file in its place is removed: it would pass for this run's.\n"
    "  --help, -h        this text\n"
    "\n"
    "Exit status: 0 built; 1 refused, with its number; 2 the command line or a file is not usable.\n";

void unusable(const char *text, ...) {
    va_list args;
    va_start(args, text);
    fflush(stdout);
    fputs("superframe: ", stderr);
    vfprintf(stderr, text, args);
    fputc('\n', stderr);
    va_end(args);
    exit(UNUSABLE);
}

void finish(void) {
    if (fflush(stdout) || ferror(stdout)) unusable("what is printed couldn't be written whole");
    exit(0);
}

char *printed(const char *form, ...) {
    char *made;
    va_list args;
    va_start(args, form);
    if (vasprintf(&made, form, args) < 0) unusable("no memory for a name");
    va_end(args);
    return made;
}

static int64_t number(const char *flag, const char *text, int64_t least, int64_t most) {
    char *end;
    errno = 0;
    long long n = strtoll(text, &end, 10);
    /* strtoll takes white space and a plus before a number. */
    char first = text[*text == '-'];
    if (first < '0' || first > '9' || *end || errno || n < least || n > most) unusable("%s %s: a whole number from %" PRId64 " to %" PRId64 " is wanted", flag, text, least, most);
    return n;
}

static int32_t answer(const char *flag, const char *text) {
    if (!strcmp(text, "yes")) return 1;
    if (strcmp(text, "no")) unusable("%s %s: yes or no is wanted", flag, text);
    return 0;
}

/* The settings' flags come first, in the order of `given` and of a record. */
enum { PITCH = 7, SHIFT_X, SHIFT_Y, OUT, VIEW, FLAGS };
static const char *const flags[FLAGS] = {"--pel", "--gpu", "--down", "--up", "--full", "--rc", "--lean", "--pitch", "--shift-x", "--shift-y", "-o", "--view"};

static int flag_of(const char *text) {
    for (int k = 0; k < FLAGS; k++) if (!strcmp(text, flags[k])) return k;
    unusable("%s: no such flag; --help lists them", text);
}

static void one_flag(options *o, int flag, const char *value) {
    const char *name = flags[flag];
    if (flag >= PITCH && flag <= SHIFT_Y) o->layout = name;
    switch (flag) {
    case PITCH: o->pitch = (uint64_t)number(name, value, 0, INT64_MAX), o->pitch_given = 1; break;
    case SHIFT_X: o->x = (uint64_t)number(name, value, 0, UINT32_MAX); break;
    case SHIFT_Y: o->y = (uint64_t)number(name, value, 0, UINT32_MAX); break;
    case OUT: o->out.name = value; break;
    case VIEW: o->view.name = value; break;
    default:
        o->given |= 1u << flag;
        o->set[flag] = flag < SILL_AT_FULL ? (int32_t)number(name, value, INT32_MIN, INT32_MAX) : answer(name, value);
    }
}

static char *place_of(const char *name) {
    struct stat there;
    if (!stat(name, &there)) {
        if (S_ISDIR(there.st_mode)) unusable("%s: %s", name, strerror(EISDIR));
        if (access(name, W_OK)) unusable("%s: %s", name, strerror(errno));
        return S_ISREG(there.st_mode) ? realpath(name, NULL) : NULL;
    }
    /* It isn't there yet: its folder has to be. */
    int why = errno;
    const char *slash = strrchr(name, '/'), *last = slash ? slash + 1 : name;
    char *before = printed("%.*s.", (int)(last - name), name), *folder = realpath(before, NULL);
    if (!folder || !*last) unusable("%s: %s", name, strerror(why));
    char *place = printed("%s/%s", folder, last);
    free(before), free(folder);
    return place;
}

static void settle(output *o, const char *flag, const struct stat *picture) {
    struct stat there;
    if (!o->name) return;
    o->place = place_of(o->name);
    if (o->place && !stat(o->place, &there) && there.st_dev == picture->st_dev && there.st_ino == picture->st_ino) unusable("%s: %s would write over the picture itself", o->name, flag);
}

options command_line(int argc, char **argv) {
    options o = {0};
    for (int k = 1; k < argc; k++) {
        if (!strcmp(argv[k], "--help") || !strcmp(argv[k], "-h")) fputs(help, stdout), finish();
        if (argv[k][0] != '-') {
            if (o.in) unusable("%s: one picture is taken, and %s is it", argv[k], o.in);
            o.in = argv[k];
            continue;
        }
        int flag = flag_of(argv[k]);
        if (++k == argc) unusable("%s: its value is missing; --help lists the flags", flags[flag]);
        one_flag(&o, flag, argv[k]);
    }
    if (!o.in) unusable("which picture? usage: superframe PICTURE [FLAG VALUE]..; --help says more");
    struct stat picture;
    if (stat(o.in, &picture)) unusable("%s: %s", o.in, strerror(errno));
    settle(&o.out, flags[OUT], &picture), settle(&o.view, flags[VIEW], &picture);
    if (o.out.place && o.view.place && !strcmp(o.out.place, o.view.place)) unusable("%s: -o and --view would write the same file", o.out.name);
    return o;
}
