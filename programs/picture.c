/* Reads the picture that superframe is given. In order: the header of a PGM; that of a Y4M; which of the two it is; its samples. */
#include <errno.h>
#include <stdlib.h>
#include <string.h>

#include "command_line.h"
#include "picture.h"

uint8_t *zeros(size_t n) {
    uint8_t *p = calloc(n ? n : 1, 1);
    if (!p) unusable("no memory for %zu bytes", n);
    return p;
}

ENDS static void neither(const picture *p) {
    unusable("%s: neither a binary PGM, which begins with P5 and white space, nor a Y4M, which begins with YUV4MPEG2 and a space", p->name);
}

static int next_is(FILE *f, const char *word) {
    for (; *word; word++) if (getc(f) != *word) return 0;
    return 1;
}

/* A byte of a PGM's header; a comment is the end of its line, wherever it begins. */
static int header_byte(FILE *f) {
    int c = getc(f);
    if (c == '#') while (c != '\n' && c != '\r' && c != EOF) c = getc(f);
    return c;
}

static int white(int c) { return c == ' ' || (c >= '\t' && c <= '\r'); }

/* A number of a PGM's header, after white space. */
static int32_t header_number(const picture *p, const char *what) {
    int c = header_byte(p->file), digits = 0;
    while (white(c)) c = header_byte(p->file);
    int64_t n = 0;
    for (; c >= '0' && c <= '9'; c = header_byte(p->file), digits++) {
        n = 10 * n + c - '0';
        if (n > INT32_MAX) unusable("%s: its header has a %s of more than %d", p->name, what, INT32_MAX);
    }
    /* The byte after the number is taken too: after the last one, the samples begin. */
    if (c == EOF) unusable("%s: it ends in its header", p->name);
    if (!digits || !white(c)) unusable("%s: its header has no %s", p->name, what);
    return (int32_t)n;
}

static void pgm_header(picture *p) {
    if (!next_is(p->file, "5") || !white(header_byte(p->file))) neither(p);
    p->planes = 1;
    p->width = header_number(p, "width");
    p->height = header_number(p, "height");
    int32_t largest = header_number(p, "largest sample");
    if (largest != 255) unusable("%s: its largest sample is %d; only 255, 8 bits a sample, is taken", p->name, largest);
}

/* A line of a Y4M, without its end. Nothing bounds one in the format, so a bound is set here, far above what is written. */
enum { LONGEST = 1024 };
static void line(const picture *p, const char *what, char text[LONGEST]) {
    size_t n = 0;
    for (int c; (c = getc(p->file)) != '\n'; text[n++] = (char)c) {
        if (c == EOF) unusable("%s: it ends in its %s", p->name, what);
        if (c < ' ' || c > '~') unusable("%s: its %s has a byte 0x%02x, which is no ASCII text", p->name, what, (unsigned)c);
        if (n == LONGEST - 1) unusable("%s: its %s is longer than %d bytes", p->name, what, LONGEST);
    }
    text[n] = 0;
}

static int is_number(const char *text) { return *text && !text[strspn(text, "0123456789")]; }

static int32_t side(const picture *p, const char *text, const char *what) {
    if (!text || !is_number(text)) unusable("%s: its header has no %s", p->name, what);
    long long n = strtoll(text, NULL, 10);
    if (n > INT32_MAX) unusable("%s: its header has a %s of more than %d", p->name, what, INT32_MAX);
    return (int32_t)n;
}

/* Ends the program unless samples are 8 bit and chroma has half of both sides. The tags that are taken differ only in where chroma lies between Y's samples. */
static void takes(const picture *p, const char *tag) {
    static const char *const taken[] = {"420jpeg", "420mpeg2", "420paldv", "420"}, only[] = "only 8-bit 4:2:0 is taken";
    static const char *const kinds[][2] = {{"411", "4:1:1"}, {"420", "4:2:0"}, {"422", "4:2:2"}, {"440", "4:4:0"}, {"444", "4:4:4"}, {"mono", "grey alone"}};
    for (size_t k = 0; k < sizeof taken / sizeof *taken; k++) if (!strcmp(tag, taken[k])) return;
    for (size_t k = 0; k < sizeof kinds / sizeof *kinds; k++) {
        const char *kind = kinds[k][1], *rest = tag + strlen(kinds[k][0]);
        if (strncmp(tag, kinds[k][0], strlen(kinds[k][0]))) continue;
        if (!*rest) unusable("%s: a Y4M of %s, 8 bit; %s", p->name, kind, only);
        if (!strcmp(rest, "alpha")) unusable("%s: a Y4M of %s with alpha, 8 bit; %s", p->name, kind, only);
        const char *bits = rest + (*rest == 'p');
        if (is_number(bits) && strcmp(bits, "8")) unusable("%s: a Y4M of %s, %s bit; %s", p->name, kind, bits, only);
    }
    unusable("%s: a Y4M of C%s, which isn't known here; %s", p->name, tag, only);
}

static void y4m_header(picture *p) {
    enum { WIDTH, HEIGHT, INTERLACING, CHROMA, FIELDS };
    static const char letters[FIELDS + 1] = "WHIC";
    const char *fields[FIELDS] = {NULL}, *at;
    char text[LONGEST];
    if (!next_is(p->file, "UV4MPEG2 ")) neither(p);
    line(p, "header", text);
    for (const char *field = strtok(text, " "); field; field = strtok(NULL, " ")) {
        if (!(at = strchr(letters, *field))) continue;
        if (fields[at - letters]) unusable("%s: its header has %c more than once", p->name, *field);
        fields[at - letters] = field + 1;
    }
    p->planes = 3;
    p->width = side(p, fields[WIDTH], "width");
    p->height = side(p, fields[HEIGHT], "height");
    p->interlaced = fields[INTERLACING] && *fields[INTERLACING] && strchr("tbm", *fields[INTERLACING]);
    if (fields[CHROMA]) takes(p, fields[CHROMA]);
}

picture opened(const char *name) {
    picture p = {.name = name, .file = fopen(name, "rb")};
    if (!p.file) unusable("%s: %s", name, strerror(errno));
    switch (getc(p.file)) {
    case 'P': pgm_header(&p); break;
    case 'Y': y4m_header(&p); break;
    default:
        if (ferror(p.file)) unusable("%s: %s", name, strerror(errno));
        neither(&p);
    }
    return p;
}

source source_of(const picture *p, int plane) {
    size_t width = (size_t)p->width, height = (size_t)p->height, half_width = (width + 1) / 2, half_height = (height + 1) / 2;
    if (!plane) return (source){width, height, p->samples};
    return (source){half_width, half_height, p->samples ? p->samples + width * height + (plane > 1 ? half_width * half_height : 0) : NULL};
}

static void frame_line(const picture *p) {
    char text[LONGEST];
    if (!next_is(p->file, "FRAME")) unusable(feof(p->file) ? "%s: it ends before its first frame" : "%s: there is no FRAME line after its header", p->name);
    line(p, "FRAME line", text);
    if (*text && *text != ' ') unusable("%s: there is no FRAME line after its header", p->name);
}

void read_samples(picture *p) {
    size_t want = 0;
    for (int k = 0; k < p->planes; k++) want += source_of(p, k).width * source_of(p, k).height;
    if (p->planes > 1) frame_line(p);
    p->samples = zeros(want);
    size_t got = fread(p->samples, 1, want, p->file);
    if (got != want) unusable("%s: its header says %zu bytes of samples, and there are %zu", p->name, want, got);
    /* A header that was misread, as a PGM's with a carriage return or a comment after 255, leaves bytes over. After a frame of a Y4M another may begin, even if it was cut. */
    if (p->planes == 1 && getc(p->file) != EOF) unusable("%s: there are more bytes than its header says", p->name);
    if (p->planes > 1 && !next_is(p->file, "FRAME") && !feof(p->file)) unusable("%s: what follows its first frame is no other FRAME", p->name);
    fclose(p->file);
}
