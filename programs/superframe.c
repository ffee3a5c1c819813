/* superframe: builds the super frame of a picture, shows it, and says what was built. It works through the library alone (include/sillcandle.h); its command line is in command_line.c, reading pictures in picture.c, and how files are put in their places in files.c.
   In order: refusals; the frame; what is printed; what is written, the contact sheet last. */
#include <inttypes.h>
#include <stdarg.h>
#include <stdio.h>
#include <stdlib.h>
#include <string.h>

#include "command_line.h"
#include "files.h"
#include "picture.h"
#include "sillcandle.h"

static const char *sentence(uint32_t number) {
    static const char *const all[] = {
        [SILL_BAD_PEL] = "pel isn't 1, 2 or 4",
        [SILL_BAD_GPU] = "gpu isn't 0, 1 or 2",
        [SILL_BAD_FULL] = "pel 2 or 4, and not full",
        [SILL_BAD_LEAN] = "lean, and pel above 2, gpu not 1, not full or down not 4",
        [SILL_BAD_SIZE] = "width or height outside 1 to 16,384",
        [SILL_NO_RECORD] = "a record handed in is no accepted record",
        [SILL_BAD_SHIFT] = "a shift above 1",
        [SILL_BAD_PITCH] = "pitch below max(1, least) or above 32,768; least is level 0's width if full, else level 1's",
        [SILL_BAD_SOURCE_PITCH] = "source pitch below max(1, level 0's width) or above 32,768",
        [SILL_BAD_SOURCE] = "source shorter than (h - 1) * source pitch + w",
        [SILL_BAD_FRAME] = "frame shorter than the written end",
        [SILL_BAD_SPILL] = "spill shorter than its need",
        [SILL_BAD_SCRATCH] = "scratch shorter than 16 * (pitch + 16)",
        [SILL_BAD_LEVELS] = "more than 63 levels",
        [SILL_NO_ROOM] = "a slice lent for the answer is shorter than the answer",
        [SILL_NO_ROW] = "no such level, plane or row is stored",
        [SILL_NO_CODE] = "the word is no code",
        [SILL_NO_DOWN] = "halving filter isn't told",
        [SILL_NO_UP] = "upscale filter isn't told",
        [SILL_NO_CHROMA] = "three planes: width or height is below 2",
        [SILL_NOT_FULL] = "three planes: the record isn't full",
        [SILL_BAD_LAYOUT] = "the layout isn't the one that its record gives",
    };
    return number < sizeof all / sizeof *all && all[number] ? all[number] : "a number that isn't known here";
}

ENDS PRINTS(2, 3) static void refused(uint32_t number, const char *given, ...) {
    va_list args;
    va_start(args, given);
    fprintf(stderr, "superframe: refused, %" PRIu32 ": %s", number, sentence(number));
    vfprintf(stderr, given, args);
    fputc('\n', stderr);
    va_end(args);
    exit(REFUSED);
}

/* Ends the program where a call refused. */
static void done(uint32_t number) {
    if (number != SILL_DONE) refused(number, "%s", "");
}

/* The frame: a record, its parts and their bytes. One part is the plane of a PGM, three are Y, U and V; each has its layout, and starts at a place of the frame. */
typedef struct {
    size_t start, length, layout[SILL_COUNT_LAYOUT];
} part;

typedef struct {
    int32_t record[SILL_COUNT_RECORD], sizes[SILL_COUNT_SIZES];
    uint64_t word;
    size_t count, length, needs[SILL_COUNT_NEEDS];
    part parts[3];
    uint8_t *bytes;
} frame;

/* A PGM is a plane; what the record has is the size of the picture that it is a plane of. A shift above 1 is left to the layout to refuse. */
static int32_t luma(int32_t side, uint64_t shift) {
    int64_t n = shift == 1 ? 2 * (int64_t)side : side;
    return n > INT32_MAX ? INT32_MAX : (int32_t)n;
}

static void done_with_settings(uint32_t number, const int32_t set[7], int32_t width, int32_t height) {
    switch (number) {
    case SILL_BAD_PEL: refused(number, "; given: pel %" PRId32, set[SILL_AT_PEL]);
    case SILL_BAD_GPU: refused(number, "; given: gpu %" PRId32, set[SILL_AT_GPU]);
    case SILL_BAD_SIZE: refused(number, "; given: %" PRId32 "x%" PRId32, width, height);
    default: done(number);
    }
}

static void done_with_layout(uint32_t number, uint32_t x, uint32_t y, size_t pitch) {
    switch (number) {
    case SILL_BAD_SHIFT: refused(number, "; given: shift-x %" PRIu32 ", shift-y %" PRIu32, x, y);
    case SILL_BAD_PITCH: refused(number, "; given: pitch %zu", pitch);
    default: done(number);
    }
}

static void done_with_parts(uint32_t number, const int32_t *record) {
    if (number == SILL_NOT_FULL) refused(number, "%s", "; given: --full no, which is for a PGM alone");
    if (number == SILL_NO_CHROMA) refused(number, "; given: %" PRId32 "x%" PRId32, record[SILL_AT_WIDTH], record[SILL_AT_HEIGHT]);
    done(number);
}

static void lay_out(const frame *f, part *p, uint32_t x, uint32_t y, size_t pitch) {
    done_with_layout(sill_layout(f->record, SILL_COUNT_RECORD, x, y, pitch, p->layout, SILL_COUNT_LAYOUT), x, y, pitch);
}

static void lay_out_one(frame *f, const options *o, const picture *from) {
    part *p = f->parts;
    lay_out(f, p, (uint32_t)o->x, (uint32_t)o->y, o->pitch_given ? (size_t)o->pitch : ((size_t)from->width + 15) / 16 * 16);
    done(sill_written_end(f->record, SILL_COUNT_RECORD, p->layout, SILL_COUNT_LAYOUT, &p->length, SILL_COUNT_END));
    done(sill_needs(f->record, SILL_COUNT_RECORD, p->layout, SILL_COUNT_LAYOUT, f->needs, SILL_COUNT_NEEDS));
    f->length = p->length;
}

static void lay_out_three(frame *f) {
    enum { EACH = SILL_U_START - SILL_Y_START };
    size_t told[SILL_COUNT_PARTS];
    done_with_parts(sill_frame_parts(f->record, SILL_COUNT_RECORD, told, SILL_COUNT_PARTS), f->record);
    for (size_t k = 0; k < f->count; k++) {
        const size_t *own = told + k * EACH;
        f->parts[k].start = own[SILL_Y_START], f->parts[k].length = own[SILL_Y_LENGTH];
        lay_out(f, &f->parts[k], k > SILL_Y, k > SILL_Y, own[SILL_Y_PITCH]);
    }
    f->length = told[SILL_FRAME_LENGTH];
    f->needs[SILL_NEED_SPILL] = told[SILL_FRAME_SPILL], f->needs[SILL_NEED_SCRATCH] = told[SILL_FRAME_SCRATCH];
}

static frame laid_out(const options *o, const picture *p) {
    frame f = {.count = (size_t)p->planes};
    const int32_t *s = o->set, width = luma(p->width, o->x), height = luma(p->height, o->y);
    done_with_settings(sill_check(o->given, s[0], s[1], s[2], s[3], s[4], s[5], s[6], width, height, f.record, SILL_COUNT_RECORD), s, width, height);
    done(sill_pack_data(f.record, SILL_COUNT_RECORD, &f.word, SILL_COUNT_WORD));
    done(sill_super_sizes(f.record, SILL_COUNT_RECORD, f.sizes, SILL_COUNT_SIZES));
    if (f.count > 1) lay_out_three(&f);
    else lay_out_one(&f, o, p);
    return f;
}

/* The sources of three planes have the file's own pitches, which of odd sides aren't those of the frame. */
static uint32_t built(const frame *f, const picture *p, uint8_t *spill, uint8_t *scratch) {
    size_t of_spill = f->needs[SILL_NEED_SPILL], of_scratch = f->needs[SILL_NEED_SCRATCH];
    source y = source_of(p, SILL_Y);
    if (f->count == 1) return sill_build_plane(f->bytes, f->length, spill, of_spill, scratch, of_scratch, f->record, SILL_COUNT_RECORD, f->parts->layout, SILL_COUNT_LAYOUT, y.samples, y.width * y.height, y.width);
    source u = source_of(p, SILL_U), v = source_of(p, SILL_V);
    return sill_build_frame(f->bytes, f->length, spill, of_spill, scratch, of_scratch, f->record, SILL_COUNT_RECORD,
                            y.samples, y.width * y.height, y.width, u.samples, u.width * u.height, u.width, v.samples, v.width * v.height, v.width);
}

static void build(frame *f, const picture *p) {
    uint8_t *spill = zeros(f->needs[SILL_NEED_SPILL]), *scratch = zeros(f->needs[SILL_NEED_SCRATCH]);
    f->bytes = zeros(f->length);
    done(built(f, p, spill, scratch));
    free(spill), free(scratch);
}

/* A level's numbers of a layout, at their places of level 0. */
static const size_t *at_level(const part *p, size_t level) { return p->layout + level * SILL_LAYOUT_STEP; }

static size_t planes(const frame *f, size_t level) {
    return level ? 1 : f->record[SILL_AT_FULL] ? (size_t)(f->record[SILL_AT_PEL] * f->record[SILL_AT_PEL]) : 0;
}

/* What is printed. */
static const char *yes_or_no(int32_t flag) { return flag ? "yes" : "no"; }

static void print_settings(const frame *f) {
    const int32_t *r = f->record;
    static const char *const downs[] = {"average", "average", "bilinear", "quadratic", "cubic"}, *const ups[] = {"bilinear", "bicubic"};
    int32_t down = r[SILL_AT_DOWN], up = r[SILL_AT_UP], told[SILL_COUNT_TOLD];
    size_t levels = f->parts->layout[SILL_LAYOUT_LEVELS];
    int between = r[SILL_AT_PEL] > 1 && levels > 0;
    printf("settings  pel %d, gpu %d, down %d (%s), up %d (%s), full %s, rc %s, lean %s\n", r[SILL_AT_PEL], r[SILL_AT_GPU],
           down, levels < 2 ? "no part in this build" : down >= 0 && down <= 4 ? downs[down] : "none: later levels stay unwritten",
           up, !between ? "no part in this build" : r[SILL_AT_GPU] > 1 ? "none: planes after 0 stay unwritten" : up >= 0 && up <= 1 ? ups[up] : "Wiener",
           yes_or_no(r[SILL_AT_FULL]), yes_or_no(r[SILL_AT_RC]), yes_or_no(r[SILL_AT_LEAN]));
    uint32_t open = sill_read_word(f->word, told, SILL_COUNT_TOLD);
    printf("read back %" PRIu32 ": %s\n", open, open ? sentence(open) : "the word names this build and no other");
}

static void print_levels(const frame *f, const part *p) {
    printf("%5s %7s %11s %7s %7s %11s\n", "level", "planes", "offset", "width", "height", "end");
    for (size_t k = 0; k < p->layout[SILL_LAYOUT_LEVELS]; k++) {
        const size_t *level = at_level(p, k), at = p->start + level[SILL_LAYOUT_OFFSET], height = level[SILL_LAYOUT_HEIGHT];
        printf("%5zu %7zu %11zu %7zu %7zu %11zu\n", k, planes(f, k), at, level[SILL_LAYOUT_WIDTH], height, at + planes(f, k) * height * p->layout[SILL_LAYOUT_PITCH]);
    }
}

static void print_layout(const frame *f) {
    printf("super     %dx%d\n", f->sizes[SILL_SIZE_WIDTH], f->sizes[SILL_SIZE_HEIGHT]);
    if (f->count == 1) printf("pitch     %zu\n", f->parts->layout[SILL_LAYOUT_PITCH]);
    printf("frame     %zu bytes; a build is lent %zu of spill and %zu of scratch\n", f->length, f->needs[SILL_NEED_SPILL], f->needs[SILL_NEED_SCRATCH]);
    for (size_t k = 0; k < f->count; k++) {
        const part *p = &f->parts[k];
        if (f->count > 1) printf("plane %c   %zu bytes from %zu on, pitch %zu\n", "YUV"[k], p->length, p->start, p->layout[SILL_LAYOUT_PITCH]);
        print_levels(f, p);
    }
}

static void print_chroma(const picture *p) {
    source u = source_of(p, SILL_U);
    printf(", U and V %dx%d", p->width / 2, p->height / 2);
    if (p->width % 2 || p->height % 2) printf(" of the file's %zux%zu", u.width, u.height);
    if (p->interlaced) printf(", interlaced: both fields as one picture");
}

static void print_picture(const frame *f, const picture *p) {
    const int32_t *r = f->record;
    printf("picture   %s, %dx%d", p->name, p->width, p->height);
    if (f->count > 1) print_chroma(p);
    if (r[SILL_AT_WIDTH] != p->width || r[SILL_AT_HEIGHT] != p->height) printf(", a plane of %dx%d", r[SILL_AT_WIDTH], r[SILL_AT_HEIGHT]);
    printf("\nword      %016" PRIx64 "\n", f->word);
}

/* What is written. */
static void write_pgm(output *to, size_t width, size_t height, const uint8_t *bytes) {
    char *head = printed("P5\n%zu %zu\n255\n", width, height);
    write_whole(to, head, bytes, width * height);
    free(head);
    printf("wrote     %s, %zux%zu\n", to->name, width, height);
}

/* Rows of three planes have two lengths, so no picture has them as they lie in the frame. */
static void write_frame(output *to, const frame *f) {
    if (f->count == 1) {
        size_t pitch = f->parts->layout[SILL_LAYOUT_PITCH];
        write_pgm(to, pitch, f->length / pitch, f->bytes);
        return;
    }
    write_whole(to, "", f->bytes, f->length);
    printf("wrote     %s, %zu bytes: Y, U and V, with no header\n", to->name, f->length);
}

enum { GAP = 8, GROUND = 40 };
typedef struct {
    size_t width, height;
    uint8_t *bytes;
} sheet;

/* A part is laid out as a plane alone is, from its own first byte on. */
static void show(const frame *f, const part *p, sheet *s, size_t level, size_t plane, size_t left, size_t top) {
    size_t of[SILL_COUNT_PLANE];
    done(sill_level_plane(p->length, f->record, SILL_COUNT_RECORD, p->layout, SILL_COUNT_LAYOUT, (uint32_t)level, plane, of, SILL_COUNT_PLANE));
    const uint8_t *row = f->bytes + p->start + of[SILL_PLANE_START];
    for (size_t y = 0; y < of[SILL_PLANE_HEIGHT]; y++, row += of[SILL_PLANE_PITCH]) memcpy(s->bytes + (top + y) * s->width + left, row, of[SILL_PLANE_WIDTH]);
}

/* What is drawn of a part, from a place of the sheet on: level 0's planes in pel rows of pel, as their samples lie between the picture's; the smaller levels in a row below. Answers the size, with a gap on every side; where the sheet has no bytes yet, nothing is drawn. */
static sheet drawn(const frame *f, const part *p, sheet *s, size_t left, size_t top) {
    const size_t *first = at_level(p, 0), levels = p->layout[SILL_LAYOUT_LEVELS];
    size_t across = planes(f, 0) ? (size_t)f->record[SILL_AT_PEL] : 0, width = first[SILL_LAYOUT_WIDTH] + GAP, height = first[SILL_LAYOUT_HEIGHT] + GAP;
    sheet of = {.width = GAP + across * width, .height = GAP + across * height};
    size_t below = of.height, smaller = GAP;
    if (s->bytes) for (size_t k = 0; k < planes(f, 0); k++) show(f, p, s, 0, k, left + GAP + k % across * width, top + GAP + k / across * height);
    for (size_t k = 1; k < levels; k++) {
        if (s->bytes) show(f, p, s, k, 0, left + smaller, top + below);
        smaller += at_level(p, k)[SILL_LAYOUT_WIDTH] + GAP;
    }
    if (smaller > of.width) of.width = smaller;
    if (levels > 1) of.height += at_level(p, 1)[SILL_LAYOUT_HEIGHT] + GAP;
    return of;
}

/* Y, or the one plane that there is; below it U and V side by side. */
static sheet all_drawn(const frame *f, sheet *s) {
    sheet all = drawn(f, &f->parts[SILL_Y], s, 0, 0);
    size_t left = 0, top = all.height;
    for (size_t k = 1; k < f->count; k++) {
        sheet of = drawn(f, &f->parts[k], s, left, top);
        left += of.width;
        all.height = top + of.height;
    }
    if (left > all.width) all.width = left;
    return all;
}

static void view(const frame *f, output *to) {
    sheet none = {0}, s = all_drawn(f, &none);
    s.bytes = zeros(s.width * s.height);
    memset(s.bytes, GROUND, s.width * s.height);
    all_drawn(f, &s);
    write_pgm(to, s.width, s.height, s.bytes);
    free(s.bytes);
}

int main(int argc, char **argv) {
    static options asked;
    asked = command_line(argc, argv);
    picture p = opened(asked.in);
    if (p.planes > 1 && asked.layout) unusable("%s: for a PGM alone; the planes of %s, a Y4M, have pitches and shifts of their own", asked.layout, p.name);
    answer_for(&asked);
    frame f = laid_out(&asked, &p);
    read_samples(&p);
    build(&f, &p);
    print_picture(&f, &p), print_settings(&f), print_layout(&f);
    if (!f.length && (asked.out.name || asked.view.name)) printf("nothing is stored of %s, so no file is written\n", f.count > 1 ? "these planes" : "this plane");
    if (f.length && asked.out.name) write_frame(&asked.out, &f);
    if (f.length && asked.view.name) view(&f, &asked.view);
    free(p.samples), free(f.bytes);
    finish();
}
