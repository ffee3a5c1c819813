/* Three planes in one call: document 02's order 3. Every call is held to rules.c and the Rust, and the numbers and places that can be told by
   hand are told here.
   In order: pictures; refusals, alone and by twos; sources; the smallest sides, missing slices and odd sides; bytes by hand; parts and
   rows; vast slices; all of them. */
#include <string.h>

#include "door.h"
#include "sillcandle.h"

/* A picture of three planes and what its build is lent. */
typedef struct {
    int32_t pel, gpu, up, full, width, height;
    size_t count;
    frame_lengths n;
} picture;

static layout record_of(const picture *p) {
    layout l = laid(p->pel, p->gpu, p->up, p->full, p->width, p->height, 0);
    l.count = p->count;
    return l;
}

/* Each plane's rows lie so many bytes further apart than they have to; the rest has exactly the needed length. */
static picture fine(int32_t pel, int32_t gpu, int32_t up, int32_t width, int32_t height, const size_t apart[3]) {
    picture p = {pel, gpu, up, 1, width, height, 10, {0}};
    layout l = record_of(&p);
    size_t parts[12];
    rule_parts(&l, parts);
    p.n.frame = parts[SILL_FRAME_LENGTH], p.n.spill = parts[SILL_FRAME_SPILL], p.n.scratch = parts[SILL_FRAME_SCRATCH];
    for (int k = 0; k < 3; k++) {
        layout part = rule_part(&l, k);
        p.n.src_pitch[k] = part.pitch + apart[k], p.n.src[k] = rule_source(&part, p.n.src_pitch[k]);
    }
    return p;
}

static const size_t tight[3] = {0, 0, 0}, loose[3] = {3, 1, 6};

static void gives(const picture *p, uint32_t number) {
    layout l = record_of(p);
    is(try_build_frame(&l, &p->n), number);
}

/* All that can be wrong with a build, in the order in which it is looked for: by one, by all that there is, or by too much. */
enum { BY_ONE, BY_ALL, BY_MUCH, WAYS };
static const uint32_t wrongs[] = {6, 23, 23, 24, 9, 9, 9, 10, 10, 10, 11, 12, 13};
enum { WRONGS = sizeof wrongs / sizeof *wrongs };

static void shorten(size_t *length, int way) { *length -= way == BY_ALL ? *length : 1; }

static void spoil(picture *p, int wrong, int way) {
    static const size_t counts[WAYS] = {9, 0, 11}, much[3] = {32769, ((size_t)1 << 32) + 64, SIZE_MAX};
    switch (wrong) {
    case 0: p->count = counts[way]; break;
    case 1: p->width = 1; break;
    case 2: p->height = 1; break;
    case 3: p->full = 0; break;
    case 4: case 5: case 6:
        if (way == BY_MUCH) p->n.src_pitch[wrong - 4] = much[wrong - 4];
        else p->n.src_pitch[wrong - 4] = way == BY_ALL ? 0 : (size_t)p->width / (wrong > 4 ? 2 : 1) - 1;
        break;
    case 7: case 8: case 9: shorten(&p->n.src[wrong - 7], way); break;
    case 10: shorten(&p->n.frame, way); break;
    case 11: shorten(&p->n.spill, way); break;
    default: shorten(&p->n.scratch, way);
    }
}

/* Each wrong alone, and each two at once. A record that isn't full has pel 1. */
static void refusals(void) {
    for (int way = 0; way < WAYS; way++) for (int first = 0; first < WRONGS; first++) for (int second = first; second < WRONGS; second++) {
        picture p = fine(1, 1, 0, 16, 12, way == BY_ONE ? tight : loose);
        /* What is looked for last is spoilt first: a pitch that is below the row goes by the width. */
        spoil(&p, second, way);
        if (first != second) spoil(&p, first, way);
        gives(&p, wrongs[first]);
    }
}

/* A frame that has room for each plane, or for two of them, isn't long enough for three. */
static void joined(void) {
    picture p = fine(2, 1, 0, 64, 48, tight);
    is((uint32_t)p.n.frame, 14976 + 2 * 3744), gives(&p, 0);
    static const size_t too_short[] = {0, 3744, 14975, 14976, 18719, 18720, 22463};
    for (size_t k = 0; k < sizeof too_short / sizeof *too_short; k++) p.n.frame = too_short[k], gives(&p, 11);
    p.n.frame = 22464 + 70, gives(&p, 0);
}

static void exchange(size_t *a, size_t *b) {
    size_t c = *a;
    *a = *b, *b = c;
}

/* U and V have sources of one size by pitches of their own: what is one's doesn't do for the other. */
static void sources(void) {
    picture even = fine(2, 0, 2, 24, 16, loose), p = even;
    gives(&even, 0);
    exchange(&p.n.src[1], &p.n.src[2]), gives(&p, 10);
    exchange(&p.n.src_pitch[1], &p.n.src_pitch[2]), gives(&p, 0);
    exchange(&p.n.src[1], &p.n.src[2]), gives(&p, 10);
    p = even, p.n.src[1]++, p.n.src[2]--, gives(&p, 10);
    p = even, p.n.src[1]--, p.n.src[2]++, gives(&p, 10);
    p = even, p.n.src[0] += 9, p.n.src[1] += 5, p.n.src[2] += 50, gives(&p, 0);
    /* The luma pitch for V. */
    p = even, p.n.src_pitch[2] = p.n.src_pitch[0], gives(&p, 10);
    p.n.src[2] = 7 * p.n.src_pitch[2] + 12, gives(&p, 0);
}

/* Sources are only read, so they may share bytes: rows of U and V side by side in one buffer, 24x16. */
static void shared(void) {
    enum { FRAME = 4 * 16 * 24 + (8 + 4) * 24 + 2 * (4 * 8 * 12 + (4 + 2) * 12), SCRATCH = 16 * (24 + 16), LENGTH = 7 * 24 + 12 };
    static uint8_t together[FRAME], alone[FRAME], spill[16], scratch[SCRATCH], y[16 * 24], chroma[8 * 24], u[8 * 12], v[8 * 12];
    layout l = laid(2, 0, 2, 1, 24, 16, 0);
    for (size_t k = 0; k < sizeof y; k++) y[k] = (uint8_t)next();
    for (size_t k = 0; k < sizeof chroma; k++) chroma[k] = (uint8_t)next();
    for (size_t k = 0; k < 8; k++) memcpy(u + 12 * k, chroma + 24 * k, 12), memcpy(v + 12 * k, chroma + 24 * k + 12, 12);
    memset(together, 0, FRAME), memset(alone, 0, FRAME);
    tell("sill_build_frame, sources that share bytes");
    is(sill_build_frame(together, FRAME, spill, 16, scratch, SCRATCH, l.record, 10, y, 384, 24, chroma, LENGTH, 24, chroma + 12, LENGTH, 24), 0);
    is(sill_build_frame(alone, FRAME, spill, 16, scratch, SCRATCH, l.record, 10, y, 384, 24, u, 96, 12, v, 96, 12), 0);
    if (memcmp(together, alone, FRAME)) failed("fixed case: another frame");
}

/* With a side below 4 there is no level: no byte of the frame is needed or written, and all else applies. */
static void smallest(void) {
    for (int32_t width = 1; width <= 5; width++) for (int32_t height = 1; height <= 5; height++) {
        picture p = {2, 1, 0, 1, width, height, 10, {0}};
        layout l = record_of(&p);
        if (width < 2 || height < 2) {
            gives(&p, 23), is(try_parts(&l, 12), 23), is(try_parts(&l, 11), 15), is(try_frame_row(&l, 0, 0, 0, 0, 0, 2), 23), is(try_frame_row(&l, 0, 0, 0, 0, 0, 1), 15);
            p.full = 0, p.pel = 1, gives(&p, 23);
            continue;
        }
        p = fine(2, 1, 0, width, height, tight), gives(&p, 0), is(try_parts(&l, 12), 0);
        if (width < 4 || height < 4) {
            if (p.n.frame) failed("fixed case: %dx%d has a byte", width, height);
            is(try_frame_row(&l, 0, 0, 0, 0, 0, 2), 19), is(try_frame_row(&l, SIZE_MAX, 2, 0, 0, 0, 1), 15);
            p.n.frame = 40, gives(&p, 0), p.n.frame = 0;
        }
        picture short_of = p;
        short_of.n.src[2]--, gives(&short_of, 10);
        short_of = p, short_of.n.src_pitch[1] = 0, gives(&short_of, 9);
        short_of = p, short_of.n.spill = 15, gives(&short_of, 12);
        short_of = p, short_of.n.scratch--, gives(&short_of, 13);
    }
    picture nothing = {1, 1, 0, 1, 16, 16, 0, {0}};
    /* Some of these with NULL, some with other pointers that lead nowhere. */
    for (int k = 0; k < 16; k++) nothing.count = 0, gives(&nothing, 6), nothing.count = 10, gives(&nothing, 9);
}

/* Odd sides, and the smallest that have a level, by every pel and every way to refine. */
static void odd(void) {
    static const int32_t sides[][2] = {{5, 4}, {4, 4}, {7, 9}, {17, 5}, {19, 33}, {35, 21}, {64, 37}};
    for (size_t k = 0; k < sizeof sides / sizeof *sides; k++) for (int32_t pel = 1; pel <= 4; pel *= 2) for (int32_t up = 0; up <= 3; up++) {
        picture p = fine(pel, up == 3, up, sides[k][0], sides[k][1], up & 1 ? loose : tight);
        gives(&p, 0);
        p.n.frame += 1 + k, p.n.spill += k, p.n.scratch += 3 * k, gives(&p, 0);
    }
}

/* 24, and what comes before it. */
static void not_full(void) {
    picture p = fine(1, 1, 0, 16, 16, tight);
    p.full = 0, gives(&p, 24);
    layout l = record_of(&p);
    is(try_parts(&l, 12), 24), is(try_parts(&l, 20), 24), is(try_parts(&l, 11), 15), is(try_parts(&l, 0), 15);
    is(try_frame_row(&l, 0, 0, 0, 0, 0, 2), 24), is(try_frame_row(&l, SIZE_MAX, 9, 9, 9, 9, 2), 24), is(try_frame_row(&l, 0, 0, 0, 0, 0, 1), 15);
    l.count = 9;
    is(try_parts(&l, 12), 6), is(try_parts(&l, 0), 6), is(try_frame_row(&l, 0, 0, 0, 0, 0, 0), 6), is(try_frame_row(&l, SIZE_MAX, 0, 0, 0, 0, 2), 6);
}

/* 16x16: Y's rows are 16 + 8 + 4 of 16 bytes, U's and V's half as many of half as many. U is document 01's row, which halves to 100, 66,
   55, 75, by rows 9 apart; Y and V are 7 and 9 throughout, which no filter changes. */
static void bytes(void) {
    static const uint8_t row[8] = {0, 200, 30, 40, 50, 60, 70, 80}, halved[4] = {100, 66, 55, 75};
    static const size_t apart[3] = {0, 1, 2};
    uint8_t y[256], u[71], v[78];
    memset(y, 7, sizeof y), memset(u, 255, sizeof u), memset(v, 9, sizeof v);
    for (int k = 0; k < 8; k++) memcpy(u + 9 * k, row, 8);
    picture p = fine(1, 1, 0, 16, 16, apart);
    source_given[0] = y, source_given[1] = u, source_given[2] = v;
    gives(&p, 0);
    memset(source_given, 0, sizeof source_given);
    const uint8_t *of = built();
    if (memcmp(of, y, 256)) failed("fixed case: level 0 of Y isn't its source");
    for (int k = 0; k < 8; k++) if (memcmp(of + 448 + 8 * k, row, 8)) failed("fixed case: row %d of U isn't its source's", k);
    for (int k = 0; k < 4; k++) if (memcmp(of + 512 + 8 * k, halved, 4)) failed("fixed case: row %d of U's level 1 isn't 100, 66, 55, 75", k);
    if (memcmp(of + 560, v, 64) || memcmp(of + 624, v, 4)) failed("fixed case: V isn't 9");
}

static void parts(void) {
    /* 64x48: Y as in document 01, 14,976 bytes; U and V 4 * 24 rows and 12 + 6 + 3 of 32 bytes. */
    static const size_t by_hand[12] = {0, 64, 14976, 14976, 32, 3744, 18720, 32, 3744, 22464, 16, 1280};
    /* 16,384 square: 16 * 16,384 + 16,380 rows of 16,384 bytes, and half as many of half as many. */
    static const size_t largest[12] = {0, 16384, 4563337216, 4563337216, 8192, 1140834304, 5704171520, 8192, 1140834304, 6845005824, 16, 262400};
    /* 7x5: one level; Y 5 rows of 7, U and V 2 of 3. */
    static const size_t odd_sides[12] = {0, 7, 35, 35, 3, 6, 41, 3, 6, 47, 16, 368};
    static const struct { int32_t pel, width, height; const size_t *parts; } cases[] = {{2, 64, 48, by_hand}, {4, 16384, 16384, largest}, {1, 7, 5, odd_sides}};
    for (int k = 0; k < 3; k++) {
        layout l = laid(cases[k].pel, 1, 0, 1, cases[k].width, cases[k].height, 0);
        size_t told[12] = {0};
        for (size_t room = 0; room <= 14; room++) is(try_parts(&l, room), room < 12 ? 15 : 0);
        is(sill_frame_parts(l.record, 10, told, 12), 0);
        if (memcmp(told, cases[k].parts, sizeof told)) failed("fixed case: other parts of %dx%d", cases[k].width, cases[k].height);
    }
}

/* Every part, level, plane and row, and one past each. */
static void rows(int32_t pel, int32_t width, int32_t height) {
    layout l = laid(pel, 1, 0, 1, width, height, 0);
    size_t of_frame[12], numbers[LAYOUT];
    rule_parts(&l, of_frame);
    for (uint32_t part = 0; part <= 3; part++) {
        layout one = rule_part(&l, part < 3 ? (int)part : 0);
        rule_numbers(&one, numbers);
        for (uint32_t level = 0; level <= numbers[SILL_LAYOUT_LEVELS]; level++) {
            int stored = part < 3 && level < numbers[SILL_LAYOUT_LEVELS];
            size_t planes = level ? 1 : (size_t)(pel * pel), high = stored ? numbers[SILL_LAYOUT_HEIGHT + SILL_LAYOUT_STEP * level] : 0;
            for (size_t plane = 0; plane <= planes; plane++) for (size_t y = 0; y <= high; y++) {
                is(try_frame_row(&l, of_frame[SILL_FRAME_LENGTH], part, level, plane, y, 2), stored && plane < planes && y < high ? 0 : 19);
            }
        }
    }
}

static void row_places(void) {
    layout l = laid(2, 1, 0, 1, 64, 48, 0);
    const size_t end = 22464, far = (size_t)1 << 63;
    /* Row 2 of level 1: of Y after 4 * 48 rows of 64 bytes, of U and V after 4 * 24 of 32. */
    static const size_t by_hand[3][2] = {{12288 + 128, 32}, {14976 + 3072 + 64, 16}, {18720 + 3072 + 64, 16}};
    for (uint32_t part = 0; part < 3; part++) {
        size_t place[2];
        tell("sill_frame_row, by hand");
        is(sill_frame_row(end, l.record, 10, part, 1, 0, 2, place, 2), 0);
        if (memcmp(place, by_hand[part], sizeof place)) failed("fixed case: another row of part %u of 64x48", part);
        is(try_frame_row(&l, end, part, 0, 0, 0, 0), 15), is(try_frame_row(&l, end, part, 0, 0, 0, 1), 15), is(try_frame_row(&l, SIZE_MAX, part, 0, 3, 0, 5), 0);
        is(try_frame_row(&l, end - 1, part, 0, 0, 0, 2), 11), is(try_frame_row(&l, 0, part, 9, 9, 9, 0), 11);
        is(try_frame_row(&l, far, part, UINT32_MAX, far, SIZE_MAX, 2), 19), is(try_frame_row(&l, far, part, 0, far, 0, 2), 19), is(try_frame_row(&l, far, part, 0, 0, far + 1, 2), 19);
    }
    is(try_frame_row(&l, end, 3, 0, 0, 0, 1), 15), is(try_frame_row(&l, end, UINT32_MAX, 0, 0, 0, 2), 19), is(try_frame_row(&l, end - 1, 3, 0, 0, 0, 2), 11);
    rows(1, 7, 5), rows(2, 20, 17), rows(4, 9, 12), rows(1, 3, 2);
    layout largest = laid(4, 1, 0, 1, 16384, 16384, 0);
    is(try_frame_row(&largest, 6845005824, 2, 12, 0, 1, 2), 0), is(try_frame_row(&largest, 6845005824, 2, 12, 0, 2, 2), 19), is(try_frame_row(&largest, 6845005823, 0, 0, 0, 0, 2), 11);
}

/* Counts whose low 32 bits alone would be another length; `held` can't be written. */
void vast_planes(uint8_t *to, const void *held, size_t over) {
    layout l = laid(2, 1, 0, 1, 64, 48, 0);
    static uint8_t frame[22464], spill[16], scratch[1280], y[3072], u[768], v[768];
    uint8_t *kept = (uint8_t *)held;
    size_t of_frame[12], place[2];
    rule_parts(&l, of_frame), rule_frame_row(&l, over, 2, 1, 0, 2, place);
    is(sill_frame_parts(l.record, over + 10, (size_t *)held, over), 6), is(sill_frame_row(over, l.record, over + 10, 0, 0, 0, 0, (size_t *)held, over), 6);
    is(sill_frame_row(over, l.record, 10, 3, 0, 0, 0, (size_t *)held, over), 19);
    is(sill_frame_parts(l.record, 10, (size_t *)to, over), 0);
    if (memcmp(to, of_frame, sizeof of_frame)) failed("fixed case: other parts");
    is(sill_frame_row(over, l.record, 10, 2, 1, 0, 2, (size_t *)to, over), 0);
    if (memcmp(to, place, sizeof place)) failed("fixed case: another row");
    is(sill_build_frame(kept, 22463, kept + over, over, kept + 2 * over, over, l.record, 10, y, 3072, 64, u, 768, 32, v, 768, 32), 11);
    is(sill_build_frame(kept, over, kept + over, 15, kept + 2 * over, over, l.record, 10, y, 3072, 64, u, 768, 32, v, 768, 32), 12);
    is(sill_build_frame(kept, over, kept + over, over, kept + 2 * over, over, l.record, over + 10, y, 3072, 64, u, 768, 32, v, 768, 32), 6);
    is(sill_build_frame(kept, over, kept + over, over, kept + 2 * over, over, l.record, 10, y, 3072, 64, u, 768, 32, v, 768, over + 32), 9);
    for (int k = 0; k < 3072; k++) y[k] = (uint8_t)next(), u[k % 768] = (uint8_t)next(), v[k % 768] = (uint8_t)next();
    memset(frame, 0, sizeof frame), memset(to, 0, sizeof frame);
    is(sill_build_frame(frame, 22464, spill, 16, scratch, 1280, l.record, 10, y, 3072, 64, u, 768, 32, v, 768, 32), 0);
    uint8_t *long_v = to + over + 4096;
    memcpy(long_v, v, 768);
    is(sill_build_frame(to, over + 5, spill, 16, scratch, 1280, l.record, 10, y, 3072, 64, u, 768, 32, long_v, over + 7, 32), 0);
    if (memcmp(to, frame, sizeof frame)) failed("another frame of three planes");
    memset(to, 0, sizeof frame), memset(long_v, 0, 768);
}

void plane_cases(void) {
    refusals(), joined(), sources(), shared(), smallest(), odd(), not_full(), bytes(), parts(), row_places();
}
