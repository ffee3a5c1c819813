/* Cases whose numbers and answers are told here by hand, good and bad ones of each call; most values are document 01's own.
   In order: settings and records; words; sizes and layouts; rows; frames and bytes; vast slices; all of them, with those of layouts.c, longhand.c and planes.c. */
#include <stdio.h>
#include <string.h>
#include <sys/mman.h>

#include "door.h"
#include "sillcandle.h"

enum { ALL = 127 };

/* A number that the case names, beside what the call is held to anyway. */
void is(uint32_t got, uint32_t number) {
    if (got != number) failed("fixed case: %u, not %u", got, number);
}

layout laid(int32_t pel, int32_t gpu, int32_t up, int32_t full, int32_t width, int32_t height, size_t pitch) {
    layout l = {.count = 10, .pitch = pitch};
    int32_t set[7] = {pel, gpu, 4, up, full, 0, 0};
    if (rule_check(ALL, set, width, height, l.record)) failed("fixed case: no record");
    keep(&l);
    return l;
}

static void checks(void) {
    static const struct { uint32_t number, given; int32_t set[7], width, height; } cases[] = {
        {0, 0, {9, 9, 9, 9, 9, 9, 9}, 64, 48},
        {0, ~127u, {9, 9, 9, 9, 9, 9, 9}, 64, 48},
        {0, ALL, {4, 0, INT32_MIN, INT32_MAX, -7, 2, 0}, 16384, 16384},
        {0, ALL, {1, 2, 0, 0, 0, 0, 0}, 1, 1},
        {0, ALL, {2, 1, 4, 0, 1, 1, INT32_MIN}, 4, 4},
        {1, ALL, {3, 3, 4, 0, 0, 0, 1}, 0, 0},
        {1, 1, {0}, 64, 48}, {1, 1, {-1}, 64, 48}, {1, 1, {INT32_MAX}, 64, 48},
        {2, 2, {0, 3}, 0, 0}, {2, 2, {0, -1}, 64, 48}, {2, 3, {4, INT32_MIN}, 64, 48},
        {3, 16, {0}, 0, 0}, {3, 17, {4}, 64, 48}, {3, 16 + 64, {0, 0, 0, 0, 0, 0, 1}, 64, 48},
        {4, 1 + 64, {4, 0, 0, 0, 0, 0, 1}, 0, 0}, {4, 2 + 64, {0, 0, 0, 0, 0, 0, 1}, 64, 48}, {4, 2 + 64, {0, 2, 0, 0, 0, 0, 1}, 64, 48},
        {4, 1 + 16 + 64, {1, 0, 0, 0, 0, 0, 1}, 64, 48}, {4, 4 + 64, {0, 0, 3, 0, 0, 0, 1}, 64, 48},
        {5, 0, {0}, 0, 48}, {5, 0, {0}, 64, 0}, {5, 0, {0}, 16385, 48}, {5, 0, {0}, 64, 16385}, {5, 0, {0}, -1, -1}, {5, 0, {0}, INT32_MIN, INT32_MAX}, {5, 0, {0}, 65540, 4},
    };
    for (size_t k = 0; k < sizeof cases / sizeof *cases; k++) {
        for (size_t room = 0; room <= 12; room++) {
            uint32_t no = cases[k].number;
            is(try_check(cases[k].given, cases[k].set, cases[k].width, cases[k].height, room), no ? no : room < 10 ? 15 : 0);
        }
    }
}

/* What the check gave is what document 01 says: the defaults, and levels. */
static void records(void) {
    int32_t r[10];
    static const int32_t of_64x48[10] = {2, 1, 4, 0, 1, 0, 0, 4, 64, 48};
    tell("sill_check, the record");
    is(sill_check(0, 0, 0, 0, 0, 0, 0, 0, 64, 48, r, 10), 0);
    if (memcmp(r, of_64x48, sizeof r)) failed("another record of 64x48");
    static const int32_t levels[][3] = {{3, 100, 0}, {4, 4, 1}, {64, 48, 4}, {16384, 16384, 13}};
    for (int k = 0; k < 4; k++) {
        is(sill_check(0, 0, 0, 0, 0, 0, 0, 0, levels[k][0], levels[k][1], r, 10), 0);
        if (r[SILL_AT_LEVELS] != levels[k][2]) failed("%dx%d: %d levels", levels[k][0], levels[k][1], r[SILL_AT_LEVELS]);
    }
}

/* Every call that takes a record refuses each of these with 6, whatever else is wrong. */
static void refused(const layout *l) {
    lengths none = {0};
    frame_lengths no_planes = {0};
    is(try_accepted(l), 6), is(try_pack(l, 0), 6), is(try_pack(l, 1), 6), is(try_sizes(l, 0), 6), is(try_sizes(l, 2), 6);
    is(try_longhand_write(l, 0), 6), is(try_longhand_write(l, 20), 6), is(try_longhand_write(l, 21), 6);
    is(try_make(l, 0), 6), is(try_make(l, 43), 6), is(try_change(l, l->x, l->y, l->pitch), 6), is(try_change(l, 2, 0, 0), 6);
    is(try_end(l, 1), 6), is(try_needs(l, 2), 6), is(try_needs(l, 0), 6), is(try_level_plane(l, 0, 0, 0, 0), 6), is(try_level_plane(l, SIZE_MAX, 0, 0, 4), 6);
    is(try_clear(l, 0), 6), is(try_clear(l, 100), 6), is(try_row(l, 0, 0, 0, 0, 0), 6), is(try_row(l, SIZE_MAX, 0, 0, 0, 2), 6), is(try_build(l, &none), 6);
    is(try_parts(l, 0), 6), is(try_parts(l, 12), 6), is(try_frame_row(l, 0, 0, 0, 0, 0, 0), 6), is(try_frame_row(l, SIZE_MAX, 0, 0, 0, 0, 2), 6), is(try_build_frame(l, &no_planes), 6);
}

static void bad_records(void) {
    static const int32_t wild[] = {-1, 2, 3, 5, 255, 16385, 65537, INT32_MAX, INT32_MIN};
    for (size_t count = 0; count <= 12; count++) {
        layout l = laid(2, 1, 0, 1, 64, 48, 64);
        l.count = count;
        if (count != 10) refused(&l);
        else is(try_accepted(&l), 0);
    }
    for (int at = 0; at < 10; at++) {
        for (size_t k = 0; k < sizeof wild / sizeof *wild; k++) {
            layout l = laid(2, 1, 0, 1, 64, 48, 64);
            if (l.record[at] == wild[k] || at == SILL_AT_DOWN || (at == SILL_AT_GPU && wild[k] == 2)) continue;
            l.record[at] = wild[k];
            /* Another size may have as many levels. */
            if (rule_record(l.record, 10)) refused(&l);
            else if (at < SILL_AT_WIDTH) failed("fixed case: record place %d of %d is accepted", at, wild[k]);
        }
    }
    layout zeros = {.count = 10, .pitch = 1}, refined_off_gpu_0 = laid(2, 1, 0, 1, 64, 48, 64);
    refined_off_gpu_0.record[SILL_AT_UP] = 2;
    keep(&zeros);
    refused(&zeros), refused(&refined_off_gpu_0);
}

static void words(void) {
    static const struct { uint64_t word; uint32_t number; int32_t told[12]; } cases[] = {
        {0x0001040200400030, 0, {64, 48, 2, 4, 1, 1, 0, 0, 1, 4, 1, 0}},
        {0x0000040200400030, 22, {0}}, {0x0300440100400030, 21, {0}}, {0x0001050200400030, 20, {0}},
        {0x0001410200040004, 0, {4, 4, 2, 1, 1, 1, 0, 0, 0, 0, 1, 0}},
        {0, 20, {0}}, {UINT64_MAX, 20, {0}}, {0x0001040200400030 ^ 1ull << 63, 20, {0}}, {0x0000440200400030, 21, {0}},
    };
    for (size_t k = 0; k < sizeof cases / sizeof *cases; k++) {
        int32_t told[12] = {0};
        for (size_t room = 0; room <= 14; room++) is(try_read(cases[k].word, room), room < 12 ? 15 : cases[k].number);
        is(sill_read_word(cases[k].word, told, 12), cases[k].number);
        if (memcmp(told, cases[k].told, sizeof told)) failed("fixed case: another description");
    }
    layout l = laid(2, 1, 0, 1, 64, 48, 64);
    uint64_t word = 0;
    is(try_pack(&l, 0), 15), is(try_pack(&l, 1), 0), is(try_pack(&l, 2), 0);
    is(sill_pack_data(l.record, 10, &word, 1), 0);
    if (word != cases[0].word) failed("fixed case: another word of 64x48");
}

static void alike(void) {
    const uint64_t word = 0x0001040200400030, rc = 1ull << 56, lean = 1ull << 47;
    is(try_alike(word, word), 1), is(try_alike(word, word | rc), 1), is(try_alike(word | rc, word | lean), 1);
    is(try_alike(word, 0x0001410200040004), 0), is(try_alike(word, 0x0001040100400030), 0), is(try_alike(0x0001410200040004, 0x0001010200040004), 0);
    /* A word that doesn't tell its build isn't even like itself. */
    is(try_alike(0x0000040200400030, 0x0000040200400030), 0), is(try_alike(0, 0), 0), is(try_alike(UINT64_MAX, UINT64_MAX), 0);
}

static void sizes(void) {
    layout full = laid(2, 1, 0, 1, 64, 48, 64), packed = laid(1, 1, 0, 0, 64, 48, 64);
    int32_t of[2];
    is(try_sizes(&full, 0), 15), is(try_sizes(&full, 1), 15), is(try_sizes(&full, 2), 0), is(try_sizes(&packed, 5), 0);
    is(sill_super_sizes(full.record, 10, of, 2), 0);
    if (of[0] != 64 || of[1] != 4 * 48 + 24 + 12 + 6) failed("fixed case: another super size of 64x48");
    is(sill_super_sizes(packed.record, 10, of, 2), 0);
    if (of[0] != 32 || of[1] != 48) failed("fixed case: another super size of 64x48, not full");
}

/* Making and changing refuse these shifts or this pitch with the number, whatever higher one applies too; the calls that take a layout
   refuse one that says them. */
static void layout_refused(layout l, uint32_t number) {
    lengths none = {0};
    layout fine = laid(2, 1, 0, 1, 64, 48, 64);
    keep(&l);
    is(try_make(&l, 0), number), is(try_make(&l, 43), number), is(try_change(&fine, l.x, l.y, l.pitch), number), is(try_change(&l, 0, 0, 64), 32);
    is(try_end(&l, 0), 15), is(try_end(&l, 1), 32), is(try_needs(&l, 1), 15), is(try_needs(&l, 2), 32), is(try_clear(&l, 0), 32);
    is(try_row(&l, 0, 99, 0, 0, 0), 15), is(try_row(&l, 0, 99, 0, 0, 2), 32), is(try_level_plane(&l, 0, 99, 0, 3), 15), is(try_level_plane(&l, 0, 99, 0, 4), 32);
    is(try_build(&l, &none), 32);
}

static void layouts(void) {
    static const uint32_t shifts[] = {2, 31, 32, 33, 1u << 31, UINT32_MAX};
    static const size_t pitches[] = {0, 63, 32769, (size_t)1 << 31, ((size_t)1 << 32) + 64, (size_t)1 << 63, SIZE_MAX};
    for (size_t k = 0; k < sizeof shifts / sizeof *shifts; k++) {
        layout x = laid(2, 1, 0, 1, 64, 48, 64), y = x;
        x.x = shifts[k], y.y = shifts[k], y.pitch = 0;
        layout_refused(x, 7), layout_refused(y, 7);
    }
    for (size_t k = 0; k < sizeof pitches / sizeof *pitches; k++) {
        layout_refused(laid(2, 1, 0, 1, 64, 48, pitches[k]), 8);
    }
    layout l = laid(2, 1, 0, 1, 64, 48, 64), flat = laid(1, 1, 0, 0, 3, 3, 1);
    static const size_t by_hand[43] = {4, 0, 0, 64, 0, 64, 48, 12288, 32, 24, 13824, 16, 12, 14592, 8, 6};
    size_t numbers[43], end, needs[2];
    for (size_t room = 0; room <= 45; room++) is(try_make(&l, room), room < 43 ? 15 : 0), is(try_make(&flat, room), room < 43 ? 15 : 0);
    is(try_end(&l, 0), 15), is(try_end(&l, 1), 0), is(try_end(&flat, 2), 0), is(try_needs(&l, 0), 15), is(try_needs(&l, 1), 15), is(try_needs(&l, 3), 0);
    is(sill_layout(l.record, 10, 0, 0, 64, numbers, 43), 0), is(sill_written_end(l.record, 10, numbers, 43, &end, 1), 0), is(sill_needs(l.record, 10, numbers, 43, needs, 2), 0);
    if (memcmp(numbers, by_hand, sizeof numbers) || end != 14976 || needs[0] != 16 || needs[1] != 1280) failed("fixed case: another layout of 64x48");
}

static void rows(void) {
    layout l = laid(2, 1, 0, 1, 64, 48, 64), half = laid(1, 1, 0, 0, 64, 48, 64);
    size_t place[2], far = (size_t)1 << 63;
    is(try_row(&l, 14975, 0, 0, 0, 0), 11), is(try_row(&l, 14976, 0, 0, 0, 1), 15), is(try_row(&l, 14976, 9, 0, 0, 1), 15);
    is(try_row(&l, 14976, 0, 3, 47, 2), 0), is(try_row(&l, SIZE_MAX, 3, 0, 5, 4), 0);
    is(try_row(&l, 14976, 0, 4, 0, 2), 19), is(try_row(&l, 14976, 0, 0, 48, 2), 19), is(try_row(&l, 14976, 4, 0, 0, 2), 19), is(try_row(&l, 14976, 1, 1, 0, 2), 19);
    is(try_row(&l, 14976, UINT32_MAX, far, SIZE_MAX, 2), 19), is(try_row(&l, far, 0, far, 0, 2), 19), is(try_row(&l, far, 0, 0, far + 1, 2), 19), is(try_row(&half, far, 0, 0, 0, 2), 19);
    is(sill_row(14976, l.record, 10, l.handed, 43, 1, 0, 2, place, 2), 0);
    if (place[0] != 12288 + 2 * 64 || place[1] != 32) failed("fixed case: another row of 64x48");
    /* Pel 4: 16 planes of 48 rows, then 42 rows of the later levels. */
    layout quarter = laid(4, 1, 0, 1, 64, 48, 64);
    size_t end = 16 * 48 * 64 + 42 * 64;
    is(try_row(&quarter, end - 1, 0, 15, 47, 2), 11), is(try_row(&quarter, end, 0, 15, 47, 2), 0);
    is(try_row(&quarter, end, 0, 16, 0, 2), 19), is(try_row(&quarter, end, 0, 15, 48, 2), 19);
    is(sill_row(end, quarter.record, 10, quarter.handed, 43, 0, 15, 47, place, 2), 0);
    if (place[0] != 16 * 48 * 64 - 64 || place[1] != 64) failed("fixed case: another last row of plane 15");
}

/* The largest picture: 16 planes of 16,384 rows, then 8192 + 4096 + .. + 4 = 16,380 rows of twelve later levels. */
static void largest(void) {
    layout l = laid(4, 1, 0, 1, 16384, 16384, 32768);
    const size_t later = (size_t)1 << 33, by_hand = later + (size_t)16380 * 32768;
    size_t numbers[43], end, needs[2], place[2], plane[4];
    is(try_make(&l, 43), 0), is(try_change(&l, 1, 1, 8192), 0), is(try_end(&l, 1), 0), is(try_needs(&l, 2), 0);
    is(try_row(&l, SIZE_MAX, 0, 15, 16383, 2), 0), is(try_row(&l, SIZE_MAX, 12, 0, 3, 2), 0), is(try_row(&l, by_hand, 12, 0, 3, 2), 0);
    is(try_row(&l, by_hand - 1, 0, 0, 0, 2), 11), is(try_row(&l, SIZE_MAX, 12, 0, 4, 2), 19), is(try_row(&l, SIZE_MAX, 13, 0, 0, 2), 19);
    is(try_level_plane(&l, by_hand, 0, 15, 4), 0), is(try_level_plane(&l, by_hand, 12, 0, 4), 0), is(try_level_plane(&l, by_hand - 1, 12, 0, 4), 11);
    is(try_level_plane(&l, SIZE_MAX, 13, 0, 4), 19), is(try_level_plane(&l, SIZE_MAX, 0, 16, 4), 19), is(try_level_plane(&l, SIZE_MAX, 12, 1, 4), 19);
    is(sill_layout(l.record, 10, 0, 0, 32768, numbers, 43), 0), is(sill_written_end(l.record, 10, numbers, 43, &end, 1), 0);
    is(sill_needs(l.record, 10, numbers, 43, needs, 2), 0), is(sill_row(SIZE_MAX, l.record, 10, numbers, 43, 12, 0, 3, place, 2), 0);
    is(sill_level_plane(by_hand, l.record, 10, numbers, 43, 0, 15, plane, 4), 0);
    if (numbers[0] != 13 || numbers[7] != later || numbers[40] != by_hand - 4 * 32768 || numbers[41] != 4 || numbers[42] != 4) failed("fixed case: other levels of 16384x16384");
    if (plane[0] != (size_t)15 << 29 || plane[1] != 16384 || plane[2] != 16384 || plane[3] != 32768) failed("fixed case: another plane 15 of 16384x16384");
    if (end != by_hand || end != 9126674432 || needs[1] != 16 * 32784) failed("fixed case: another layout of 16384x16384");
    if (place[0] != by_hand - 32768 || place[1] != 4) failed("fixed case: another last row of 16384x16384");
}

static void frames(void) {
    layout l = laid(2, 1, 0, 1, 64, 48, 64), none = laid(2, 1, 0, 1, 3, 3, 3);
    is(try_clear(&l, 0), 11), is(try_clear(&l, 14975), 11), is(try_clear(&l, 14976), 0), is(try_clear(&l, 15000), 0), is(try_clear(&none, 0), 0);
    lengths fine = {14976, 16, 1280, 3072, 64}, n;
    is(try_build(&l, &fine), 0);
    n = fine, n.src_pitch = 63, n.src = 0, is(try_build(&l, &n), 9);
    n = fine, n.src_pitch = 32769, is(try_build(&l, &n), 9);
    n = fine, n.src_pitch = (size_t)1 << 63, n.frame = 0, is(try_build(&l, &n), 9);
    n = fine, n.src--, n.frame = 0, is(try_build(&l, &n), 10);
    n = fine, n.src = 0, is(try_build(&l, &n), 10);
    n = fine, n.src_pitch++, is(try_build(&l, &n), 10);
    n = fine, n.frame--, n.spill = 0, is(try_build(&l, &n), 11);
    n = fine, n.spill--, n.scratch = 0, is(try_build(&l, &n), 12);
    n = fine, n.scratch--, is(try_build(&l, &n), 13);
    n = fine, n.scratch = 0, is(try_build(&l, &n), 13);
    /* Nothing is stored of a picture without levels: frame and source may be missing where no byte is needed. */
    lengths small = {0, 16, 304, 9, 3}, empty = {0, 16, 272, 0, 1};
    layout thin = laid(1, 1, 0, 1, 1, 1, 1);
    thin.x = 1, keep(&thin);
    /* Some of these with NULL, some with other pointers that lead nowhere. */
    for (int k = 0; k < 16; k++) is(try_build(&none, &small), 0), is(try_build(&thin, &empty), 0), is(try_clear(&none, 0), 0);
}

/* Bytes by hand: rows 0, 200, 30 .. 80 halve by cubic to 100, 66, 55, 75; a row past the level's stays, and level 0 is a copy. */
static void bytes(void) {
    static const uint8_t row[8] = {0, 200, 30, 40, 50, 60, 70, 80}, halved[4] = {100, 66, 55, 75};
    uint8_t source[64];
    for (int y = 0; y < 8; y++) memcpy(source + 8 * y, row, 8);
    layout l = laid(1, 1, 0, 1, 8, 8, 8);
    lengths n = {8 * 8 + 4 * 8, 16, 16 * 24, 64, 8};
    source_given[0] = source;
    is(try_build(&l, &n), 0);
    source_given[0] = NULL;
    if (memcmp(built(), source, 64)) failed("fixed case: level 0 isn't the source");
    for (int y = 0; y < 4; y++) if (memcmp(built() + 64 + 8 * y, halved, 4)) failed("fixed case: row %d of level 1 isn't 100, 66, 55, 75", y);
}

static void front_is(const void *to, const void *value, size_t bytes, const char *what) {
    if (memcmp(to, value, bytes)) failed("fixed case: another %s", what);
}

/* A slice for the answer whose count is 0 in its low 32 bits has room enough. */
static void vast_answers(const layout *l, uint8_t *to, size_t count) {
    int32_t sizes[2], told[12];
    uint8_t longhand[21];
    size_t kept[43], end = rule_end(l), needs[2], place[2], plane[4], after = 0;
    uint64_t word = rule_word(l->record);
    rule_longhand_write(l->record, 10, longhand);
    rule_sizes(l->record, sizes), rule_numbers(l, kept), rule_needs(l, needs), rule_read(word, told), rule_row(l, end, 1, 0, 2, place), rule_level_plane(l, end, 0, 3, plane);
    const int32_t *r = l->record;
    int32_t *numbers = (int32_t *)to;
    size_t *places = (size_t *)to;
    is(sill_check(0, 0, 0, 0, 0, 0, 0, 0, 64, 48, numbers, count), 0), front_is(to, r, 10 * sizeof *r, "record");
    is(sill_pack_data(r, 10, (uint64_t *)to, count), 0), front_is(to, &word, sizeof word, "word");
    is(sill_read_word(word, numbers, count), 0), front_is(to, told, sizeof told, "description");
    is(sill_longhand_write(r, 10, to, count), 0), front_is(to, longhand, sizeof longhand, "longhand record");
    is(sill_longhand_read(longhand, 21, numbers, count, &after, 1), 0), front_is(to, r, 10 * sizeof *r, "record"), is((uint32_t)after, 21);
    is(sill_longhand_read(longhand, 21, told, 10, places, count), 0), front_is(to, &after, sizeof after, "place");
    is(sill_super_sizes(r, 10, numbers, count), 0), front_is(to, sizes, sizeof sizes, "super size");
    is(sill_layout(r, 10, 0, 0, l->pitch, places, count), 0), front_is(to, kept, sizeof kept, "layout");
    is(sill_written_end(r, 10, kept, 43, places, count), 0), front_is(to, &end, sizeof end, "end");
    is(sill_needs(r, 10, kept, 43, places, count), 0), front_is(to, needs, sizeof needs, "need");
    is(sill_row(end, r, 10, kept, 43, 1, 0, 2, places, count), 0), front_is(to, place, sizeof place, "row");
    is(sill_level_plane(end, r, 10, kept, 43, 0, 3, places, count), 0), front_is(to, plane, sizeof plane, "plane");
}

/* A layout whose count is 43 in its low 32 bits alone isn't one, though a good one stands at its front. `held` can't be written. */
static void vast_layouts(const layout *l, size_t *at, const void *held, size_t count) {
    const int32_t *r = l->record;
    uint8_t *kept = (uint8_t *)held;
    size_t *to = (size_t *)held;
    memcpy(at, l->handed, 43 * sizeof *at);
    is(sill_written_end(r, 10, at, count, to, 1), 32), is(sill_needs(r, 10, at, count, to, 2), 32), is(sill_clear_margins(kept, count, r, 10, at, count), 32);
    is(sill_row(count, r, 10, at, count, 0, 0, 0, to, 2), 32), is(sill_level_plane(count, r, 10, at, count, 0, 0, to, 4), 32);
    is(sill_build_plane(kept, count, kept + count, 16, kept + count + 16, 1280, r, 10, at, count, kept, count, 64), 32);
    is(sill_layout_change(r, 10, at, count, 0, 0, 80), 32), front_is(at, l->handed, 43 * sizeof *at, "layout");
    memset(at, 0, 43 * sizeof *at);
}

/* A longhand record of the greatest length ends 3 bytes past 2^32, of which only length and kind are looked at. */
static void vast_longhand(uint8_t *bytes, const void *held, size_t over) {
    int32_t record[10];
    size_t after = 0;
    memset(bytes, 255, 4), bytes[4] = 2, bytes[5] = 0;
    is(sill_longhand_read(bytes, over + 2, (int32_t *)held, 10, (size_t *)held + 5, 1), 15);
    is(sill_longhand_read(bytes, over + 3, (int32_t *)held, 10, &after, 1), 16);
    if (after != over + 3) failed("fixed case: another place after 2^32");
    bytes[4] = 1, is(sill_longhand_read(bytes, over + 3, (int32_t *)held, 10, (size_t *)held + 5, 1), 17);
    bytes[0] = 17, memset(bytes + 1, 0, 3), bytes[6] = 4, bytes[8] = 4, bytes[10] = 1, bytes[11] = 1, bytes[12] = 1;
    is(sill_longhand_read(bytes, over, record, 10, &after, 1), 0), is((uint32_t)after, 21);
    bytes[12] = 9, is(sill_longhand_read(bytes, over, (int32_t *)held, 10, (size_t *)held + 5, 1), 18);
    memset(bytes, 0, 32);
}

/* Counts whose low 32 bits alone would be another length. What is refused lies in memory that can't be written. */
static void vast(void) {
    const size_t over = (size_t)1 << 32, room = 8 * (over + 64);
    uint8_t *to = mmap(NULL, room, PROT_READ | PROT_WRITE, MAP_PRIVATE | MAP_ANONYMOUS | MAP_NORESERVE, -1, 0);
    int32_t *held = mmap(NULL, room, PROT_READ, MAP_PRIVATE | MAP_ANONYMOUS | MAP_NORESERVE, -1, 0);
    tell("slices of 2^32 elements and more");
    if (to == MAP_FAILED || held == MAP_FAILED) {
        puts("door: no address space for slices of 2^32 elements: left out");
        return;
    }
    layout l = laid(2, 1, 0, 1, 64, 48, 64);
    static uint8_t frame[14976], spill[16], scratch[1280], src[3072];
    memcpy(to, l.record, sizeof l.record);
    const int32_t *record = (const int32_t *)to;
    is(sill_accepted(record, over + 10), 6), is(sill_accepted(record, 10), 0);
    is(sill_check(0, 0, 0, 0, 0, 0, 0, 0, 0, 0, held, over), 5), is(sill_pack_data(record, over + 10, (uint64_t *)held, over), 6);
    is(sill_row(over, record, 10, l.handed, 43, 4, 0, 0, (size_t *)held, over), 19), is(sill_level_plane(over, record, 10, l.handed, 43, 4, 0, (size_t *)held, over), 19), is(sill_read_word(0, held, over + 11), 20);
    is(sill_clear_margins((uint8_t *)held, over, record, over + 10, l.handed, 43), 6), is(sill_layout(record, over + 10, 0, 0, 64, (size_t *)held, over), 6);
    is(sill_layout_change(record, over + 10, (size_t *)held, over + 43, 0, 0, 64), 6), is(sill_layout(record, 10, 0, 0, over + 64, (size_t *)held, over), 8);
    is(sill_build_plane(frame, 14975, (uint8_t *)held, over, (uint8_t *)held + over, over, l.record, 10, l.handed, 43, src, 3072, 64), 11);
    is(sill_build_plane((uint8_t *)held, over, spill, 15, scratch, 1280, l.record, 10, l.handed, 43, src, 3072, 64), 12);
    for (int k = 0; k < 3072; k++) src[k] = (uint8_t)next();
    memset(to, 0, 4096);
    vast_answers(&l, to, over);
    vast_layouts(&l, (size_t *)to, held, over + 43);
    memset(to, 0, 4096);
    vast_longhand(to, held, over);
    is(sill_build_plane(frame, 14976, spill, 16, scratch, 1280, l.record, 10, l.handed, 43, src, 3072, 64), 0);
    uint8_t *long_src = to + over + 4096;
    memcpy(long_src, src, 3072);
    is(sill_build_plane(to, over + 5, spill, 16, scratch, 1280, l.record, 10, l.handed, 43, long_src, over + 7, 64), 0);
    if (memcmp(to, frame, 14976)) failed("another frame");
    vast_planes(to, held, over);
    munmap(to, room), munmap(held, room);
}

void fixed_cases(void) {
    for (where = AT_START; where < SPOTS; where++) {
        checks(), records(), bad_records(), words(), alike(), sizes(), layouts(), rows(), largest(), frames(), bytes(), layout_cases(), plane_cases();
    }
    longhand_cases();
    where = AMIDST;
    vast();
    uint64_t count = 0;
    for (int k = 0; k < CALLS; k++) for (int n = 0; n < NUMBERS; n++) count += met[k][n];
    printf("door: %llu fixed calls, slices at the start, amid and at the end of their rooms: as told\n", (unsigned long long)count);
    memset(met, 0, sizeof met);
}
