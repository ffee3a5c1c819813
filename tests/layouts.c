/* Layouts that are handed in: document 02's order 5. Every call is held to rules.c, and the numbers that can be told by hand are told here.
   In order: the sample of layouts; refusals; each number changed; other counts; other layouts, and those of other records; changing; a
   level's plane beside its rows; all of them. */
#include <string.h>

#include "door.h"
#include "sillcandle.h"

enum { SAMPLES = 9 };
static layout sample[SAMPLES];

static layout shifted(layout l, uint32_t x, uint32_t y, size_t pitch) {
    l.x = x, l.y = y, l.pitch = pitch;
    keep(&l);
    return l;
}

/* Every count of stored planes and rows that a layout's numbers go by: 0, 1, 2, 3, 4 and 13 levels, full and not, each pel, shifts of 0 and of 1. */
static void samples(void) {
    layout all[SAMPLES] = {
        laid(2, 1, 0, 1, 64, 48, 64), laid(1, 1, 0, 0, 64, 48, 32), shifted(laid(4, 0, 1, 1, 24, 16, 24), 1, 0, 13), shifted(laid(1, 0, 0, 1, 17, 9, 17), 1, 1, 8),
        laid(1, 2, 0, 0, 9, 8, 40), laid(2, 1, 0, 1, 4, 4, 4), laid(1, 1, 0, 1, 3, 3, 3), laid(1, 1, 0, 0, 3, 100, 1), laid(4, 1, 0, 1, 16384, 16384, 32768),
    };
    memcpy(sample, all, sizeof all);
    static const size_t levels[SAMPLES] = {4, 4, 3, 2, 2, 1, 0, 0, 13};
    for (int k = 0; k < SAMPLES; k++) if (sample[k].handed[SILL_LAYOUT_LEVELS] != levels[k]) failed("fixed case: %zu levels in sample %d", sample[k].handed[0], k);
}

/* All seven calls that take a layout give this number, 6 or 32, with each other thing wrong, and of the small samples with nothing else
   wrong; but for 15, which stands before 32. */
static void refuses(const layout *l, uint32_t number) {
    static const lengths wrong[] = {{0, 0, 0, 0, 0}, {400, 400, 900, 400, 0}, {400, 400, 900, 0, 20}, {0, 400, 900, 400, 20}, {400, 0, 900, 400, 20}, {400, 400, 0, 400, 20}, {400, 400, 900, 400, 20}};
    uint32_t short_of = number == 6 ? 6 : 15;
    for (size_t k = 0; k < sizeof wrong / sizeof *wrong; k++) is(try_build(l, &wrong[k]), number);
    is(try_change(l, 0, 0, 16384), number), is(try_change(l, l->x, l->y, l->pitch), number), is(try_change(l, 2, 0, 64), number), is(try_change(l, 0, 0, 0), number);
    is(try_end(l, 1), number), is(try_end(l, 0), short_of), is(try_needs(l, 2), number), is(try_needs(l, 1), short_of), is(try_clear(l, 0), number), is(try_clear(l, 400), number);
    is(try_row(l, 0, 0, 0, 0, 2), number), is(try_row(l, SIZE_MAX, 1, 0, 0, 2), number), is(try_row(l, SIZE_MAX, 99, 99, 99, 2), number), is(try_row(l, 0, 99, 99, 99, 1), short_of);
    is(try_level_plane(l, 0, 0, 0, 4), number), is(try_level_plane(l, SIZE_MAX, 1, 0, 4), number), is(try_level_plane(l, SIZE_MAX, 99, 99, 4), number), is(try_level_plane(l, 0, 99, 99, 3), short_of);
}

/* A layout that isn't its record's; and with a record that isn't accepted, which comes first. */
static void not_its(const layout *l) {
    layout none = *l, other = *l;
    refuses(l, 32);
    none.count = 9, other.record[SILL_AT_LEVELS]++;
    refuses(&none, 6), refuses(&other, 6);
}

/* A layout that is its record's: each call goes on to what comes after 32. */
static void its(const layout *l) {
    layout own;
    is(rule_handed(l, &own), 0);
    is(try_end(l, 1), 0), is(try_needs(l, 2), 0), is(try_change(l, l->x, l->y, l->pitch), 0);
    is(try_row(l, SIZE_MAX, 99, 0, 0, 2), 19), is(try_level_plane(l, SIZE_MAX, 99, 0, 4), 19);
    is(try_build(l, &(lengths){0, 0, 0, 0, 0}), 9), is(try_clear(l, 0), rule_end(&own) ? 11 : 0);
}

/* Whether the shifts and the pitch of a good layout can be others and leave all else as it is: offsets go by the pitch from the second
   stored level on, and sizes by the shifts where there is a level. */
static int open_at(const layout *l, int at) {
    size_t levels = l->handed[SILL_LAYOUT_LEVELS], listed = l->record[SILL_AT_FULL] ? 1 : 2;
    if (at == SILL_LAYOUT_PITCH) return levels <= listed;
    return (at == SILL_LAYOUT_X_SHIFT || at == SILL_LAYOUT_Y_SHIFT) && levels == 0;
}

static void numbers_changed(const layout *good) {
    for (int at = 0; at < LAYOUT; at++) {
        size_t was = good->handed[at];
        const size_t values[] = {was + 1, was - 1, 0, SIZE_MAX, 1, 2, was + ((size_t)1 << 32), was ^ (size_t)1 << 63, was + ((size_t)1 << 31), was * 2};
        for (size_t k = 0; k < sizeof values / sizeof *values; k++) {
            layout l = *good, own;
            if (values[k] == was) continue;
            l.handed[at] = values[k];
            if (!open_at(good, at)) not_its(&l);
            else if (rule_handed(&l, &own)) refuses(&l, 32);
            else its(&l);
        }
    }
}

/* Counts short and long, with a good layout at the front; a layout of none is NULL, or another pointer that leads nowhere. */
static void counts(const layout *good) {
    for (size_t count = 0; count <= LAYOUT_MOST; count++) {
        layout l = *good;
        l.handed_count = count;
        if (count == LAYOUT) its(&l);
        else if (count == 42 || count == 44) not_its(&l);
        else refuses(&l, 32);
    }
    layout none = *good;
    none.handed_count = 0;
    for (int k = 0; k < 8; k++) not_its(&none);
}

/* Numbers that aren't made, or not for this record, or not for this pitch. */
static void others(void) {
    for (int k = 0; k < SAMPLES; k++) {
        layout zeros = sample[k], ones = sample[k], columns = sample[k];
        memset(zeros.handed, 0, sizeof zeros.handed), memset(ones.handed, 255, sizeof ones.handed);
        not_its(&zeros), not_its(&ones);
        /* Offsets, widths and heights in columns; these are the same numbers where there is no level. */
        for (int n = 0; n < 3; n++) for (int level = 0; level < SILL_MOST_LEVELS; level++) columns.handed[4 + SILL_MOST_LEVELS * n + level] = sample[k].handed[4 + 3 * level + n];
        if (sample[k].handed[0]) not_its(&columns);
        for (int j = 0; j < SAMPLES; j++) {
            layout other = sample[k];
            memcpy(other.handed, sample[j].handed, sizeof other.handed);
            if (j == k) its(&other);
            /* Samples 6 and 7 have no level, so they go by the pitch alone: 3 is good for both, 1 for the one whose level 1 has no width. */
            else if (k / 2 == 3 && j / 2 == 3) is(try_end(&other, 1), k == 6 ? 32 : 0);
            else not_its(&other);
        }
    }
    layout l = laid(2, 1, 0, 1, 64, 48, 64), wider = laid(2, 1, 0, 1, 64, 48, 80), mixed = l;
    mixed.handed[SILL_LAYOUT_PITCH] = 80, not_its(&mixed);
    mixed = wider, mixed.handed[SILL_LAYOUT_PITCH] = 64, not_its(&mixed);
    mixed = l, mixed.handed[SILL_LAYOUT_LEVELS] = 3, memset(mixed.handed + SILL_LAYOUT_OFFSET + 3 * SILL_LAYOUT_STEP, 0, 3 * sizeof *mixed.handed), not_its(&mixed);
    layout half = shifted(l, 1, 1, 64), across = shifted(l, 1, 0, 64);
    mixed = half, mixed.handed[SILL_LAYOUT_X_SHIFT] = mixed.handed[SILL_LAYOUT_Y_SHIFT] = 0, not_its(&mixed);
    mixed = across, mixed.handed[SILL_LAYOUT_X_SHIFT] = 0, mixed.handed[SILL_LAYOUT_Y_SHIFT] = 1, not_its(&mixed);
}

/* It is about numbers: what isn't among them doesn't count. By hand, 64x48 and its neighbours. */
static void of_another(const layout *record, const layout *from, int same) {
    layout l = *record;
    memcpy(l.handed, from->handed, sizeof l.handed);
    if (same) its(&l);
    else not_its(&l);
}

static void values(void) {
    layout l = laid(2, 1, 0, 1, 64, 48, 64), marked = l, filters = laid(2, 0, 2, 1, 64, 48, 64);
    marked.record[SILL_AT_RC] = 1, marked.record[SILL_AT_DOWN] = -7;
    of_another(&l, &marked, 1), of_another(&marked, &l, 1), of_another(&filters, &l, 1), of_another(&l, &filters, 1);
    /* One level: its planes come after its offset. Two: before the second's. */
    layout pel_1 = laid(1, 1, 0, 1, 7, 7, 7), pel_2 = laid(2, 1, 0, 1, 7, 7, 7), two_1 = laid(1, 1, 0, 1, 8, 8, 8), two_2 = laid(2, 1, 0, 1, 8, 8, 8), two_0 = laid(1, 1, 0, 0, 8, 8, 8);
    of_another(&pel_1, &pel_2, 1), of_another(&pel_2, &pel_1, 1), of_another(&two_1, &two_2, 0), of_another(&two_2, &two_1, 0), of_another(&two_0, &two_1, 0), of_another(&two_1, &two_0, 0);
    layout wider = laid(2, 1, 0, 1, 65, 48, 65), higher = laid(2, 1, 0, 1, 64, 49, 64), odd = shifted(laid(1, 1, 0, 1, 9, 9, 9), 1, 1, 9), even = shifted(laid(1, 1, 0, 1, 8, 8, 9), 1, 1, 9);
    of_another(&l, &wider, 0), of_another(&wider, &l, 0), of_another(&l, &higher, 0), of_another(&higher, &l, 0);
    /* A shift drops the last bit of a side, and so does reducing. */
    of_another(&odd, &even, 1), of_another(&even, &odd, 1);
}

/* In place, to every shifts and some pitches, from every shifts and each good pitch: what is made afresh, to the byte; or the number of
   making it, with every number as it was. */
static void changes(const layout *of) {
    size_t least = (size_t)of->record[SILL_AT_WIDTH];
    const size_t pitches[] = {least, least + 1, least + 17, 32768, of->pitch, least / 2, least / 4, 1, 0, 32769, SIZE_MAX, ((size_t)1 << 32) + least};
    enum { PITCHES = sizeof pitches / sizeof *pitches };
    static const uint32_t shifts[] = {0, 1, 2, 33, UINT32_MAX};
    for (uint32_t from = 0; from < 4; from++) for (int first = 0; first < 5; first++) {
        layout l = shifted(*of, from & 1, from >> 1, pitches[first]);
        if (rule_layout(&l)) continue;
        for (int k = 0; k < 25 * PITCHES; k++) {
            uint32_t x = shifts[k % 5], y = shifts[k / 5 % 5];
            size_t pitch = pitches[k / 25], afresh[LAYOUT] = {0}, in_place[LAYOUT];
            memcpy(in_place, l.handed, sizeof in_place);
            uint32_t no = try_change(&l, x, y, pitch);
            if (x > 1 || y > 1) is(no, 7);
            else if (pitch < 1 || pitch > 32768) is(no, 8);
            else if (pitch >= least) is(no, 0);
            is(sill_layout(l.record, 10, x, y, pitch, afresh, LAYOUT), no), is(sill_layout_change(l.record, 10, in_place, LAYOUT, x, y, pitch), no);
            if (memcmp(in_place, no ? l.handed : afresh, sizeof in_place)) failed("fixed case: another layout after a change");
        }
    }
}

/* One layout through all shifts and several pitches and back: no step leaves a trace. */
static void changed_in_turn(const layout *of) {
    size_t kept[LAYOUT], afresh[LAYOUT], least = (size_t)of->record[SILL_AT_WIDTH];
    memcpy(kept, of->handed, sizeof kept);
    tell("sill_layout_change, in turn");
    for (uint32_t k = 0; k < 64; k++) {
        uint32_t x = k & 1, y = k >> 1 & 1;
        size_t pitch = least + (k * 37) % 101;
        if (pitch > 32768) pitch = 32768;
        is(sill_layout_change(of->record, 10, kept, LAYOUT, x, y, pitch), 0), is(sill_layout(of->record, 10, x, y, pitch, afresh, LAYOUT), 0);
        if (memcmp(kept, afresh, sizeof kept)) failed("fixed case: another layout after change %u", k);
    }
    is(sill_layout_change(of->record, 10, kept, LAYOUT, of->x, of->y, of->pitch), 0);
    if (memcmp(kept, of->handed, sizeof kept)) failed("fixed case: another layout after all changes");
}

/* Every level and plane, and one past each: where it is stored, every row of it is the one that sill_row tells, and there is none after. */
static void planes_and_rows(const layout *l) {
    size_t end = rule_end(l), levels = l->handed[SILL_LAYOUT_LEVELS];
    int32_t pel = l->record[SILL_AT_PEL];
    for (uint32_t level = 0; level <= levels; level++) {
        size_t planes = level == levels ? 0 : level ? 1 : l->record[SILL_AT_FULL] ? (size_t)(pel * pel) : 0;
        for (size_t plane = 0; plane <= planes; plane++) {
            size_t of[4], place[2];
            int stored = plane < planes;
            is(try_level_plane(l, end, level, plane, 4), stored ? 0 : 19), is(try_level_plane(l, SIZE_MAX, level, plane, 7), stored ? 0 : 19), is(try_level_plane(l, end, level, plane, 3), 15);
            is(try_level_plane(l, end, level, plane, 0), 15), is(try_row(l, end, level, plane, 0, 2), stored ? 0 : 19);
            if (end) is(try_level_plane(l, end - 1, level, plane, 4), 11), is(try_level_plane(l, 0, level, plane, 3), 11);
            if (!stored) continue;
            is(sill_level_plane(end, l->record, 10, l->handed, LAYOUT, level, plane, of, 4), 0);
            for (size_t y = 0; y < of[SILL_PLANE_HEIGHT]; y++) {
                is(sill_row(end, l->record, 10, l->handed, LAYOUT, level, plane, y, place, 2), 0);
                if (place[0] != of[SILL_PLANE_START] + y * of[SILL_PLANE_PITCH] || place[1] != of[SILL_PLANE_WIDTH]) failed("fixed case: row %zu is another than its plane's", y);
            }
            is(sill_row(end, l->record, 10, l->handed, LAYOUT, level, plane, of[SILL_PLANE_HEIGHT], place, 2), 19);
            if (of[SILL_PLANE_START] + of[SILL_PLANE_HEIGHT] * of[SILL_PLANE_PITCH] > end) failed("fixed case: a plane ends past the written end");
        }
    }
    const size_t far = (size_t)1 << 63, over = (size_t)1 << 32;
    is(try_level_plane(l, far, UINT32_MAX, far, 4), 19), is(try_level_plane(l, far, 0, far, 4), 19), is(try_level_plane(l, far, 0, over, 4), 19), is(try_level_plane(l, far, 256, 0, 4), 19);
}

/* Document 01's 64x48: plane 3 after three of 48 rows of 64 bytes, level 1 after four. */
static void planes_by_hand(void) {
    static const struct { uint32_t level; size_t plane, place[4]; } cases[] = {{0, 0, {0, 64, 48, 64}}, {0, 3, {9216, 64, 48, 64}}, {1, 0, {12288, 32, 24, 64}}, {3, 0, {14592, 8, 6, 64}}};
    layout l = laid(2, 1, 0, 1, 64, 48, 64);
    for (size_t k = 0; k < sizeof cases / sizeof *cases; k++) {
        size_t place[4];
        tell("sill_level_plane, by hand");
        is(sill_level_plane(14976, l.record, 10, l.handed, LAYOUT, cases[k].level, cases[k].plane, place, 4), 0);
        if (memcmp(place, cases[k].place, sizeof place)) failed("fixed case: another plane of 64x48");
    }
}

/* With no level 9 and 10 of a build go by the record's sides and the layout's shifts. */
static void no_level(void) {
    layout l = laid(1, 1, 0, 1, 3, 7, 3), half = shifted(l, 1, 1, 3);
    lengths n = {0, 16, 16 * 19, 6 * 3 + 3, 3}, of_half = {0, 16, 16 * 19, 2 * 1 + 1, 1};
    is(try_build(&l, &n), 0), is(try_build(&half, &of_half), 0), is(try_build(&l, &of_half), 9), is(try_build(&half, &n), 0);
    n.src--, is(try_build(&l, &n), 10), n.src_pitch--, is(try_build(&l, &n), 9);
    of_half.src--, is(try_build(&half, &of_half), 10), of_half.src_pitch--, is(try_build(&half, &of_half), 9);
}

void layout_cases(void) {
    samples();
    for (int k = 0; k < SAMPLES; k++) its(&sample[k]), numbers_changed(&sample[k]), counts(&sample[k]), changes(&sample[k]), changed_in_turn(&sample[k]);
    /* Of the largest picture rows are asked for in fixed.c. */
    for (int k = 0; k < SAMPLES - 1; k++) planes_and_rows(&sample[k]);
    others(), values(), planes_by_hand(), no_level();
}
