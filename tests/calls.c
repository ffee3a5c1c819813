/* One function for each exported call: it lends the slices, calls, and holds the number, the answer and every lent byte to the rules,
   and with -DRUST to the Rust too, whose doors are in rust.rs. */
#include <inttypes.h>
#include <stdlib.h>
#include <string.h>

#include "door.h"
#include "sillcandle.h"

#ifdef RUST
#define BESIDE(...) __VA_ARGS__
extern uint32_t rust_check(uint32_t given, const int32_t set[7], int32_t width, int32_t height, int32_t record[10]);
extern uint64_t rust_word(const int32_t record[10]);
extern void rust_sizes(const int32_t record[10], int32_t sizes[2]);
extern void rust_regions(const int32_t record[10], uint32_t x, uint32_t y, size_t pitch, size_t regions[40]);
extern size_t rust_end(const int32_t record[10], uint32_t x, uint32_t y, size_t pitch);
extern void rust_clear(uint8_t *frame, size_t length, const int32_t record[10], uint32_t x, uint32_t y, size_t pitch);
extern void rust_build(uint8_t *frame, size_t length, const int32_t record[10], uint32_t x, uint32_t y, size_t pitch, const uint8_t *src, size_t src_length, size_t src_pitch);

static void differs(const void *ours, const void *rusts, size_t bytes, const char *what) {
    if (memcmp(ours, rusts, bytes)) failed("the rules' %s isn't the Rust's", what);
}

/* A plane whose frame is these bytes and no others. */
static void build_alone(uint8_t *to, size_t length, const layout *l, const uint8_t *from, size_t count, size_t src_pitch) {
    rust_build(to, length, l->record, l->x, l->y, l->pitch, from, count, src_pitch);
}
#else
#define BESIDE(...)

/* Without the Rust a frame of three planes is held to the library's builds of one. */
static void build_alone(uint8_t *to, size_t length, const layout *l, const uint8_t *from, size_t count, size_t src_pitch) {
    static uint8_t own_spill[16], own_scratch[16 * (32768 + 16)];
    size_t numbers[LAYOUT];
    rule_numbers(l, numbers);
    uint32_t no = sill_build_plane(to, length, own_spill, sizeof own_spill, own_scratch, sizeof own_scratch, l->record, l->count, numbers, LAYOUT, from, count, src_pitch);
    if (no) failed("a plane alone: %" PRIu32, no);
}
#endif

const char *const names[CALLS] = {"sill_check", "sill_accepted", "sill_pack_data", "sill_read_word", "sill_prepare_alike", "sill_longhand_write", "sill_longhand_read", "sill_super_sizes", "sill_layout", "sill_layout_change", "sill_written_end", "sill_needs", "sill_clear_margins", "sill_row", "sill_level_plane", "sill_build_plane", "sill_frame_parts", "sill_frame_row", "sill_build_frame"};
uint64_t met[CALLS][NUMBERS];

static lent record, handed, answer, after, bytes, frame, spill, scratch, src[3];
static uint8_t *want;
const uint8_t *source_given[3];

void calls_open(void) {
    lent *all[] = {&record, &handed, &answer, &after, &bytes, &frame, &spill, &scratch, &src[0], &src[1], &src[2]};
    static const char *const called[] = {"record", "layout", "answer", "place after", "bytes", "frame", "spill", "scratch", "source", "source of U", "source of V"};
    for (int k = 0; k < 11; k++) lent_open(all[k], called[k]);
    if (!(want = malloc(MOST))) failed("no memory");
}

const uint8_t *built(void) { return frame.at; }

static uint32_t numbered(int call, uint32_t got, uint32_t no) {
    if (got != no) failed("gave %" PRIu32 ", not %" PRIu32, got, no);
    met[call][got]++;
    return got;
}

/* A call whose one lent slice is the answer's. */
static uint32_t answered(int call, uint32_t got, uint32_t no, const void *value, size_t bytes) {
    numbered(call, got, no);
    if (no) lent_kept(&answer);
    else lent_front(&answer, value, bytes);
    return got;
}

/* After 1 to 14, before 16 to 32. */
static uint32_t lowest(uint32_t no, size_t room, size_t need) { return room < need && (!no || no > 15) ? 15 : no; }

static void tell_layout(int call, const layout *l) {
    const int32_t *r = l->record;
    tell("%s: record %d %d %d %d %d %d %d %d %d %d count %zu, shifts %u %u, pitch %zu", names[call], r[0], r[1], r[2], r[3], r[4], r[5], r[6], r[7], r[8], r[9], l->count, l->x, l->y, l->pitch);
}

/* The layout handed in, as far as a message has room for it: the whole of what comes first, then what isn't as the rules have it. */
static void tell_handed(int call, const layout *l) {
    layout own;
    size_t again[LAYOUT], told = 0;
    tell_layout(call, l);
    tell_more(", layout of %zu: %zu %zu %zu %zu", l->handed_count, l->handed[0], l->handed[1], l->handed[2], l->handed[3]);
    if (rule_handed(l, &own) != 32) return;
    if (l->handed_count == LAYOUT && l->handed[1] < 2 && l->handed[2] < 2) rule_numbers(&own, again);
    else memset(again, 0, sizeof again);
    for (int k = 4; k < LAYOUT && told < 6; k++) if (l->handed[k] != again[k]) told++, tell_more(", at %d %zu", k, l->handed[k]);
}

/* A call on a record with an answer, which is lent so many elements; and one on a layout. */
static void tell_room(int call, const layout *l, size_t room) {
    tell_layout(call, l);
    tell_more(", room %zu", room);
}

static void tell_handed_room(int call, const layout *l, size_t room) {
    tell_handed(call, l);
    tell_more(", room %zu", room);
}

static const int32_t *lend_record(const layout *l) { return lend_copy(&record, l->record, l->count * sizeof *l->record); }
static size_t *lend_layout(const layout *l) { return lend_copy(&handed, l->handed, l->handed_count * sizeof *l->handed); }

uint32_t try_check(uint32_t given, const int32_t set[7], int32_t width, int32_t height, size_t room) {
    int32_t r[10];
    tell("sill_check(given %u, %d %d %d %d %d %d %d, %dx%d, room %zu)", given, set[0], set[1], set[2], set[3], set[4], set[5], set[6], width, height, room);
    uint32_t no = rule_check(given, set, width, height, r);
    BESIDE({
        int32_t theirs[10];
        uint32_t said = rust_check(given, set, width, height, theirs);
        if (said != (no < 5 ? no : 0)) failed("the rules say %" PRIu32 ", the Rust says %" PRIu32, no, said);
        if (!no) differs(r, theirs, sizeof r, "record");
    })
    no = lowest(no, room, 10);
    int32_t *to = lend(&answer, room * sizeof *to);
    return answered(CHECK, sill_check(given, set[0], set[1], set[2], set[3], set[4], set[5], set[6], width, height, to, room), no, r, sizeof r);
}

uint32_t try_accepted(const layout *l) {
    tell_layout(ACCEPTED, l);
    const int32_t *r = lend_record(l);
    uint32_t got = numbered(ACCEPTED, sill_accepted(r, l->count), rule_record(l->record, l->count));
    lent_kept(&record);
    return got;
}

uint32_t try_pack(const layout *l, size_t room) {
    tell_room(PACK, l, room);
    uint32_t no = rule_record(l->record, l->count);
    uint64_t word = no ? 0 : rule_word(l->record);
    BESIDE(if (!no && rust_word(l->record) != word) failed("the rules' word isn't the Rust's");)
    const int32_t *r = lend_record(l);
    uint64_t *to = lend(&answer, room * sizeof *to);
    uint32_t got = answered(PACK, sill_pack_data(r, l->count, to, room), lowest(no, room, 1), &word, sizeof word);
    lent_kept(&record);
    return got;
}

uint32_t try_read(uint64_t word, size_t room) {
    int32_t told[12];
    tell("sill_read_word(%016" PRIx64 ", room %zu)", word, room);
    uint32_t no = lowest(rule_read(word, told), room, 12);
    int32_t *to = lend(&answer, room * sizeof *to);
    return answered(READ, sill_read_word(word, to, room), no, told, sizeof told);
}

uint32_t try_alike(uint64_t a, uint64_t b) {
    tell("sill_prepare_alike(%016" PRIx64 ", %016" PRIx64 ")", a, b);
    return numbered(ALIKE, sill_prepare_alike(a, b), rule_alike(a, b));
}

uint32_t try_longhand_write(const layout *l, size_t room) {
    uint8_t longhand[21];
    tell_room(LONGHAND_WRITE, l, room);
    uint32_t no = rule_longhand_write(l->record, l->count, longhand);
    const int32_t *r = lend_record(l);
    uint8_t *to = lend(&answer, room);
    uint32_t got = answered(LONGHAND_WRITE, sill_longhand_write(r, l->count, to, room), lowest(no, room, 21), longhand, sizeof longhand);
    lent_kept(&record);
    return got;
}

/* What is read, as far as a message has room for it. */
static void tell_longhand(const uint8_t *of, size_t count, size_t record_room, size_t after_room) {
    char digits[2 * 48 + 1];
    size_t most = count < 48 ? count : 48;
    for (size_t k = 0; k < most; k++) digits[2 * k] = "0123456789abcdef"[of[k] >> 4], digits[2 * k + 1] = "0123456789abcdef"[of[k] & 15];
    digits[2 * most] = 0;
    tell("sill_longhand_read(%zu bytes %s, room %zu and %zu)", count, digits, record_room, after_room);
}

/* Both answers with 0; with 16 the place alone, by the length. */
uint32_t try_longhand_read(const uint8_t *of, size_t count, size_t record_room, size_t after_room) {
    int32_t r[10];
    size_t place;
    tell_longhand(of, count, record_room, after_room);
    uint32_t no = lowest(lowest(rule_longhand_read(of, count, r, &place), record_room, 10), after_room, 1);
    const uint8_t *from = lend_copy(&bytes, of, count);
    int32_t *to = lend(&answer, record_room * sizeof *to);
    size_t *behind = lend(&after, after_room * sizeof *behind);
    uint32_t got = answered(LONGHAND_READ, sill_longhand_read(from, count, to, record_room, behind, after_room), no, r, sizeof r);
    if (no == 0 || no == 16) lent_front(&after, &place, sizeof place);
    else lent_kept(&after);
    lent_kept(&bytes);
    return got;
}

uint32_t try_sizes(const layout *l, size_t room) {
    int32_t sizes[2];
    tell_room(SIZES, l, room);
    uint32_t no = rule_record(l->record, l->count);
    if (!no) rule_sizes(l->record, sizes);
    BESIDE(if (!no) { int32_t theirs[2]; rust_sizes(l->record, theirs); differs(sizes, theirs, sizeof sizes, "sizes"); })
    const int32_t *r = lend_record(l);
    int32_t *to = lend(&answer, room * sizeof *to);
    uint32_t got = answered(SIZES, sill_super_sizes(r, l->count, to, room), lowest(no, room, 2), sizes, sizeof sizes);
    lent_kept(&record);
    return got;
}

/* The Rust's columns, as rust.rs has them, are the rules' numbers level by level. */
BESIDE(static void laid_alike(const layout *l, const size_t numbers[LAYOUT]) {
    size_t theirs[40];
    rust_regions(l->record, l->x, l->y, l->pitch, theirs);
    int alike = numbers[0] == theirs[0];
    for (int k = 0; k < 13; k++) for (int n = 0; n < 3; n++) alike &= numbers[4 + 3 * k + n] == theirs[1 + 13 * n + k];
    if (!alike) failed("the rules' layout isn't the Rust's");
})

uint32_t try_make(const layout *l, size_t room) {
    size_t numbers[LAYOUT];
    tell_room(MAKE, l, room);
    uint32_t no = rule_layout(l);
    if (!no) rule_numbers(l, numbers);
    BESIDE(if (!no) laid_alike(l, numbers);)
    const int32_t *r = lend_record(l);
    size_t *to = lend(&answer, room * sizeof *to);
    uint32_t got = answered(MAKE, sill_layout(r, l->count, l->x, l->y, l->pitch, to, room), lowest(no, room, LAYOUT), numbers, sizeof numbers);
    lent_kept(&record);
    return got;
}

uint32_t try_change(const layout *l, uint32_t x, uint32_t y, size_t pitch) {
    size_t numbers[LAYOUT];
    tell_handed(CHANGE, l);
    tell_more(", to shifts %u %u, pitch %zu", x, y, pitch);
    uint32_t no = rule_change(l, x, y, pitch, numbers);
    const int32_t *r = lend_record(l);
    size_t *in_place = lend_layout(l);
    uint32_t got = numbered(CHANGE, sill_layout_change(r, l->count, in_place, l->handed_count, x, y, pitch), no);
    lent_kept(&record);
    if (no) lent_kept(&handed);
    else lent_is(&handed, numbers);
    return got;
}

uint32_t try_end(const layout *l, size_t room) {
    layout own;
    tell_handed_room(END, l, room);
    uint32_t no = rule_handed(l, &own);
    size_t end = no ? 0 : rule_end(&own);
    BESIDE(if (!no && rust_end(own.record, own.x, own.y, own.pitch) != end) failed("the rules' end isn't the Rust's");)
    const int32_t *r = lend_record(l);
    const size_t *by = lend_layout(l);
    size_t *to = lend(&answer, room * sizeof *to);
    uint32_t got = answered(END, sill_written_end(r, l->count, by, l->handed_count, to, room), lowest(no, room, 1), &end, sizeof end);
    lent_kept(&record), lent_kept(&handed);
    return got;
}

uint32_t try_needs(const layout *l, size_t room) {
    layout own;
    size_t needs[2];
    tell_handed_room(NEEDS, l, room);
    uint32_t no = rule_handed(l, &own);
    if (!no) rule_needs(&own, needs);
    const int32_t *r = lend_record(l);
    const size_t *by = lend_layout(l);
    size_t *to = lend(&answer, room * sizeof *to);
    uint32_t got = answered(NEEDS, sill_needs(r, l->count, by, l->handed_count, to, room), lowest(no, room, 2), needs, sizeof needs);
    lent_kept(&record), lent_kept(&handed);
    return got;
}

/* Only bytes from a width to the pitch of levels after 0 may have changed, and only to 0. */
static void only_margins(const layout *l) {
    size_t kept = 0;
    for (size_t level = 1; level < l->handed[SILL_LAYOUT_LEVELS]; level++) {
        const size_t *of = l->handed + SILL_LAYOUT_STEP * level, pitch = l->handed[SILL_LAYOUT_PITCH];
        for (size_t y = 0; y < of[SILL_LAYOUT_HEIGHT]; y++) {
            size_t row = of[SILL_LAYOUT_OFFSET] + y * pitch, margin = row + of[SILL_LAYOUT_WIDTH];
            lent_same(&frame, kept, margin), lent_cleared(&frame, margin, row + pitch);
            kept = row + pitch;
        }
    }
    lent_same(&frame, kept, frame.bytes), lent_guarded(&frame);
}

uint32_t try_clear(const layout *l, size_t length) {
    tell_handed(CLEAR, l);
    tell_more(", frame %zu", length);
    uint32_t no = rule_clear(l, length);
    const int32_t *r = lend_record(l);
    const size_t *by = lend_layout(l);
    uint8_t *to = lend(&frame, length);
    uint32_t got = numbered(CLEAR, sill_clear_margins(to, length, r, l->count, by, l->handed_count), no);
    lent_kept(&record), lent_kept(&handed);
    if (no) {
        lent_kept(&frame);
        return got;
    }
    only_margins(l);
    BESIDE(
        layout own;
        rule_handed(l, &own);
        memcpy(want, frame.before, length);
        rust_clear(want, length, own.record, own.x, own.y, own.pitch);
        lent_is(&frame, want);
    )
    return got;
}

uint32_t try_row(const layout *l, size_t length, uint32_t level, size_t plane, size_t y, size_t room) {
    size_t place[2];
    tell_handed_room(ROW, l, room);
    tell_more(", frame %zu, level %u, plane %zu, y %zu", length, level, plane, y);
    uint32_t no = rule_row(l, length, level, plane, y, place);
    const int32_t *r = lend_record(l);
    const size_t *by = lend_layout(l);
    size_t *to = lend(&answer, room * sizeof *to);
    uint32_t got = answered(ROW, sill_row(length, r, l->count, by, l->handed_count, level, plane, y, to, room), lowest(no, room, 2), place, sizeof place);
    lent_kept(&record), lent_kept(&handed);
    return got;
}

uint32_t try_level_plane(const layout *l, size_t length, uint32_t level, size_t plane, size_t room) {
    size_t place[4];
    tell_handed_room(LEVEL_PLANE, l, room);
    tell_more(", frame %zu, level %u, plane %zu", length, level, plane);
    uint32_t no = rule_level_plane(l, length, level, plane, place);
    const int32_t *r = lend_record(l);
    const size_t *by = lend_layout(l);
    size_t *to = lend(&answer, room * sizeof *to);
    uint32_t got = answered(LEVEL_PLANE, sill_level_plane(length, r, l->count, by, l->handed_count, level, plane, to, room), lowest(no, room, 4), place, sizeof place);
    lent_kept(&record), lent_kept(&handed);
    return got;
}

static const uint8_t *lend_source(int k, size_t count) { return source_given[k] ? lend_copy(&src[k], source_given[k], count) : lend(&src[k], count); }

/* What a build from so many sources leaves, but for the frame's own bytes where it was finished. */
static void left(uint32_t no, int sources) {
    lent_kept(&record);
    for (int k = 0; k < sources; k++) lent_kept(&src[k]);
    if (no) lent_kept(&frame), lent_kept(&spill), lent_kept(&scratch);
    else lent_zero(&spill), lent_zero(&scratch), lent_guarded(&frame);
}

uint32_t try_build(const layout *l, const lengths *n) {
    tell_handed(BUILD, l);
    tell_more(", frame %zu, spill %zu, scratch %zu, source %zu of pitch %zu", n->frame, n->spill, n->scratch, n->src, n->src_pitch);
    uint32_t no = rule_build(l, n);
    const int32_t *r = lend_record(l);
    const size_t *by = lend_layout(l);
    uint8_t *f = lend(&frame, n->frame), *sp = lend(&spill, n->spill), *sc = lend(&scratch, n->scratch);
    const uint8_t *from = lend_source(0, n->src);
    uint32_t got = numbered(BUILD, sill_build_plane(f, n->frame, sp, n->spill, sc, n->scratch, r, l->count, by, l->handed_count, from, n->src, n->src_pitch), no);
    left(no, 1), lent_kept(&handed);
    BESIDE(if (!no) {
        layout own;
        rule_handed(l, &own);
        memcpy(want, frame.before, n->frame);
        build_alone(want, n->frame, &own, src[0].before, n->src, n->src_pitch);
        lent_is(&frame, want);
    })
    return got;
}

uint32_t try_parts(const layout *l, size_t room) {
    size_t parts[12];
    tell_room(PARTS, l, room);
    uint32_t no = rule_three(l);
    if (!no) rule_parts(l, parts);
    BESIDE(for (int k = 0; !no && k < 3; k++) {
        layout part = rule_part(l, k);
        if (rust_end(part.record, part.x, part.y, part.pitch) != parts[3 * k + 2]) failed("the rules' length of part %d isn't the Rust's", k);
    })
    const int32_t *r = lend_record(l);
    size_t *to = lend(&answer, room * sizeof *to);
    uint32_t got = answered(PARTS, sill_frame_parts(r, l->count, to, room), lowest(no, room, 12), parts, sizeof parts);
    lent_kept(&record);
    return got;
}

uint32_t try_frame_row(const layout *l, size_t length, uint32_t of, uint32_t level, size_t plane, size_t y, size_t room) {
    size_t place[2];
    tell_room(FRAME_ROW, l, room);
    tell_more(", frame %zu, part %u, level %u, plane %zu, y %zu", length, of, level, plane, y);
    uint32_t no = rule_frame_row(l, length, of, level, plane, y, place);
    const int32_t *r = lend_record(l);
    size_t *to = lend(&answer, room * sizeof *to);
    uint32_t got = answered(FRAME_ROW, sill_frame_row(length, r, l->count, of, level, plane, y, to, room), lowest(no, room, 2), place, sizeof place);
    lent_kept(&record);
    return got;
}

/* Three builds, each of which has its part of the frame and no more; bytes past the third stay. */
static void three_built(const layout *l, const frame_lengths *n) {
    size_t parts[12];
    rule_parts(l, parts);
    memcpy(want, frame.before, n->frame);
    for (int k = 0; k < 3; k++) {
        layout part = rule_part(l, k);
        build_alone(want + parts[3 * k], parts[3 * k + 2], &part, src[k].before, n->src[k], n->src_pitch[k]);
    }
    lent_is(&frame, want);
}

uint32_t try_build_frame(const layout *l, const frame_lengths *n) {
    tell_layout(BUILD_FRAME, l);
    tell_more(", frame %zu, spill %zu, scratch %zu", n->frame, n->spill, n->scratch);
    for (int k = 0; k < 3; k++) tell_more(", %c %zu of pitch %zu", "YUV"[k], n->src[k], n->src_pitch[k]);
    uint32_t no = rule_build_frame(l, n);
    const int32_t *r = lend_record(l);
    uint8_t *f = lend(&frame, n->frame), *sp = lend(&spill, n->spill), *sc = lend(&scratch, n->scratch);
    const uint8_t *y = lend_source(0, n->src[0]), *u = lend_source(1, n->src[1]), *v = lend_source(2, n->src[2]);
    uint32_t got = numbered(BUILD_FRAME, sill_build_frame(f, n->frame, sp, n->spill, sc, n->scratch, r, l->count, y, n->src[0], n->src_pitch[0], u, n->src[1], n->src_pitch[1], v, n->src[2], n->src_pitch[2]), no);
    left(no, 3);
    if (!no) three_built(l, n);
    return got;
}
