/* One call about a record, a word or a layout, of the shipped library or of the Rust, once and REPEATS times more. Or, with `both`, every call that both have, whatever CALL is: they tell the same.
     layouts SIDE CALL LEVEL WIDTH HEIGHT REPEATS      SIDE: ours, rust or both; CALL: a name of `calls`; LEVEL: whose row or plane is asked for
   Of a picture by the default settings, pel 2, in rows without gaps. Status 3: the side has no such call, or the picture no such level. */
#include "sillcandle.h"
#include <stdio.h>
#include <stdlib.h>
#include <string.h>

extern int32_t rust_levels(int32_t width, int32_t height);
extern uint64_t rust_word(const int32_t *record);
extern void rust_sizes(const int32_t *record, int32_t *sizes);
extern void rust_regions(const int32_t *record, uint32_t x, uint32_t y, size_t pitch, size_t *regions);
extern size_t rust_end(const int32_t *record, uint32_t x, uint32_t y, size_t pitch);

/* What a side's calls tell. */
struct answers {
    int32_t record[SILL_COUNT_RECORD], told[SILL_COUNT_TOLD], sizes[SILL_COUNT_SIZES];
    uint64_t word;
    size_t layout[SILL_COUNT_LAYOUT], end, needs[SILL_COUNT_NEEDS], place[SILL_COUNT_PLACE], plane[SILL_COUNT_PLANE], parts[SILL_COUNT_PARTS];
    /* The Rust's layout, as tests/rust.rs has it: the count of levels, then a column of each, of SILL_MOST_LEVELS numbers. */
    size_t columns[1 + 3 * SILL_MOST_LEVELS];
};
static struct answers ours, rust;
static int32_t width, height, record[SILL_COUNT_RECORD];
static uint32_t level;
static uint64_t word;
static size_t pitch, whole, layout[SILL_COUNT_LAYOUT];

static uint32_t from_opt(void) { return sill_check(0, 0, 0, 0, 0, 0, 0, 0, width, height, ours.record, SILL_COUNT_RECORD); }
static uint32_t accepted(void) { return sill_accepted(record, SILL_COUNT_RECORD); }
static uint32_t pack_data(void) { return sill_pack_data(record, SILL_COUNT_RECORD, &ours.word, 1); }
static uint32_t read_word(void) { return sill_read_word(word, ours.told, SILL_COUNT_TOLD); }
static uint32_t super_sizes(void) { return sill_super_sizes(record, SILL_COUNT_RECORD, ours.sizes, SILL_COUNT_SIZES); }
static uint32_t make_layout(void) { return sill_layout(record, SILL_COUNT_RECORD, 0, 0, pitch, ours.layout, SILL_COUNT_LAYOUT); }
/* To the same pitch: what is changed to is made whole, whatever it was. */
static uint32_t layout_change(void) { return sill_layout_change(record, SILL_COUNT_RECORD, layout, SILL_COUNT_LAYOUT, 0, 0, pitch); }
static uint32_t written_end(void) { return sill_written_end(record, SILL_COUNT_RECORD, layout, SILL_COUNT_LAYOUT, &ours.end, 1); }
static uint32_t needs(void) { return sill_needs(record, SILL_COUNT_RECORD, layout, SILL_COUNT_LAYOUT, ours.needs, SILL_COUNT_NEEDS); }
static uint32_t row(void) { return sill_row(whole, record, SILL_COUNT_RECORD, layout, SILL_COUNT_LAYOUT, level, 0, 1, ours.place, SILL_COUNT_PLACE); }
static uint32_t level_plane(void) { return sill_level_plane(whole, record, SILL_COUNT_RECORD, layout, SILL_COUNT_LAYOUT, level, 0, ours.plane, SILL_COUNT_PLANE); }
static uint32_t frame_parts(void) { return sill_frame_parts(record, SILL_COUNT_RECORD, ours.parts, SILL_COUNT_PARTS); }
static uint32_t frame_row(void) { return sill_frame_row(2 * whole, record, SILL_COUNT_RECORD, SILL_V, level, 0, 1, ours.place, SILL_COUNT_PLACE); }

static uint32_t rust_auto_levels(void) { return rust.record[SILL_AT_LEVELS] = rust_levels(width, height), 0; }
static uint32_t rust_pack_data(void) { return rust.word = rust_word(record), 0; }
static uint32_t rust_super_sizes(void) { return rust_sizes(record, rust.sizes), 0; }
static uint32_t rust_level_regions(void) { return rust_regions(record, 0, 0, pitch, rust.columns), 0; }
static uint32_t rust_written_end(void) { return rust.end = rust_end(record, 0, 0, pitch), 0; }

/* The Rust's own check takes options as text: beside ours stands the part of it that counts levels. */
static const struct { const char *name; uint32_t (*ours)(void), (*rust)(void); } calls[] = {
    {"from_opt", from_opt, rust_auto_levels}, {"accepted", accepted, NULL}, {"pack_data", pack_data, rust_pack_data}, {"read_word", read_word, NULL},
    {"super_sizes", super_sizes, rust_super_sizes}, {"layout", make_layout, rust_level_regions}, {"layout_change", layout_change, NULL},
    {"written_end", written_end, rust_written_end}, {"needs", needs, NULL}, {"row", row, NULL}, {"level_plane", level_plane, NULL},
    {"frame_parts", frame_parts, NULL}, {"frame_row", frame_row, NULL},
};

static int laid_alike(void) {
    if (ours.layout[SILL_LAYOUT_LEVELS] != rust.columns[0]) return 0;
    for (size_t k = 0; k < SILL_MOST_LEVELS; k++) for (size_t n = 0; n < SILL_LAYOUT_STEP; n++) {
        if (ours.layout[SILL_LAYOUT_OFFSET + k * SILL_LAYOUT_STEP + n] != rust.columns[1 + n * SILL_MOST_LEVELS + k]) return 0;
    }
    return 1;
}

static int told_alike(void) {
    from_opt(), pack_data(), super_sizes(), make_layout(), written_end();
    rust_auto_levels(), rust_pack_data(), rust_super_sizes(), rust_level_regions(), rust_written_end();
    return ours.record[SILL_AT_LEVELS] == rust.record[SILL_AT_LEVELS] && ours.word == rust.word && !memcmp(ours.sizes, rust.sizes, sizeof ours.sizes)
        && laid_alike() && ours.end == rust.end;
}

int main(int argc, char **argv) {
    if (argc != 7) return 2;
    level = (uint32_t)atoi(argv[3]), width = atoi(argv[4]), height = atoi(argv[5]), pitch = (size_t)width;
    if (from_opt()) return 2;
    memcpy(record, ours.record, sizeof record);
    if (pack_data() || make_layout()) return 2;
    memcpy(layout, ours.layout, sizeof layout);
    if (written_end()) return 2;
    word = ours.word, whole = ours.end;
    if (!strcmp(argv[1], "both")) {
        if (told_alike()) return 0;
        printf("another answer: %s %s\n", argv[4], argv[5]);
        return 1;
    }
    size_t k = 0, count = sizeof calls / sizeof *calls;
    while (k < count && strcmp(argv[2], calls[k].name)) k++;
    if (k == count) return 2;
    uint32_t (*call)(void) = strcmp(argv[1], "ours") ? calls[k].rust : calls[k].ours;
    uint32_t no = call ? call() : SILL_NO_ROW;
    if (no) return no == SILL_NO_ROW ? 3 : 2;
    for (long repeats = atol(argv[6]); repeats > 0; repeats--) call();
    return 0;
}
