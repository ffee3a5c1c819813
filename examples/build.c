/* The library from C: settings to a record, its word and longhand, a layout and what a build needs, and an 8x8 plane built. scripts/library compiles and runs it. */
#include <inttypes.h>
#include <stdio.h>
#include <stdlib.h>

#include "sillcandle.h"

enum { SIDE = 8, PITCH = 16 };

static void done(const char *call, uint32_t number) {
    if (number == SILL_DONE) return;
    fprintf(stderr, "%s: refused, %" PRIu32 "\n", call, number);
    exit(1);
}

/* Zeros, since what a frame held can reach the levels' bytes. */
static void *bytes(size_t n) {
    void *p = calloc(n, 1);
    if (!p) exit(2);
    return p;
}

int main(void) {
    /* Pel 1; every other setting has its default. */
    int32_t record[SILL_COUNT_RECORD];
    done("sill_check", sill_check(SILL_GIVEN_PEL, 1, 0, 0, 0, 0, 0, 0, SIDE, SIDE, record, SILL_COUNT_RECORD));

    uint64_t word;
    done("sill_pack_data", sill_pack_data(record, SILL_COUNT_RECORD, &word, SILL_COUNT_WORD));
    printf("word %016" PRIx64 "\n", word);

    /* Beside the word, the settings spelled out: they can always be read back; those of a word can't always. */
    uint8_t longhand[SILL_COUNT_LONGHAND];
    done("sill_longhand_write", sill_longhand_write(record, SILL_COUNT_RECORD, longhand, SILL_COUNT_LONGHAND));
    printf("longhand ");
    for (int i = 0; i < SILL_COUNT_LONGHAND; i++) printf("%02x", longhand[i]);
    int32_t again[SILL_COUNT_RECORD];
    size_t after;
    done("sill_longhand_read", sill_longhand_read(longhand, sizeof longhand, again, SILL_COUNT_RECORD, &after, SILL_COUNT_AFTER));
    printf(", read back: %" PRId32 "x%" PRId32 ", pel %" PRId32 ", after it %zu\n", again[SILL_AT_WIDTH], again[SILL_AT_HEIGHT], again[SILL_AT_PEL], after);

    /* The layout is made once: every later call about this plane takes it beside the record. */
    size_t layout[SILL_COUNT_LAYOUT], end, needs[SILL_COUNT_NEEDS];
    done("sill_layout", sill_layout(record, SILL_COUNT_RECORD, 0, 0, PITCH, layout, SILL_COUNT_LAYOUT));
    for (size_t k = 0; k < layout[SILL_LAYOUT_LEVELS]; k++) {
        const size_t *level = layout + k * SILL_LAYOUT_STEP;
        printf("level %zu from %zu on, %zux%zu\n", k, level[SILL_LAYOUT_OFFSET], level[SILL_LAYOUT_WIDTH], level[SILL_LAYOUT_HEIGHT]);
    }
    done("sill_written_end", sill_written_end(record, SILL_COUNT_RECORD, layout, SILL_COUNT_LAYOUT, &end, SILL_COUNT_END));
    done("sill_needs", sill_needs(record, SILL_COUNT_RECORD, layout, SILL_COUNT_LAYOUT, needs, SILL_COUNT_NEEDS));
    size_t of_spill = needs[SILL_NEED_SPILL], of_scratch = needs[SILL_NEED_SCRATCH];
    printf("frame %zu, spill %zu, scratch %zu bytes\n", end, of_spill, of_scratch);

    uint8_t source[SIDE * SIDE];
    for (int i = 0; i < SIDE * SIDE; i++) source[i] = (uint8_t)(3 * i);
    uint8_t *frame = bytes(end), *spill = bytes(of_spill), *scratch = bytes(of_scratch);
    done("sill_build_plane", sill_build_plane(frame, end, spill, of_spill, scratch, of_scratch, record, SILL_COUNT_RECORD, layout, SILL_COUNT_LAYOUT, source, sizeof source, SIDE));

    /* Level 1, a row a line: asked for as a whole, since every row is read. */
    size_t plane[SILL_COUNT_PLANE];
    done("sill_level_plane", sill_level_plane(end, record, SILL_COUNT_RECORD, layout, SILL_COUNT_LAYOUT, 1, 0, plane, SILL_COUNT_PLANE));
    for (size_t y = 0; y < plane[SILL_PLANE_HEIGHT]; y++) {
        printf("level 1, row %zu:", y);
        const uint8_t *row = frame + plane[SILL_PLANE_START] + y * plane[SILL_PLANE_PITCH];
        for (size_t x = 0; x < plane[SILL_PLANE_WIDTH]; x++) printf(" %d", row[x]);
        putchar('\n');
    }

    /* One row alone. */
    size_t place[SILL_COUNT_PLACE];
    done("sill_row", sill_row(end, record, SILL_COUNT_RECORD, layout, SILL_COUNT_LAYOUT, 0, 0, 7, place, SILL_COUNT_PLACE));
    printf("level 0, row 7, at %zu: %d to %d\n", place[SILL_PLACE_OFFSET], frame[place[SILL_PLACE_OFFSET]], frame[place[SILL_PLACE_OFFSET] + place[SILL_PLACE_LENGTH] - 1]);
    free(frame), free(spill), free(scratch);
    return 0;
}
