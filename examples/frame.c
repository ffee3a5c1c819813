/* A picture of three planes from C, as an importer has it: sources that a decoder left with pitches of their own, one frame, and a row of V.
   README has the ten lines from `record` to `row`. scripts/library compiles and runs it. */
#include <stdio.h>
#include <stdlib.h>

#include "sillcandle.h"

enum { WIDTH = 16, HEIGHT = 8, Y_PITCH = 20, U_PITCH = 12, V_PITCH = 9 };
static uint8_t y[HEIGHT * Y_PITCH], u[HEIGHT / 2 * U_PITCH], v[HEIGHT / 2 * V_PITCH];

/* The number is the program's status: the header says it in words. */
static void done(uint32_t number) {
    if (number != SILL_DONE) exit((int)number);
}

/* Some picture; the bytes between a row's end and the next row aren't looked at. */
static void fill(uint8_t *plane, size_t count, int first) {
    for (size_t i = 0; i < count; i++) plane[i] = (uint8_t)(first + 3 * i);
}

int main(void) {
    fill(y, sizeof y, 0), fill(u, sizeof u, 50), fill(v, sizeof v, 100);

    int32_t record[SILL_COUNT_RECORD];
    size_t at[SILL_COUNT_PARTS], place[SILL_COUNT_PLACE];
    done(sill_check(SILL_GIVEN_PEL, 1, 0, 0, 0, 0, 0, 0, WIDTH, HEIGHT, record, SILL_COUNT_RECORD));
    done(sill_frame_parts(record, SILL_COUNT_RECORD, at, SILL_COUNT_PARTS));
    uint8_t *frame = calloc(at[SILL_FRAME_LENGTH], 1), *spill = malloc(at[SILL_FRAME_SPILL]), *scratch = malloc(at[SILL_FRAME_SCRATCH]);
    if (!frame || !spill || !scratch) return 255;
    done(sill_build_frame(frame, at[SILL_FRAME_LENGTH], spill, at[SILL_FRAME_SPILL], scratch, at[SILL_FRAME_SCRATCH],
                          record, SILL_COUNT_RECORD, y, sizeof y, Y_PITCH, u, sizeof u, U_PITCH, v, sizeof v, V_PITCH));
    done(sill_frame_row(at[SILL_FRAME_LENGTH], record, SILL_COUNT_RECORD, SILL_V, 1, 0, 1, place, SILL_COUNT_PLACE));
    const uint8_t *row = frame + place[SILL_PLACE_OFFSET];

    for (int k = 0; k < 3; k++) {
        const size_t *part = at + 3 * k;
        printf("%c from %zu on, rows %zu apart, %zu bytes\n", "YUV"[k], part[SILL_Y_START], part[SILL_Y_PITCH], part[SILL_Y_LENGTH]);
    }
    printf("frame %zu, spill %zu, scratch %zu bytes\n", at[SILL_FRAME_LENGTH], at[SILL_FRAME_SPILL], at[SILL_FRAME_SCRATCH]);
    printf("V, level 1, row 1, at %zu:", place[SILL_PLACE_OFFSET]);
    for (size_t x = 0; x < place[SILL_PLACE_LENGTH]; x++) printf(" %d", row[x]);
    putchar('\n');
    free(frame), free(spill), free(scratch);
    return 0;
}
