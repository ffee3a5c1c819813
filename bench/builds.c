/* A plane of random bytes, built by the shipped library or by the Rust REPEATS times. Or, with `both`, once by each: they leave the same frame.
     builds SIDE PEL GPU DOWN UP FULL SHIFT WIDTH HEIGHT REPEATS      SIDE: ours, rust or both; SHIFT: of both sides; at most 1920x1080
   The rows of the source and of the frame stand without gaps, the frame ends where its last level does, and as much is lent as a build needs. */
#include "sillcandle.h"
#include <stdio.h>
#include <stdlib.h>
#include <string.h>

enum { SOURCE = 1920 * 1080, FRAME = 17 * SOURCE };
extern void rust_build(uint8_t *frame, size_t frame_count, const int32_t *record, uint32_t x_shift, uint32_t y_shift, size_t pitch, const uint8_t *src, size_t src_count, size_t src_pitch);

static uint8_t src[SOURCE], frame[FRAME], want[FRAME], spill[SOURCE], scratch[16 * (1920 + 16)];
static int32_t record[SILL_COUNT_RECORD], sizes[SILL_COUNT_SIZES];
static size_t layout[SILL_COUNT_LAYOUT], end, needs[SILL_COUNT_NEEDS], pitch, src_pitch;
static uint32_t shift;

static int laid_out(char **set) {
    int32_t n[8];
    for (int i = 0; i < 8; i++) n[i] = atoi(set[i]);
    uint32_t given = SILL_GIVEN_PEL | SILL_GIVEN_GPU | SILL_GIVEN_DOWN | SILL_GIVEN_UP | SILL_GIVEN_FULL;
    shift = (uint32_t)n[5];
    if (sill_check(given, n[0], n[1], n[2], n[3], n[4], 0, 0, n[6], n[7], record, SILL_COUNT_RECORD)) return 0;
    if (sill_super_sizes(record, SILL_COUNT_RECORD, sizes, SILL_COUNT_SIZES)) return 0;
    pitch = (size_t)sizes[SILL_SIZE_WIDTH] >> shift, src_pitch = (size_t)n[6] >> shift;
    if (sill_layout(record, SILL_COUNT_RECORD, shift, shift, pitch, layout, SILL_COUNT_LAYOUT)) return 0;
    if (sill_written_end(record, SILL_COUNT_RECORD, layout, SILL_COUNT_LAYOUT, &end, 1)) return 0;
    return !sill_needs(record, SILL_COUNT_RECORD, layout, SILL_COUNT_LAYOUT, needs, SILL_COUNT_NEEDS);
}

static uint32_t build_ours(void) {
    return sill_build_plane(frame, end, spill, needs[SILL_NEED_SPILL], scratch, needs[SILL_NEED_SCRATCH], record, SILL_COUNT_RECORD, layout, SILL_COUNT_LAYOUT, src, SOURCE, src_pitch);
}

static void build_rust(uint8_t *to) { rust_build(to, end, record, shift, shift, pitch, src, SOURCE, src_pitch); }

int main(int argc, char **argv) {
    if (argc != 11 || !laid_out(argv + 2)) return 2;
    uint32_t seed = 1;
    for (int i = 0; i < SOURCE; i++) { seed = seed * 1664525u + 1013904223u; src[i] = (uint8_t)(seed >> 24); }
    if (!strcmp(argv[1], "both")) {
        memset(frame, 1, FRAME), memset(want, 1, FRAME);
        build_rust(want);
        if (!build_ours() && !memcmp(frame, want, FRAME)) return 0;
        printf("another frame:");
        for (int i = 2; i < 10; i++) printf(" %s", argv[i]);
        puts("");
        return 1;
    }
    int ours = !strcmp(argv[1], "ours");
    for (long repeats = atol(argv[10]); repeats > 0; repeats--) {
        if (!ours) build_rust(frame);
        else if (build_ours()) return 1;
    }
    return 0;
}
