/* Sillcandle's library: settings, their word and their longhand record, and the super frame that they ask for. For C99, C++ and x86-64 Linux.
   Link with target/staticlib/libsillcandle.a, which scripts/library builds.

   In order: what holds for every call; numbers, counts and places; the bits of `given`; calls: settings and words, longhand records,
   sizes and layouts, one plane, three planes.

   Numbers. Each call but sill_prepare_alike returns 0 where it is done, else the number that says why not: those of document 01's
   table, and document 02's 15 to 18, 23, 24 and 32, which the table leaves free. Where more than one applies the lowest is given, and
   none other. These have an order of their own, told there: sill_longhand_read, sill_frame_row and sill_build_frame; and
   sill_layout_change, sill_clear_margins, sill_row, sill_level_plane and sill_build_plane, in which 32, the layout's, stands right after
   6, the record's, and before the rest; of 15 the calls that tell a place say where it stands. sill_written_end and sill_needs go by the
   lowest: 15 comes before 32.

   Slices. A slice is a pointer and then a count of elements, and the pointer is aligned for its type, as C's own arrays are.
   Where the count is 0 the pointer isn't looked at and may be NULL: a slice that is missing is a slice of length 0, and gets the
   number of one that is too short. A slice that isn't const must not overlap another of the call.

   Answers. They go to the front of a slice that is lent for them. If it has fewer elements than the answer the number is
   SILL_NO_ROOM; elements past the answer stay as they are. A call that doesn't return 0 changes nothing that it was lent, but for the
   place that sill_longhand_read tells with SILL_NO_KIND.

   Records. A record is SILL_COUNT_RECORD numbers: pel, gpu, down, up, full, rc, lean, levels, width, height. It comes from sill_check
   or sill_longhand_read, which gives none that sill_check can't give. Anything else, as another count, a flag neither 0 nor 1 or other
   numbers, is refused with SILL_NO_RECORD.

   Longhand. A longhand record is SILL_COUNT_LONGHAND bytes that spell a record out, all numbers with their lowest byte first:
       bytes  0 to  3   length, 17: how many bytes follow it
       bytes  4 and 5   kind, 1
       bytes  6 and 7   width
       bytes  8 and 9   height
       byte  10         pel
       byte  11         gpu
       byte  12         flags: 1 full, 2 rc, 4 lean; no other bit is set
       bytes 13 to 16   down, signed
       bytes 17 to 20   up, signed
   Levels aren't there: they follow from the size. One record has one longhand, and every record comes back from its own.

   Settings. down is how a level is halved: 0 or 1 average, 2 bilinear, 3 quadratic, 4 cubic; any other value leaves the levels after
   0 unwritten. up is how the planes between level 0's samples are made: 0 bilinear, 1 bicubic, any other value Wiener. Any int32_t
   is taken for both. With gpu 2 the planes between aren't made, and up counts only with gpu 0.

   Levels. Reducing once makes a side d into 2 * floor(d / 4). Level k has the picture's sides reduced k times; a record's levels
   are how many, from 0 on, have both sides at least 4. Level 0 is stored as pel * pel planes if full, else not at all; each later
   level is one plane. Plane y * pel + x of level 0 lies x/pel of a sample to the right and y/pel down; plane 0 is the picture. At
   their edges the planes between aren't held to the picture: a first or last row or a last column may be a copy, a mean with the next
   bytes in the frame, or left as it was, as in the Rust.

   Layouts. A plane of the picture is laid out by a record, two shifts and a pitch: its level k has (width >> x_shift) by
   (height >> y_shift) bytes, width and height being level k's. A shift is 0 for a plane of the picture's own size and 1 for one of
   half its width or height. Rows of a frame begin pitch bytes apart; the least pitch goes by the plane's own width, at level 1 also
   where there is no such level. Where the pitch is below level 0's width raised to a multiple of 16, the planes between may run over
   into the first bytes of what follows them, another plane or level 1, as in the Rust; so bytes of rows go by the pitch.
   A layout is SILL_COUNT_LAYOUT numbers: the count of levels, the two shifts, the pitch, then for each of SILL_MOST_LEVELS levels its
   offset, width and height, zeros past the last level. sill_layout makes it once; the calls about that plane take it, beside its
   record, in place of shifts and pitch. Each plane of a level takes height * pitch bytes, one after another from the level's offset; of
   a record that isn't full, level 0 is listed with its size and nothing of it is stored.
   Each call holds the layout to its record: a slice that isn't exactly what sill_layout gives for this record and the layout's own
   shifts and pitch is refused with SILL_BAD_LAYOUT, as another count of elements, a number past the last level that isn't 0, a shift
   above 1, or a pitch that sill_layout refuses. It goes by the numbers, not by where they came from: a copy does, and so does another
   record's where both give the same, as records that differ in down, rc or lean alone; and where no offset depends on the pitch, for
   want of stored levels, a layout with another pitch is the layout of that pitch.
   Keep it in memory. In a report store the longhand record, the shifts and the pitch, and make the layout again: a later, larger limit
   on the levels will add numbers at the end, move no place, and refuse the fewer.
   For a row now and then, ask sill_row: each time it tests the record and the layout, in one walk down the levels. For many rows, ask
   sill_level_plane once for each level's plane, and step from its start by the pitch.

   Three planes. A picture of Y, U and V has one frame of three parts, Y's, U's and V's, which follow each other from its first byte on.
   Y is laid out by shifts 0, 0 and the picture's width as pitch, U and V by shifts 1, 1 and floor(width / 2); a part is as long as its
   plane's written end. So no pitch of the frame is asked for: those that are handed in are the sources'. A record has such a frame if it
   is full and both sides are at least 2; with a side of 2 or 3 it has no level, and is 0 bytes long. These calls take no layout. For
   many rows of a part, make its layout by those shifts and that pitch, ask sill_level_plane with the part's length, and add the part's
   start.

   No call allocates, keeps a pointer, prints, or has a state: calls with slices of their own may run at the same time. */
#ifndef SILLCANDLE_H
#define SILLCANDLE_H

#include <stddef.h>
#include <stdint.h>

#ifdef __cplusplus
extern "C" {
#endif

/* The numbers of a call. SILL_BAD_ or SILL_NOT_ where something handed in doesn't do, SILL_NO_ where something isn't there. */
enum {
    SILL_DONE = 0,
    SILL_BAD_PEL = 1,          /* pel isn't 1, 2 or 4 */
    SILL_BAD_GPU = 2,          /* gpu isn't 0, 1 or 2 */
    SILL_BAD_FULL = 3,         /* pel 2 or 4, and not full */
    SILL_BAD_LEAN = 4,         /* lean, and pel above 2, gpu not 1, not full or down not 4 */
    SILL_BAD_SIZE = 5,         /* width or height outside 1 to 16,384 */
    SILL_NO_RECORD = 6,        /* a record handed in is no accepted record */
    SILL_BAD_SHIFT = 7,        /* a shift above 1 */
    SILL_BAD_PITCH = 8,        /* pitch below max(1, least) or above 32,768; least is level 0's width if full, else level 1's */
    SILL_BAD_SOURCE_PITCH = 9, /* source pitch below max(1, level 0's width) or above 32,768 */
    SILL_BAD_SOURCE = 10,      /* source shorter than (h - 1) * source pitch + w; 0 bytes suffice if w or h is 0 */
    SILL_BAD_FRAME = 11,       /* frame shorter than the written end */
    SILL_BAD_SPILL = 12,       /* spill shorter than its need */
    SILL_BAD_SCRATCH = 13,     /* scratch shorter than 16 * (pitch + 16) */
    SILL_BAD_LEVELS = 14,      /* packing: more than 63 levels */
    SILL_NO_ROOM = 15,         /* a slice lent for the answer is shorter than the answer; longhand: the bytes end before the length field or the record does */
    SILL_NO_KIND = 16,         /* longhand: the kind isn't known */
    SILL_BAD_LENGTH = 17,      /* longhand: length isn't the kind's, or is below 2 */
    SILL_BAD_CONTENTS = 18,    /* longhand: contents aren't an accepted record, or a spare flag is set */
    SILL_NO_ROW = 19,          /* no such level, plane or row is stored */
    SILL_NO_CODE = 20,         /* the word is no code */
    SILL_NO_DOWN = 21,         /* halving filter isn't told */
    SILL_NO_UP = 22,           /* upscale filter isn't told */
    SILL_NO_CHROMA = 23,       /* three planes: width or height is below 2 */
    SILL_NOT_FULL = 24,        /* three planes: the record isn't full */
    SILL_BAD_LAYOUT = 32       /* the layout isn't the one that its record gives */
};

/* How many elements a record has, and a layout, and each call's answer. */
enum {
    SILL_COUNT_RECORD = 10,
    SILL_COUNT_WORD = 1,
    SILL_COUNT_TOLD = 12,
    SILL_COUNT_LONGHAND = 21,
    SILL_COUNT_AFTER = 1,
    SILL_COUNT_SIZES = 2,
    SILL_COUNT_LAYOUT = 43,
    SILL_COUNT_END = 1,
    SILL_COUNT_NEEDS = 2,
    SILL_COUNT_PLACE = 2,
    SILL_COUNT_PLANE = 4,
    SILL_COUNT_PARTS = 12
};

/* The places of a record. */
enum {
    SILL_AT_PEL, SILL_AT_GPU, SILL_AT_DOWN, SILL_AT_UP, SILL_AT_FULL,
    SILL_AT_RC, SILL_AT_LEAN, SILL_AT_LEVELS, SILL_AT_WIDTH, SILL_AT_HEIGHT
};

/* The places of what sill_read_word tells. */
enum {
    SILL_TOLD_WIDTH, SILL_TOLD_HEIGHT, SILL_TOLD_PEL, SILL_TOLD_LEVELS, SILL_TOLD_GPU, SILL_TOLD_FULL, SILL_TOLD_RC, SILL_TOLD_LEAN,
    SILL_TOLD_DOWN_MATTERS, SILL_TOLD_DOWN, SILL_TOLD_UP_MATTERS, SILL_TOLD_UP
};

/* The places of a layout: the count of levels, the shifts and the pitch; then level 0's offset, width and height, and those of level k
   k * SILL_LAYOUT_STEP places further on, for SILL_MOST_LEVELS levels. */
enum {
    SILL_MOST_LEVELS = 13,
    SILL_LAYOUT_LEVELS = 0,
    SILL_LAYOUT_X_SHIFT = 1,
    SILL_LAYOUT_Y_SHIFT = 2,
    SILL_LAYOUT_PITCH = 3,
    SILL_LAYOUT_OFFSET = 4,
    SILL_LAYOUT_WIDTH = 5,
    SILL_LAYOUT_HEIGHT = 6,
    SILL_LAYOUT_STEP = 3
};

/* The places of a super frame's sizes, of what a build needs, of where a row lies, and of where a level's plane lies. */
enum { SILL_SIZE_WIDTH, SILL_SIZE_HEIGHT };
enum { SILL_NEED_SPILL, SILL_NEED_SCRATCH };
enum { SILL_PLACE_OFFSET, SILL_PLACE_LENGTH };
enum { SILL_PLANE_START, SILL_PLANE_WIDTH, SILL_PLANE_HEIGHT, SILL_PLANE_PITCH };

/* The parts of a frame of three planes, in the order in which they are joined; then the places of what sill_frame_parts tells. */
enum { SILL_Y, SILL_U, SILL_V };
enum {
    SILL_Y_START, SILL_Y_PITCH, SILL_Y_LENGTH, SILL_U_START, SILL_U_PITCH, SILL_U_LENGTH, SILL_V_START, SILL_V_PITCH, SILL_V_LENGTH,
    SILL_FRAME_LENGTH, SILL_FRAME_SPILL, SILL_FRAME_SCRATCH
};

/* The bits of `given`: which settings are present. */
enum {
    SILL_GIVEN_PEL = 1,
    SILL_GIVEN_GPU = 2,
    SILL_GIVEN_DOWN = 4,
    SILL_GIVEN_UP = 8,
    SILL_GIVEN_FULL = 16,
    SILL_GIVEN_RC = 32,
    SILL_GIVEN_LEAN = 64
};

/* Checks settings and a size. A setting whose bit isn't in `given` has its default: pel 2, gpu 1, down 4, up 2, full yes, rc no,
   lean no; other bits don't count. A flag (full, rc, lean) is yes unless it is 0. If gpu isn't 0, up becomes 0.
   Writes a record, SILL_COUNT_RECORD numbers.
   Numbers: 1 SILL_BAD_PEL, 2 SILL_BAD_GPU, 3 SILL_BAD_FULL, 4 SILL_BAD_LEAN, 5 SILL_BAD_SIZE, 15 SILL_NO_ROOM. */
uint32_t sill_check(uint32_t given, int32_t pel, int32_t gpu, int32_t down, int32_t up, int32_t full, int32_t rc, int32_t lean,
                    int32_t width, int32_t height, int32_t *record, size_t record_count);

/* Whether a record is one that sill_check can give.
   Numbers: 6 SILL_NO_RECORD. */
uint32_t sill_accepted(const int32_t *record, size_t record_count);

/* The word of a record. Writes 1 number.
   Numbers: 6 SILL_NO_RECORD, 14 SILL_BAD_LEVELS (no accepted record has so many), 15 SILL_NO_ROOM. */
uint32_t sill_pack_data(const int32_t *record, size_t record_count, uint64_t *word, size_t word_count);

/* What a stored word tells. Writes SILL_COUNT_TOLD numbers: width, height, pel, levels, gpu, full, rc, lean, then whether down matters
   and down, whether up matters and up; a filter that has no part in the build is 0.
   0 is given only where every record that packs to the word has what is told.
   Numbers: 15 SILL_NO_ROOM, 20 SILL_NO_CODE, 21 SILL_NO_DOWN, 22 SILL_NO_UP. */
uint32_t sill_read_word(uint64_t word, int32_t *told, size_t told_count);

/* 1 if both words name one build and all their bits but those of rc and lean agree, else 0. The answer is no number of document 01. */
uint32_t sill_prepare_alike(uint64_t a, uint64_t b);

/* The longhand record of a record. Writes SILL_COUNT_LONGHAND bytes.
   Numbers: 6 SILL_NO_RECORD, 15 SILL_NO_ROOM. */
uint32_t sill_longhand_write(const int32_t *record, size_t record_count, uint8_t *bytes, size_t bytes_count);

/* Reads the longhand record that stands at the front of the bytes; others may follow it. Writes SILL_COUNT_RECORD numbers to `record`, and
   to `after` 1 number, the place after the record. Of a kind that isn't known only the place is told, by the length, so that a reader
   can go on behind it.
   Numbers, in the order in which they are looked for: 15 SILL_NO_ROOM where `record` or `after` is shorter than its answer, whether or
   not it would be written; 15 where there are fewer than 4 bytes, or fewer after these than the length; 17 SILL_BAD_LENGTH for a
   length below 2; 16 SILL_NO_KIND; 17 for a length that isn't the kind's; 18 SILL_BAD_CONTENTS. */
uint32_t sill_longhand_read(const uint8_t *bytes, size_t bytes_count, int32_t *record, size_t record_count,
                            size_t *after, size_t after_count);

/* The size of the super frame that a record asks for. Writes SILL_COUNT_SIZES numbers: width, height. It isn't how much to lend, which
   sill_written_end tells: a lean record has 2 rows here.
   Numbers: 6 SILL_NO_RECORD, 15 SILL_NO_ROOM. */
uint32_t sill_super_sizes(const int32_t *record, size_t record_count, int32_t *sizes, size_t sizes_count);

/* Makes a plane's layout, to be kept beside its record for the calls below. Writes SILL_COUNT_LAYOUT numbers; the calls below take just
   these, however many elements were lent.
   Numbers: 6 SILL_NO_RECORD, 7 SILL_BAD_SHIFT, 8 SILL_BAD_PITCH, 15 SILL_NO_ROOM. */
uint32_t sill_layout(const int32_t *record, size_t record_count, uint32_t x_shift, uint32_t y_shift, size_t pitch,
                     size_t *layout, size_t layout_count);

/* Changes a layout in place to the one that sill_layout gives for these shifts and this pitch. A refusal leaves it as it was.
   Numbers, in the order in which they are looked for: 6 SILL_NO_RECORD; 32 SILL_BAD_LAYOUT for the layout handed in; 7 SILL_BAD_SHIFT and
   8 SILL_BAD_PITCH for the new shifts and pitch. Another count of elements is 32, never 15. */
uint32_t sill_layout_change(const int32_t *record, size_t record_count, size_t *layout, size_t layout_count,
                            uint32_t x_shift, uint32_t y_shift, size_t pitch);

/* The end of the last level: how long a frame has to be. Writes 1 number.
   Numbers: 6 SILL_NO_RECORD, 15 SILL_NO_ROOM, 32 SILL_BAD_LAYOUT. */
uint32_t sill_written_end(const int32_t *record, size_t record_count, const size_t *layout, size_t layout_count,
                          size_t *end, size_t end_count);

/* How many bytes a build has to be lent. Writes SILL_COUNT_NEEDS numbers: of spill, of scratch.
   Numbers: 6 SILL_NO_RECORD, 15 SILL_NO_ROOM, 32 SILL_BAD_LAYOUT. */
uint32_t sill_needs(const int32_t *record, size_t record_count, const size_t *layout, size_t layout_count,
                    size_t *needs, size_t needs_count);

/* Zeroes the bytes from a level's width to the pitch, in levels after 0 that the fused cubic doesn't make.
   Numbers, in the order in which they are looked for: 6 SILL_NO_RECORD, 32 SILL_BAD_LAYOUT, 11 SILL_BAD_FRAME. */
uint32_t sill_clear_margins(uint8_t *frame, size_t frame_count, const int32_t *record, size_t record_count,
                            const size_t *layout, size_t layout_count);

/* Where a row lies in a frame of frame_length bytes: the written end, where there is no frame yet. Writes SILL_COUNT_PLACE numbers:
   offset, length. For a row now and then: it tests the record and the layout each time, in one walk down the levels. For many rows,
   sill_level_plane is asked once.
   Numbers, in the order in which they are looked for: 6 SILL_NO_RECORD, 32 SILL_BAD_LAYOUT, 11 SILL_BAD_FRAME, 19 SILL_NO_ROW. Where
   `place` is too short, 15 SILL_NO_ROOM stands in place of 0, 19 and 32. */
uint32_t sill_row(size_t frame_length, const int32_t *record, size_t record_count, const size_t *layout, size_t layout_count,
                  uint32_t level, size_t plane, size_t y, size_t *place, size_t place_count);

/* Where a level's plane lies in a frame of frame_length bytes. Writes SILL_COUNT_PLANE numbers: start, width, height, pitch. Row y, from
   0 to height - 1, begins at start + y * pitch and has width bytes: what sill_row tells of each, asked once for all.
   Numbers, in the order in which they are looked for: 6 SILL_NO_RECORD, 32 SILL_BAD_LAYOUT, 11 SILL_BAD_FRAME; 19 SILL_NO_ROW, no such
   level or plane is stored. Where `place` is too short, 15 SILL_NO_ROOM stands in place of 0, 19 and 32. */
uint32_t sill_level_plane(size_t frame_length, const int32_t *record, size_t record_count, const size_t *layout, size_t layout_count,
                          uint32_t level, size_t plane, size_t *place, size_t place_count);

/* Builds a plane in the frame from the source, whose rows begin src_pitch bytes apart. What spill and scratch held has no effect;
   after a finished build they are zero throughout. Frame bytes that no rule writes stay. What the frame held can reach the levels'
   bytes, as in the Rust: zero it first where a build has to be repeatable. In a frame that is longer than the written end bytes past it
   may be written: where something follows the plane, lend just its part.
   Numbers, in the order in which they are looked for: 6 SILL_NO_RECORD, 32 SILL_BAD_LAYOUT, 9 SILL_BAD_SOURCE_PITCH, 10 SILL_BAD_SOURCE,
   11 SILL_BAD_FRAME, 12 SILL_BAD_SPILL, 13 SILL_BAD_SCRATCH. With no level 9 and 10 go by the record's sides and the layout's shifts. */
uint32_t sill_build_plane(uint8_t *frame, size_t frame_count, uint8_t *spill, size_t spill_count, uint8_t *scratch, size_t scratch_count,
                          const int32_t *record, size_t record_count, const size_t *layout, size_t layout_count,
                          const uint8_t *src, size_t src_count, size_t src_pitch);

/* Where the parts of a frame of three planes lie. Writes SILL_COUNT_PARTS numbers: for Y, for U and for V where the part starts, its pitch
   and its length; then how many bytes sill_build_frame has to be lent: of frame, of spill, of scratch.
   Numbers: 6 SILL_NO_RECORD, 15 SILL_NO_ROOM, 23 SILL_NO_CHROMA, 24 SILL_NOT_FULL. */
uint32_t sill_frame_parts(const int32_t *record, size_t record_count, size_t *parts, size_t parts_count);

/* Where a row of a part lies in a frame of frame_length bytes. part is SILL_Y, SILL_U or SILL_V; level, plane and y are those of sill_row.
   Writes SILL_COUNT_PLACE numbers: offset, from the frame's first byte on, and length.
   Numbers, in the order in which they are looked for: 6 SILL_NO_RECORD, 23 SILL_NO_CHROMA, 24 SILL_NOT_FULL; 11 SILL_BAD_FRAME, shorter
   than the three parts together; 19 SILL_NO_ROW, also for another part. Where `place` is too short, 15 SILL_NO_ROOM stands in place of
   0, 19, 23 and 24. */
uint32_t sill_frame_row(size_t frame_length, const int32_t *record, size_t record_count, uint32_t part, uint32_t level, size_t plane,
                        size_t y, size_t *place, size_t place_count);

/* Builds the three planes of a picture, each in its part of the frame as sill_build_plane would in a frame that is that part alone. The
   rows of y begin y_pitch bytes apart, those of u and v u_pitch and v_pitch. The sources may share bytes, as where a row of U and one of
   V lie side by side. Everything is tested before the first byte is stored: a refusal leaves all three planes as they were. Bytes
   past the third part stay. What is said at sill_build_plane of spill, scratch and earlier bytes holds here.
   Numbers, in the order in which they are looked for: 6 SILL_NO_RECORD, 23 SILL_NO_CHROMA, 24 SILL_NOT_FULL; 9 SILL_BAD_SOURCE_PITCH of
   Y, U or V; 10 SILL_BAD_SOURCE of Y, U or V; 11 SILL_BAD_FRAME, shorter than the three parts together; 12 SILL_BAD_SPILL;
   13 SILL_BAD_SCRATCH, by the pitch of Y. Which plane 9 or 10 is for isn't told; its rows and columns are its own level 0's, of U and V
   floor(height / 2) and floor(width / 2). */
uint32_t sill_build_frame(uint8_t *frame, size_t frame_count, uint8_t *spill, size_t spill_count, uint8_t *scratch, size_t scratch_count,
                          const int32_t *record, size_t record_count, const uint8_t *y, size_t y_count, size_t y_pitch,
                          const uint8_t *u, size_t u_count, size_t u_pitch, const uint8_t *v, size_t v_count, size_t v_pitch);

#ifdef __cplusplus
}
#endif

#endif
