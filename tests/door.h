/* What the parts of the library's test share. In the order of use: the rules, lent slices, calls, cases. */
#ifndef DOOR_H
#define DOOR_H

#include <stddef.h>
#include <stdint.h>

/* A record, the shifts and the pitch that a layout is made by, and the layout that is handed in: the one of these after `keep`, or any
   other. A record may be handed in with another count than 10, a layout with another than LAYOUT. */
enum { RECORD_MOST = 12, LAYOUT = 43, LAYOUT_MOST = 46 };
typedef struct {
    int32_t record[RECORD_MOST];
    size_t count;
    uint32_t x, y;
    size_t pitch, handed[LAYOUT_MOST], handed_count;
} layout;

/* What a build is lent beside its layout. */
typedef struct {
    size_t frame, spill, scratch, src, src_pitch;
} lengths;

/* What a build of three planes is lent beside its record: sources of Y, U and V. */
typedef struct {
    size_t frame, spill, scratch, src[3], src_pitch[3];
} frame_lengths;

/* rules.c: document 01's table and sizes, and document 02's longhand record, three planes and layout. A number, or 0 and the answer. */
uint32_t rule_check(uint32_t given, const int32_t set[7], int32_t width, int32_t height, int32_t record[10]);
uint32_t rule_record(const int32_t *record, size_t count);
uint64_t rule_word(const int32_t record[10]);
uint32_t rule_read(uint64_t word, int32_t told[12]);
uint32_t rule_alike(uint64_t a, uint64_t b);
uint32_t rule_longhand_write(const int32_t *record, size_t count, uint8_t bytes[21]);
uint32_t rule_longhand_read(const uint8_t *bytes, size_t count, int32_t record[10], size_t *after);
void rule_sizes(const int32_t record[10], int32_t sizes[2]);
/* By the shifts and the pitch: 6, 7 and 8, then what they give. `keep` hands it in; of bad ones, numbers that say them. */
uint32_t rule_layout(const layout *l);
void rule_numbers(const layout *l, size_t numbers[LAYOUT]);
size_t rule_end(const layout *l);
void rule_needs(const layout *l, size_t needs[2]);
size_t rule_source(const layout *l, size_t src_pitch);
void keep(layout *l);
/* By the layout that is handed in: 6 and 32, or in `own` its shifts and pitch; then the calls that take it. */
uint32_t rule_handed(const layout *l, layout *own);
uint32_t rule_change(const layout *l, uint32_t x, uint32_t y, size_t pitch, size_t numbers[LAYOUT]);
uint32_t rule_clear(const layout *l, size_t frame);
uint32_t rule_row(const layout *l, size_t frame, uint32_t level, size_t plane, size_t y, size_t place[2]);
uint32_t rule_level_plane(const layout *l, size_t frame, uint32_t level, size_t plane, size_t place[4]);
uint32_t rule_build(const layout *l, const lengths *n);
/* Of three planes: the layout of one, by the record alone; 6, 23 and 24; what a row and a build give. */
layout rule_part(const layout *of, int part);
uint32_t rule_three(const layout *l);
void rule_parts(const layout *l, size_t parts[12]);
uint32_t rule_frame_row(const layout *l, size_t frame, uint32_t of, uint32_t level, size_t plane, size_t y, size_t place[2]);
uint32_t rule_build_frame(const layout *l, const frame_lengths *n);

/* lent.c: random numbers, and slices between guard bytes and unmapped pages. */
uint64_t next(void);
uint64_t below(uint64_t n);
void seed(uint64_t s);

enum { MOST = 1 << 20 };
typedef enum { AT_START, AMIDST, AT_END, SPOTS } spot;
typedef struct {
    const char *name;
    uint8_t *room, *at, *before;
    size_t bytes;
} lent;
extern spot where;
void lent_open(lent *l, const char *name);
void *lend(lent *l, size_t bytes);
void *lend_copy(lent *l, const void *of, size_t bytes);
void lent_guarded(const lent *l);
void lent_same(const lent *l, size_t from, size_t to);
void lent_cleared(const lent *l, size_t from, size_t to);
void lent_kept(const lent *l);
void lent_front(const lent *l, const void *value, size_t bytes);
void lent_is(const lent *l, const void *value);
void lent_zero(const lent *l);
void failed(const char *what, ...) __attribute__((format(printf, 1, 2), noreturn));
void tell(const char *what, ...) __attribute__((format(printf, 1, 2)));
void tell_more(const char *what, ...) __attribute__((format(printf, 1, 2)));
void watch(void);

/* calls.c: one call each, held to the rules and the Rust. The number that the call gave, or of two words whether they are alike. */
enum { CHECK, ACCEPTED, PACK, READ, ALIKE, LONGHAND_WRITE, LONGHAND_READ, SIZES, MAKE, CHANGE, END, NEEDS, CLEAR, ROW, LEVEL_PLANE, BUILD, PARTS, FRAME_ROW, BUILD_FRAME, CALLS };
enum { NUMBERS = 33 };
extern const char *const names[CALLS];
extern uint64_t met[CALLS][NUMBERS];
void calls_open(void);
uint32_t try_check(uint32_t given, const int32_t set[7], int32_t width, int32_t height, size_t room);
uint32_t try_accepted(const layout *l);
uint32_t try_pack(const layout *l, size_t room);
uint32_t try_read(uint64_t word, size_t room);
uint32_t try_alike(uint64_t a, uint64_t b);
uint32_t try_longhand_write(const layout *l, size_t room);
uint32_t try_longhand_read(const uint8_t *bytes, size_t count, size_t record_room, size_t after_room);
uint32_t try_sizes(const layout *l, size_t room);
uint32_t try_make(const layout *l, size_t room);
uint32_t try_change(const layout *l, uint32_t x, uint32_t y, size_t pitch);
uint32_t try_end(const layout *l, size_t room);
uint32_t try_needs(const layout *l, size_t room);
uint32_t try_clear(const layout *l, size_t frame);
uint32_t try_row(const layout *l, size_t frame, uint32_t level, size_t plane, size_t y, size_t room);
uint32_t try_level_plane(const layout *l, size_t frame, uint32_t level, size_t plane, size_t room);
uint32_t try_build(const layout *l, const lengths *n);
uint32_t try_parts(const layout *l, size_t room);
uint32_t try_frame_row(const layout *l, size_t frame, uint32_t of, uint32_t level, size_t plane, size_t y, size_t room);
uint32_t try_build_frame(const layout *l, const frame_lengths *n);
/* The sources' bytes, or NULL for random ones, one plane's the first; and what the last build left in the frame. */
extern const uint8_t *source_given[3];
const uint8_t *built(void);

/* fixed.c, layouts.c, longhand.c, planes.c, random.c */
void is(uint32_t got, uint32_t number);
layout laid(int32_t pel, int32_t gpu, int32_t up, int32_t full, int32_t width, int32_t height, size_t pitch);
void fixed_cases(void);
void layout_cases(void);
void longhand_cases(void);
void plane_cases(void);
void vast_planes(uint8_t *to, const void *held, size_t over);
void random_calls(uint64_t count);

#endif
