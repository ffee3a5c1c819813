/* Documents 01 and 02 in plain C, written from the documents alone and not from either code. In order: settings, words, document 02's
   longhand record, sizes, the table of numbers with document 02's layout, document 02's three planes. What bytes a build writes isn't
   here: that is the Rust's to say. */
#include <string.h>

#include "door.h"

enum { PEL, GPU, DOWN, UP, FULL, RC, LEAN, LEVELS, WIDTH, HEIGHT };
enum { MOST_SIDE = 16384, MOST_PITCH = 32768 };

static int64_t reduced(int64_t d, int times) {
    while (times-- > 0) d = 2 * (d / 4);
    return d;
}

static int levels_of(int64_t width, int64_t height) {
    int n = 0;
    for (; width >= 4 && height >= 4; n++) width = reduced(width, 1), height = reduced(height, 1);
    return n;
}

uint32_t rule_check(uint32_t given, const int32_t set[7], int32_t width, int32_t height, int32_t record[10]) {
    static const int32_t defaults[7] = {2, 1, 4, 2, 1, 0, 0};
    int32_t r[10] = {0};
    for (int k = 0; k < 7; k++) {
        r[k] = given >> k & 1 ? set[k] : defaults[k];
        if (k >= FULL) r[k] = r[k] != 0;
    }
    if (r[GPU] != 0) r[UP] = 0;
    if (r[PEL] != 1 && r[PEL] != 2 && r[PEL] != 4) return 1;
    if (r[GPU] < 0 || r[GPU] > 2) return 2;
    if (r[PEL] != 1 && !r[FULL]) return 3;
    if (r[LEAN] && (r[PEL] > 2 || r[GPU] != 1 || !r[FULL] || r[DOWN] != 4)) return 4;
    if (width < 1 || width > MOST_SIDE || height < 1 || height > MOST_SIDE) return 5;
    r[LEVELS] = levels_of(width, height), r[WIDTH] = width, r[HEIGHT] = height;
    memcpy(record, r, sizeof r);
    return 0;
}

/* "An accepted record is one this check can return": then it returns it for the record's own settings and size. */
uint32_t rule_record(const int32_t *record, size_t count) {
    int32_t again[10];
    if (count != 10 || rule_check(127, record, record[WIDTH], record[HEIGHT], again)) return 6;
    return memcmp(record, again, sizeof again) ? 6 : 0;
}

uint64_t rule_word(const int32_t r[10]) {
    uint64_t fields[] = {(uint64_t)r[HEIGHT], (uint64_t)r[WIDTH], (uint64_t)r[PEL], (uint64_t)r[LEVELS], r[DOWN] != 4, (uint64_t)r[LEAN], (uint64_t)r[GPU], (uint64_t)r[RC], !r[FULL]};
    static const int bits[] = {16, 16, 8, 6, 1, 1, 8, 1, 1};
    uint64_t word = 0;
    for (int k = 0, at = 0; k < 9; at += bits[k++]) word |= fields[k] << at;
    return word;
}

/* The halving filters are 0 and 1 as one, 2, 3, 4 and none, the upscale filters 0, 1 and any other: one value of each is enough. */
static const int32_t downs[] = {4, 0, 2, 3, 5}, ups[] = {0, 1, 2};

/* Over the filters of one choice of the other settings: the records that pack to the word. What the first says is kept in `of`. */
static int filters_of(uint64_t word, int32_t set[7], int32_t of[10], int *down_differs, int *up_differs) {
    int found = 0;
    int32_t r[10] = {0};
    for (int k = 0; k < 15; k++) {
        set[DOWN] = downs[k / 3], set[UP] = ups[k % 3];
        if (rule_check(127, set, (int32_t)(word >> 16 & 65535), (int32_t)(word & 65535), r) || rule_word(r) != word) continue;
        if (!found++) memcpy(of, r, sizeof r);
        *down_differs |= r[DOWN] != of[DOWN], *up_differs |= r[UP] != of[UP];
    }
    return found;
}

/* Every setting is tried; a word has its records from one choice of all but the filters. */
uint32_t rule_read(uint64_t word, int32_t told[12]) {
    int32_t r[10] = {0};
    int found = 0, down_differs = 0, up_differs = 0;
    for (int k = 0; k < 72 && !found; k++) {
        int32_t set[7] = {1 << k / 24, k / 8 % 3, 0, 0, k & 1, k >> 1 & 1, k >> 2 & 1};
        found = filters_of(word, set, r, &down_differs, &up_differs);
    }
    if (!found) return 20;
    int down = r[LEVELS] >= 2, up = r[PEL] > 1 && r[GPU] < 2 && r[FULL] && r[LEVELS] >= 1;
    if (down && down_differs) return 21;
    if (up && up_differs) return 22;
    int32_t all[12] = {r[WIDTH], r[HEIGHT], r[PEL], r[LEVELS], r[GPU], r[FULL], r[RC], r[LEAN], down, down ? r[DOWN] : 0, up, up ? r[UP] : 0};
    memcpy(told, all, sizeof all);
    return 0;
}

/* "They agree in all but rc and lean": in their bits (docs/DECISIONS.md). */
uint32_t rule_alike(uint64_t a, uint64_t b) {
    int32_t told[12];
    const uint64_t rc = (uint64_t)1 << 56, lean = (uint64_t)1 << 47;
    return !rule_read(a, told) && !rule_read(b, told) && ((a ^ b) | rc | lean) == (rc | lean);
}

/* The longhand record's numbers and how many bytes each has: length, kind, width, height, pel, gpu, flags, down, up. */
enum { OF_LENGTH, OF_KIND, OF_WIDTH, OF_HEIGHT, OF_PEL, OF_GPU, OF_FLAGS, OF_DOWN, OF_UP, SPELLED };
static const int spelled[SPELLED] = {4, 2, 2, 2, 1, 1, 1, 4, 4};

uint32_t rule_longhand_write(const int32_t *r, size_t count, uint8_t bytes[21]) {
    if (rule_record(r, count)) return 6;
    uint32_t flags = (uint32_t)(r[FULL] + 2 * r[RC] + 4 * r[LEAN]);
    uint32_t all[SPELLED] = {17, 1, (uint32_t)r[WIDTH], (uint32_t)r[HEIGHT], (uint32_t)r[PEL], (uint32_t)r[GPU], flags, (uint32_t)r[DOWN], (uint32_t)r[UP]};
    for (int k = 0; k < SPELLED; k++) for (int n = 0; n < spelled[k]; n++) *bytes++ = (uint8_t)(all[k] >> 8 * n);
    return 0;
}

/* The k-th of these numbers. */
static uint32_t spells(const uint8_t *bytes, int k) {
    uint32_t number = 0;
    for (int before = 0; before < k; before++) bytes += spelled[before];
    for (int n = spelled[k]; n-- > 0;) number = number * 256 + bytes[n];
    return number;
}

/* "One record has one encoding": the contents are good if the record that they name has them for its own. */
static uint32_t rule_contents(const uint8_t bytes[21], int32_t record[10]) {
    uint32_t flags = spells(bytes, OF_FLAGS);
    int32_t set[7] = {
        (int32_t)spells(bytes, OF_PEL), (int32_t)spells(bytes, OF_GPU), (int32_t)spells(bytes, OF_DOWN), (int32_t)spells(bytes, OF_UP),
        flags & 1, flags >> 1 & 1, flags >> 2 & 1,
    };
    uint8_t again[21];
    if (rule_check(127, set, (int32_t)spells(bytes, OF_WIDTH), (int32_t)spells(bytes, OF_HEIGHT), record)) return 18;
    return rule_longhand_write(record, 10, again) || memcmp(bytes, again, sizeof again) ? 18 : 0;
}

/* "15 bytes run short of the length field or of the length, 16 unknown kind, 17 length isn't the kind's or is below 2, 18 ..; in that
   order, but a length below 2 is 17 before any kind is read." `*after` counts only with 0 and 16. */
uint32_t rule_longhand_read(const uint8_t *bytes, size_t count, int32_t record[10], size_t *after) {
    if (count < 4 || spells(bytes, OF_LENGTH) > count - 4) return 15;
    uint32_t length = spells(bytes, OF_LENGTH);
    if (length < 2) return 17;
    *after = 4 + (size_t)length;
    if (spells(bytes, OF_KIND) != 1) return 16;
    return length != 17 ? 17 : rule_contents(bytes, record);
}

void rule_sizes(const int32_t r[10], int32_t sizes[2]) {
    int64_t w = r[WIDTH], h = r[HEIGHT], once = reduced(w, 1), height;
    if (r[LEAN]) height = 2;
    else if (r[FULL]) {
        height = r[PEL] * r[PEL] * h;
        for (int k = 1; k < r[LEVELS]; k++) height += reduced(h, k);
    } else {
        int64_t by = once > 1 ? once : 1;
        height = (w * h / 2 + by - 1) / by;
        height += height % 2;
    }
    sizes[0] = (int32_t)(r[FULL] ? w : once), sizes[1] = (int32_t)height;
}

/* A level's width and height in this plane. */
static size_t width_at(const layout *l, int level) { return (size_t)(reduced(l->record[WIDTH], level) >> l->x); }
static size_t height_at(const layout *l, int level) { return (size_t)(reduced(l->record[HEIGHT], level) >> l->y); }
static size_t planes_at(const layout *l, int level) { return level ? 1 : l->record[FULL] ? (size_t)(l->record[PEL] * l->record[PEL]) : 0; }

uint32_t rule_layout(const layout *l) {
    if (rule_record(l->record, l->count)) return 6;
    if (l->x > 1 || l->y > 1) return 7;
    size_t least = width_at(l, l->record[FULL] ? 0 : 1);
    return l->pitch < (least > 1 ? least : 1) || l->pitch > MOST_PITCH ? 8 : 0;
}

static size_t offset_at(const layout *l, int level) {
    size_t at = 0;
    for (int k = 0; k < level; k++) at += planes_at(l, k) * height_at(l, k) * l->pitch;
    return at;
}

/* "Offset, width and height of each level", after the count, shifts and pitch; "zeros past the last". */
void rule_numbers(const layout *l, size_t numbers[LAYOUT]) {
    memset(numbers, 0, LAYOUT * sizeof *numbers);
    numbers[0] = (size_t)l->record[LEVELS], numbers[1] = l->x, numbers[2] = l->y, numbers[3] = l->pitch;
    for (int k = 0; k < l->record[LEVELS]; k++) {
        size_t *of = numbers + 4 + 3 * k;
        of[0] = offset_at(l, k), of[1] = width_at(l, k), of[2] = height_at(l, k);
    }
}

/* Of a record that isn't accepted only the shifts and the pitch; of shifts above 1 the levels of their last bits. */
void keep(layout *l) {
    layout some = *l;
    some.x &= 1, some.y &= 1;
    l->handed_count = LAYOUT;
    memset(l->handed, 0, sizeof l->handed);
    if (!rule_record(l->record, l->count)) rule_numbers(&some, l->handed);
    l->handed[1] = l->x, l->handed[2] = l->y, l->handed[3] = l->pitch;
}

/* "A layout handed in that isn't the one its record gives is refused": by this record and the layout's own shifts and pitch. */
uint32_t rule_handed(const layout *l, layout *own) {
    size_t again[LAYOUT];
    *own = *l;
    if (rule_record(l->record, l->count)) return 6;
    if (l->handed_count != LAYOUT || l->handed[1] > 1 || l->handed[2] > 1) return 32;
    own->x = (uint32_t)l->handed[1], own->y = (uint32_t)l->handed[2], own->pitch = l->handed[3];
    if (rule_layout(own)) return 32;
    rule_numbers(own, again);
    return memcmp(l->handed, again, sizeof again) ? 32 : 0;
}

/* "Changing the pitch or the shifts of a stored layout gives the layout one would get afresh." */
uint32_t rule_change(const layout *l, uint32_t x, uint32_t y, size_t pitch, size_t numbers[LAYOUT]) {
    layout afresh;
    uint32_t no = rule_handed(l, &afresh);
    if (no) return no;
    afresh.x = x, afresh.y = y, afresh.pitch = pitch;
    no = rule_layout(&afresh);
    if (!no) rule_numbers(&afresh, numbers);
    return no;
}

size_t rule_end(const layout *l) { return offset_at(l, l->record[LEVELS]); }

void rule_needs(const layout *l, size_t needs[2]) {
    needs[0] = !l->record[FULL] && l->record[LEVELS] >= 2 ? height_at(l, 1) * l->pitch : 16;
    needs[1] = 16 * (l->pitch + 16);
}

/* "32 the layout isn't the record's, after 6"; then 11. */
static uint32_t framed(const layout *l, size_t frame, layout *own) {
    uint32_t no = rule_handed(l, own);
    return no ? no : frame < rule_end(own) ? 11 : 0;
}

uint32_t rule_clear(const layout *l, size_t frame) {
    layout own;
    return framed(l, frame, &own);
}

/* A plane that is stored: where it starts, width, height and pitch. */
static uint32_t stored(const layout *l, uint32_t level, size_t plane, size_t place[4]) {
    if (level >= (uint32_t)l->record[LEVELS] || plane >= planes_at(l, (int)level)) return 19;
    place[1] = width_at(l, (int)level), place[2] = height_at(l, (int)level), place[3] = l->pitch;
    place[0] = offset_at(l, (int)level) + plane * place[2] * l->pitch;
    return 0;
}

static uint32_t row_of(const layout *l, uint32_t level, size_t plane, size_t y, size_t place[2]) {
    size_t of[4];
    if (stored(l, level, plane, of) || y >= of[2]) return 19;
    place[0] = of[0] + y * l->pitch, place[1] = of[1];
    return 0;
}

uint32_t rule_row(const layout *l, size_t frame, uint32_t level, size_t plane, size_t y, size_t place[2]) {
    layout own;
    uint32_t no = framed(l, frame, &own);
    return no ? no : row_of(&own, level, plane, y, place);
}

uint32_t rule_level_plane(const layout *l, size_t frame, uint32_t level, size_t plane, size_t place[4]) {
    layout own;
    uint32_t no = framed(l, frame, &own);
    return no ? no : stored(&own, level, plane, place);
}

size_t rule_source(const layout *l, size_t src_pitch) {
    size_t w = width_at(l, 0), h = height_at(l, 0);
    return w && h ? (h - 1) * src_pitch + w : 0;
}

static int is_9(const layout *l, size_t src_pitch) {
    size_t least = width_at(l, 0);
    return src_pitch < (least > 1 ? least : 1) || src_pitch > MOST_PITCH;
}

static int is_10(const layout *l, size_t src, size_t src_pitch) { return src < rule_source(l, src_pitch); }

static uint32_t lent_tested(size_t frame, size_t spill, size_t scratch, size_t end, const size_t needs[2]) {
    if (frame < end) return 11;
    if (spill < needs[0]) return 12;
    return scratch < needs[1] ? 13 : 0;
}

uint32_t rule_build(const layout *l, const lengths *n) {
    layout own;
    uint32_t no = rule_handed(l, &own);
    if (no) return no;
    size_t needs[2];
    rule_needs(&own, needs);
    if (is_9(&own, n->src_pitch)) return 9;
    if (is_10(&own, n->src, n->src_pitch)) return 10;
    return lent_tested(n->frame, n->spill, n->scratch, rule_end(&own), needs);
}

/* "Shifts 1,1 for chroma, pitch W for Y and W / 2 for U and V". */
layout rule_part(const layout *of, int part) {
    layout l = *of;
    l.x = l.y = part != 0;
    l.pitch = (size_t)l.record[WIDTH] / (part ? 2 : 1);
    return l;
}

/* "23 a side below 2, 24 not full, after 6"; then nothing is wrong with the layout of a part. */
uint32_t rule_three(const layout *l) {
    if (rule_record(l->record, l->count)) return 6;
    if (l->record[WIDTH] < 2 || l->record[HEIGHT] < 2) return 23;
    return l->record[FULL] ? 0 : 24;
}

/* "Each plane as long as its written end, joined in that order"; "spill and scratch needs are luma's". */
void rule_parts(const layout *l, size_t parts[12]) {
    layout luma = rule_part(l, 0);
    size_t start = 0;
    for (int k = 0; k < 3; k++) {
        layout part = rule_part(l, k);
        parts[3 * k] = start, parts[3 * k + 1] = part.pitch, parts[3 * k + 2] = rule_end(&part);
        start += parts[3 * k + 2];
    }
    parts[9] = start;
    rule_needs(&luma, parts + 10);
}

uint32_t rule_frame_row(const layout *l, size_t frame, uint32_t of, uint32_t level, size_t plane, size_t y, size_t place[2]) {
    uint32_t no = rule_three(l);
    if (no) return no;
    size_t parts[12];
    rule_parts(l, parts);
    if (frame < parts[9]) return 11;
    if (of > 2) return 19;
    layout part = rule_part(l, (int)of);
    no = row_of(&part, level, plane, y, place);
    if (!no) place[0] += parts[3 * of];
    return no;
}

/* "Then 9 to 13 as before, Y then U then V for each number, 11 over the joined ends." */
uint32_t rule_build_frame(const layout *l, const frame_lengths *n) {
    uint32_t no = rule_three(l);
    if (no) return no;
    size_t parts[12];
    rule_parts(l, parts);
    layout of[3] = {rule_part(l, 0), rule_part(l, 1), rule_part(l, 2)};
    for (int k = 0; k < 3; k++) if (is_9(&of[k], n->src_pitch[k])) return 9;
    for (int k = 0; k < 3; k++) if (is_10(&of[k], n->src[k], n->src_pitch[k])) return 10;
    return lent_tested(n->frame, n->spill, n->scratch, parts[9], parts + 10);
}
