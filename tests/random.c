/* Random calls: good settings, layouts and lengths, of which many are then spoilt by a wild number, sometimes by more than one.
   What each call has to give is not known here: calls.c holds it to the rules.
   C leaves the order open in which the arguments of a call, the operands of a sum and the values of a list are worked out: each number
   that is drawn beside another goes into a variable first, so that a seed gives the same calls with every compiler.
   In order: numbers and layouts; lengths and words; calls; all of them, with the numbers that were met. */
#include <stdio.h>

#include "door.h"

#define PICK(...) ((const int64_t[]){__VA_ARGS__}[below(sizeof (int64_t[]){__VA_ARGS__} / sizeof(int64_t))])

/* Near 0, near a power of two, near the largest, or any. */
static uint64_t wild(void) {
    switch (below(4)) {
    case 0: return below(6);
    case 1: {
        uint64_t power = (uint64_t)1 << PICK(1, 2, 4, 8, 14, 15, 16, 31, 32, 33, 62, 63);
        return power + below(5) - 2;
    }
    case 2: return 0 - below(4);
    default: return next();
    }
}

static int32_t side(void) {
    switch (below(16)) {
    case 0: return 1 + (int32_t)below(16384);
    case 1: return 1 + (int32_t)below(160);
    case 2: case 3: return 4 * (1 + (int32_t)below(16));
    default: return 1 + (int32_t)below(40);
    }
}

static void usual(int32_t set[7]) {
    set[0] = (int32_t)PICK(1, 1, 2, 2, 4);
    set[1] = (int32_t)PICK(0, 0, 1, 2);
    set[2] = (int32_t)PICK(4, 4, 4, 3, 2, 1, 0, 5);
    set[3] = (int32_t)PICK(0, 1, 2, 3);
    set[4] = below(4) != 0;
    set[5] = (int32_t)below(2);
    set[6] = below(8) == 0;
}

/* An accepted record, its shifts and a pitch that fits, mostly a narrow one. */
static layout fine(void) {
    layout l = {.count = 10};
    int32_t set[7], across, down;
    do usual(set), across = side(), down = side(); while (rule_check(127, set, across, down, l.record));
    l.x = (uint32_t)below(2), l.y = (uint32_t)below(2);
    int32_t width = l.record[4] ? l.record[8] : 2 * (l.record[8] / 4);
    size_t least = (size_t)(width >> l.x);
    if (!least) least = 1;
    int64_t more = (int64_t)below(100);
    l.pitch = least + (size_t)PICK(0, 0, 0, 1, 2, 5, 16, more, (int64_t)(15 & -least));
    if (below(64) == 0) l.pitch = 32768 - below(3);
    keep(&l);
    return l;
}

static void spoil_layout(layout *l) {
    uint64_t at = below(10);
    switch (below(6)) {
    case 0: l->count = PICK(0, 1, 9, 11, 12); break;
    case 1: l->record[at] = (int32_t)wild(); break;
    case 2: l->record[7] += (int32_t)PICK(-1, 1, 64, 256); break;
    case 3: l->x = (uint32_t)wild(); break;
    case 4: l->y = (uint32_t)wild(); break;
    default: l->pitch = below(2) ? l->pitch - 1 - below(3) : wild();
    }
}

/* Another layout than the one of the shifts and the pitch: one number changed, most where a level has one; another count; the layout of
   another picture; or one that says other shifts or another pitch, which of few levels is a good one. */
static void spoil_handed(layout *l) {
    uint64_t at = below(below(2) ? 4 + 3 * (l->handed[0] % 14) : LAYOUT);
    switch (below(6)) {
    case 0: l->handed_count = (size_t)PICK(0, 1, 40, 42, 44, LAYOUT_MOST); break;
    case 1: l->handed[at] = wild(); break;
    case 2: l->handed[at] += (size_t)PICK(1, -1, 2, 16, (int64_t)1 << 32, INT64_MIN); break;
    case 3: {
        layout other = fine();
        for (int k = 0; k < LAYOUT; k++) l->handed[k] = other.handed[k];
        break;
    }
    case 4: l->handed[1 + below(2)] ^= 1; break;
    default: l->handed[3] += 1 + below(40);
    }
}

/* The layout handed in is mostly that of the shifts and the pitch, as far as these are good. */
static layout some(void) {
    layout l = fine();
    if (below(3) == 0) spoil_layout(&l);
    if (below(9) == 0) spoil_layout(&l);
    if (below(2)) keep(&l);
    if (below(5) == 0) spoil_handed(&l);
    return l;
}

/* Elements lent for an answer of so many. */
static size_t room(size_t need) { return below(4) ? need : below(2) ? below(need) : need + below(5); }

/* A length near its need, as far as the test has room for it. */
static size_t near(size_t need) {
    size_t n = need;
    switch (below(12)) {
    case 0: n = need - (need > 0); break;
    case 1: n = need / 2; break;
    case 2: n = 0; break;
    case 3: case 4: n = need + below(80); break;
    default: break;
    }
    return n > MOST ? below(2000) : n;
}

static uint64_t word(void) {
    layout l = fine();
    uint64_t w = rule_word(l.record), bits = 1 + below(63);
    switch (below(4)) {
    case 0: return w ^ (uint64_t)1 << below(64);
    case 1: return w ^ bits << PICK(32, 40, 48, 56);
    case 2: return below(2) ? wild() : (w >> 16 << 16 | (wild() & 65535));
    default: return w;
    }
}

static void check(void) {
    int32_t set[7];
    usual(set);
    uint32_t given = (uint32_t)(below(2) ? below(128) : next());
    for (int spoils = (int)below(4); spoils > 1; spoils--) {
        uint64_t at = below(7);
        set[at] = (int32_t)wild();
    }
    int32_t width = below(4) ? side() : (int32_t)wild(), height = below(8) ? side() : (int32_t)wild();
    try_check(given, set, width, height, room(10));
}

static void read_back(void) {
    uint64_t w = word();
    try_read(w, room(12));
}

static void alike(void) {
    uint64_t a = word(), rc = below(2) << 56, lean = below(2) << 47;
    switch (below(3)) {
    case 0: try_alike(a, word()); break;
    case 1: try_alike(a, a ^ rc ^ lean); break;
    default: try_alike(a, a ^ (uint64_t)1 << below(64));
    }
}

/* A record's longhand, or random bytes, of which many have a length that fits and a kind that is known; then some are changed. */
static size_t spelled(const layout *l, uint8_t bytes[64]) {
    size_t count = 21;
    for (int k = 0; k < 64; k++) bytes[k] = (uint8_t)next();
    if (below(4) == 0 || rule_longhand_write(l->record, l->count, bytes)) {
        count = below(65);
        if (below(8)) bytes[0] = (uint8_t)(below(2) ? 17 : count - 4), bytes[1] = bytes[2] = bytes[3] = 0;
        if (below(2)) bytes[4] = 1, bytes[5] = 0;
    }
    for (int spoils = (int)below(5); spoils > 2; spoils--) {
        uint64_t at = below(21);
        bytes[at] = (uint8_t)(below(2) ? wild() : bytes[at] ^ 1u << below(8));
    }
    switch (below(8)) {
    case 0: return below(count + 1);
    case 1: return count + below(64 - count + 1);
    default: return count;
    }
}

static void longhand(const layout *l) {
    uint8_t bytes[64];
    size_t count = spelled(l, bytes), record_room = room(10);
    try_longhand_read(bytes, count, record_room, room(1));
}

/* To other shifts and another pitch, mostly good ones; also to those that it has. */
static void change(const layout *l) {
    layout to = *l;
    if (below(4)) to.x = (uint32_t)below(2), to.y = (uint32_t)below(2), to.pitch += below(40);
    if (below(4) == 0) to.x = (uint32_t)wild();
    if (below(4) == 0) to.pitch = wild();
    try_change(l, to.x, to.y, to.pitch);
}

static void clear(void) {
    layout l = some(), own;
    try_clear(&l, near(rule_handed(&l, &own) ? below(300) : rule_end(&own)));
}

/* One of so many, mostly the first, the last or any; also the one after the last, and wild ones. */
static uint64_t one_of(uint64_t count) {
    uint64_t last = count ? count - 1 : 0;
    switch (below(10)) {
    case 0: return wild();
    case 1: return last + 1;
    case 2: case 3: return 0;
    case 4: case 5: case 6: return last;
    default: return below(last + 1);
    }
}

/* A row's level, plane and place, mostly of a row that a good layout has; and how long its frame is said to be. */
typedef struct {
    uint32_t level;
    size_t plane, y, frame;
} looked_up;

static looked_up look_up(const layout *l, int good, size_t need) {
    size_t numbers[LAYOUT] = {1}, most = 1, rows = 6;
    if (good) rule_numbers(l, numbers);
    looked_up at = {.level = (uint32_t)one_of(numbers[0])};
    if (good && at.level < numbers[0]) {
        rows = numbers[6 + 3 * at.level];
        if (at.level == 0) most = (size_t)(l->record[0] * l->record[0]);
    }
    at.plane = one_of(most), at.y = one_of(rows), at.frame = below(3) ? need : below(2) ? need - 1 : wild();
    return at;
}

static void row(int whole) {
    layout l = some(), own;
    int good = !rule_handed(&l, &own);
    looked_up at = look_up(&own, good, good ? rule_end(&own) : below(300));
    if (whole) try_level_plane(&l, at.frame, at.level, at.plane, room(4));
    else try_row(&l, at.frame, at.level, at.plane, at.y, room(2));
}

/* A source pitch that fits a good layout, mostly a narrow one. */
static size_t source_pitch(const layout *l) {
    size_t least = (size_t)(l->record[8] >> l->x);
    if (!least) least = 1;
    int64_t more = (int64_t)below(40);
    return least + (size_t)PICK(0, 0, 0, 1, 2, 3, more);
}

/* About half of the lengths where they are to be spoilt, and all that the test has no room for. */
static void spoil_lengths(size_t *const of[], int count, int spoilt) {
    for (int k = 0; k < count; k++) if (*of[k] > MOST || (spoilt && below(2))) *of[k] = near(*of[k]);
}

static void spoil_pitch(size_t *pitch) { *pitch = below(2) ? *pitch - 1 - below(3) : wild(); }

static void build(void) {
    layout l = some(), own;
    size_t needs[2] = {16, 512}, end = below(300), source = below(300), src_pitch = below(40);
    if (!rule_handed(&l, &own)) {
        src_pitch = source_pitch(&own);
        rule_needs(&own, needs), end = rule_end(&own), source = rule_source(&own, src_pitch);
    }
    int spoilt = below(3) == 0;
    lengths n = {end, needs[0], needs[1], source, src_pitch};
    spoil_lengths((size_t *[]){&n.frame, &n.spill, &n.scratch, &n.src}, 4, spoilt);
    if (spoilt && below(4) == 0) spoil_pitch(&n.src_pitch);
    try_build(&l, &n);
}

/* Where the parts lie, or some numbers where a record has none. */
static int parted(const layout *l, size_t parts[12]) {
    int good = !rule_three(l);
    if (good) rule_parts(l, parts);
    else parts[9] = below(300), parts[10] = 16, parts[11] = 512;
    return good;
}

static void frame_row(void) {
    layout l = some();
    size_t parts[12];
    int good = parted(&l, parts);
    uint32_t of = (uint32_t)one_of(3);
    layout part = rule_part(&l, of == 1 || of == 2);
    looked_up at = look_up(&part, good, parts[9]);
    try_frame_row(&l, at.frame, of, at.level, at.plane, at.y, room(2));
}

static void build_frame(void) {
    layout l = some();
    size_t parts[12];
    frame_lengths n = {0};
    int good = parted(&l, parts);
    for (int k = 0; k < 3; k++) {
        layout part = rule_part(&l, k);
        n.src_pitch[k] = good ? source_pitch(&part) : below(40);
        n.src[k] = good ? rule_source(&part, n.src_pitch[k]) : below(300);
    }
    n.frame = parts[9], n.spill = parts[10], n.scratch = parts[11];
    int spoilt = below(3) == 0;
    /* Where all are spoilt a source mostly hides the rest: half of the time it is one length alone. */
    int alone = spoilt && below(2);
    size_t *of[] = {&n.frame, &n.spill, &n.scratch, &n.src[0], &n.src[1], &n.src[2]};
    if (alone) spoil_lengths(of + below(6), 1, 1);
    spoil_lengths(of, 6, spoilt && !alone);
    if (spoilt && below(4) == 0) spoil_pitch(&n.src_pitch[below(3)]);
    /* Bytes past the third part. */
    if (!spoilt && below(3) == 0 && n.frame + 80 <= MOST) n.frame += below(80);
    try_build_frame(&l, &n);
}

static void one(int call) {
    layout l = some();
    where = (spot)below(SPOTS);
    switch (call) {
    case CHECK: check(); break;
    case ACCEPTED: try_accepted(&l); break;
    case PACK: try_pack(&l, room(1)); break;
    case READ: read_back(); break;
    case ALIKE: alike(); break;
    case LONGHAND_WRITE: try_longhand_write(&l, room(21)); break;
    case LONGHAND_READ: longhand(&l); break;
    case SIZES: try_sizes(&l, room(2)); break;
    case MAKE: try_make(&l, room(LAYOUT)); break;
    case CHANGE: change(&l); break;
    case END: try_end(&l, room(1)); break;
    case NEEDS: try_needs(&l, room(2)); break;
    case CLEAR: clear(); break;
    case ROW: row(0); break;
    case LEVEL_PLANE: row(1); break;
    case PARTS: try_parts(&l, room(12)); break;
    case FRAME_ROW: frame_row(); break;
    case BUILD_FRAME: build_frame(); break;
    default: build();
    }
}

/* The numbers that each call can give, as bits; 14 is no accepted record's. Of prepare_alike the two answers. */
static const uint64_t can[CALLS] = {
    [CHECK] = 0x803f, [ACCEPTED] = 0x41, [PACK] = 0x8041, [READ] = 0x708001, [ALIKE] = 3, [LONGHAND_WRITE] = 0x8041,
    [LONGHAND_READ] = 0x78001, [SIZES] = 0x8041, [MAKE] = 0x81c1, [CHANGE] = 0x1000001c1, [END] = 0x100008041, [NEEDS] = 0x100008041,
    [CLEAR] = 0x100000841, [ROW] = 0x100088841, [LEVEL_PLANE] = 0x100088841, [BUILD] = 0x100003e41, [PARTS] = 0x1808041,
    [FRAME_ROW] = 0x1888841, [BUILD_FRAME] = 0x1803e41,
};

/* From so many calls on, each of those numbers has to be met. */
enum { ENOUGH = 100000 };

void random_calls(uint64_t count) {
    /* Nine of 26 calls are builds: five of one plane, four of three. */
    for (uint64_t k = 0; k < count; k++) one(k % 26 < CALLS ? (int)(k % 26) : k % 26 < CALLS + 4 ? BUILD : BUILD_FRAME);
    tell("numbers met");
    for (int call = 0; call < CALLS; call++) {
        printf("door: %s:", names[call]);
        for (int n = 0; n < NUMBERS; n++) {
            if (met[call][n]) printf(" %d: %llu", n, (unsigned long long)met[call][n]);
            int may = can[call] >> n & 1;
            if (met[call][n] ? !may : may && count >= ENOUGH) failed("%s: number %d was met %llu times", names[call], n, (unsigned long long)met[call][n]);
        }
        putchar('\n');
    }
}
