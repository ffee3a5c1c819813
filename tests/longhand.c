/* Longhand records: document 02's order 1. Every call is held to rules.c, and the numbers that can be told by hand are told here; the Rust has
   no such record.
   In order: the sample of records; bytes by hand; writing; reading back, cut short and with more behind; each byte damaged; other kinds and
   lengths; short slices; one record after another; all of them. */
#include <stdio.h>
#include <string.h>

#include "door.h"
#include "sillcandle.h"

enum { LONG = SILL_COUNT_LONGHAND, SAMPLES = 84 };
static layout sample[SAMPLES];
static uint8_t longhand[SAMPLES][LONG];

/* Every pel, gpu and flags that are accepted together, three times with other sizes and filters. */
static void samples(void) {
    static const int32_t sizes[][2] = {{64, 48}, {1, 1}, {16384, 16384}, {3, 100}, {4, 4}, {255, 256}, {257, 16383}, {8192, 1}, {640, 480}, {1920, 1080}, {16384, 4}};
    static const int32_t filters[] = {0, 1, 2, 3, 4, 5, -1, 255, -256, 65536, 0x01020304, INT32_MAX, INT32_MIN};
    int found = 0;
    for (int k = 0; k < 3 * 72; k++) {
        int lean = k & 1, rc = k >> 1 & 1, full = k >> 2 & 1, gpu = k / 8 % 3, pel = 1 << k / 24 % 3;
        int32_t set[7] = {pel, gpu, lean ? 4 : filters[found % 13], filters[found * 5 % 13], full, rc, lean};
        const int32_t *size = sizes[found % 11];
        layout l = {.count = 10};
        if (rule_check(127, set, size[0], size[1], l.record)) continue;
        if (found == SAMPLES || rule_longhand_write(l.record, 10, longhand[found])) failed("fixed case: another sample");
        sample[found++] = l;
    }
    if (found != SAMPLES) failed("fixed case: %d records in the sample", found);
}

/* Document 01's 64x48 with the defaults, and the extremes. */
static void by_hand(void) {
    static const struct { int32_t set[7], width, height; uint8_t bytes[LONG]; } cases[] = {
        {{2, 1, 4, 0, 1, 0, 0}, 64, 48, {17, 0, 0, 0, 1, 0, 64, 0, 48, 0, 2, 1, 1, 4, 0, 0, 0, 0, 0, 0, 0}},
        {{4, 0, INT32_MIN, INT32_MAX, 1, 1, 0}, 16384, 257, {17, 0, 0, 0, 1, 0, 0, 64, 1, 1, 4, 0, 3, 0, 0, 0, 128, 255, 255, 255, 127}},
        {{1, 2, -2, 0, 0, 1, 0}, 1, 16383, {17, 0, 0, 0, 1, 0, 1, 0, 255, 63, 1, 2, 2, 254, 255, 255, 255, 0, 0, 0, 0}},
        {{1, 1, 4, 0, 1, 0, 1}, 4, 4, {17, 0, 0, 0, 1, 0, 4, 0, 4, 0, 1, 1, 5, 4, 0, 0, 0, 0, 0, 0, 0}},
    };
    for (size_t k = 0; k < sizeof cases / sizeof *cases; k++) {
        const int32_t *s = cases[k].set;
        int32_t record[10], back[10];
        uint8_t bytes[LONG];
        size_t after = 0;
        tell("longhand by hand, %zu", k);
        is(sill_check(127, s[0], s[1], s[2], s[3], s[4], s[5], s[6], cases[k].width, cases[k].height, record, 10), 0);
        is(sill_longhand_write(record, 10, bytes, LONG), 0);
        if (memcmp(bytes, cases[k].bytes, LONG)) failed("fixed case: another longhand record");
        is(sill_longhand_read(cases[k].bytes, LONG, back, 10, &after, 1), 0);
        if (memcmp(record, back, sizeof back) || after != LONG) failed("fixed case: another record came back");
    }
}

static void written(void) {
    for (int k = 0; k < SAMPLES; k++) for (size_t room = 0; room <= 22; room++) is(try_longhand_write(&sample[k], room), room < LONG ? 15 : 0);
}

/* The record, cut to each length; and with so many bytes behind it, which aren't looked at. */
static void read_back(void) {
    uint8_t bytes[LONG + 21];
    for (int k = 0; k < SAMPLES; k++) {
        for (size_t count = 0; count < LONG; count++) is(try_longhand_read(longhand[k], count, 10, 1), 15);
        memcpy(bytes, longhand[k], LONG);
        for (size_t at = LONG; at < sizeof bytes; at++) bytes[at] = (uint8_t)next();
        for (size_t count = LONG; count <= sizeof bytes; count++) is(try_longhand_read(bytes, count, 10, 1), 0);
    }
}

/* Each byte of each record with each other value. Another length is 15 or 17, another kind 16; other contents are 18 or another record. */
static void damaged(void) {
    for (int k = 0; k < SAMPLES; k++) for (int at = 0; at < LONG; at++) for (int by = 1; by < 256; by++) {
        uint8_t bytes[LONG];
        memcpy(bytes, longhand[k], LONG), bytes[at] ^= by;
        where = (spot)((at + by) % SPOTS);
        uint32_t got = try_longhand_read(bytes, LONG, 10, 1);
        if (at < 4) is(got, at || bytes[0] > 17 ? 15 : 17);
        else if (at < 6) is(got, 16);
        else if (got) is(got, 18);
    }
}

static void framed(uint8_t *bytes, uint32_t length, uint32_t kind) {
    for (int n = 0; n < 4; n++) bytes[n] = (uint8_t)(length >> 8 * n);
    bytes[4] = (uint8_t)kind, bytes[5] = (uint8_t)(kind >> 8);
}

/* Other kinds and lengths before good contents, in slices that end a byte before, at and after the record's end. */
static void frames(void) {
    static const uint32_t kinds[] = {0, 1, 2, 3, 255, 256, 257, 513, 65535};
    static const uint32_t larger[] = {255, 256, 257, 273, 4096, 65535, 65536, 65553};
    static uint8_t bytes[4 + 65553 + 1];
    memcpy(bytes, longhand[0], LONG);
    for (size_t k = 0; k < sizeof kinds / sizeof *kinds; k++) for (uint32_t n = 0; n < 48; n++) {
        uint32_t length = n < 40 ? n : larger[n - 40];
        framed(bytes, length, kinds[k]);
        for (size_t count = 3 + (size_t)length; count <= 5 + (size_t)length; count++) {
            uint32_t no = count < 4 + (size_t)length ? 15 : length < 2 ? 17 : kinds[k] != 1 ? 16 : length != 17 ? 17 : 0;
            is(try_longhand_read(bytes, count, 10, 1), no);
        }
    }
    /* Lengths near 2^31 and 2^32: taken as signed, or with 4 added in 32 bits, they would seem to fit. */
    static const uint32_t vast[] = {0x7fffffff, 0x80000000, 0xfffffffb, 0xfffffffc, 0xfffffffd, 0xfffffffe, 0xffffffff};
    for (size_t k = 0; k < sizeof vast / sizeof *vast; k++) for (uint32_t kind = 0; kind < 3; kind++) {
        framed(bytes, vast[k], kind);
        for (size_t count = 0; count <= 24; count++) is(try_longhand_read(bytes, count, 10, 1), 15);
    }
}

/* A slice too short for its answer is 15 before 16, 17 and 18, also where it wouldn't be written. */
static void short_slices(void) {
    static const struct { uint32_t number, length, kind; uint8_t pel; } cases[] = {{0, 17, 1, 2}, {15, 18, 1, 2}, {16, 17, 2, 2}, {17, 1, 2, 2}, {17, 16, 1, 2}, {18, 17, 1, 3}};
    for (size_t k = 0; k < sizeof cases / sizeof *cases; k++) {
        uint8_t bytes[LONG] = {0, 0, 0, 0, 0, 0, 64, 0, 48, 0, cases[k].pel, 1, 1, 4};
        framed(bytes, cases[k].length, cases[k].kind);
        for (size_t room = 0; room <= 12; room++) for (size_t after = 0; after <= 3; after++) {
            is(try_longhand_read(bytes, LONG, room, after), room < 10 || after < 1 ? 15 : cases[k].number);
        }
    }
}

/* A reader goes from place to place, behind kinds that it doesn't know. */
static void in_a_row(void) {
    uint8_t bytes[LONG + 6 + LONG + 106 + 5];
    static const size_t ends[] = {LONG, LONG + 6, LONG + 6 + LONG, LONG + 6 + LONG + 106};
    static const uint32_t numbers[] = {0, 16, 0, 16};
    for (size_t at = 0; at < sizeof bytes; at++) bytes[at] = (uint8_t)next();
    memcpy(bytes, longhand[1], LONG), framed(bytes + ends[0], 2, 7), memcpy(bytes + ends[1], longhand[2], LONG), framed(bytes + ends[2], 102, 65535);
    memset(bytes + ends[3], 2, 5);
    size_t at = 0;
    for (int k = 0; k < 4; k++) {
        int32_t record[10];
        size_t after = 0;
        is(try_longhand_read(bytes + at, sizeof bytes - at, 10, 1), numbers[k]);
        is(sill_longhand_read(bytes + at, sizeof bytes - at, record, 10, &after, 1), numbers[k]);
        at += after;
        if (at != ends[k]) failed("fixed case: the place after record %d is %zu", k, at);
        if (!numbers[k] && memcmp(record, sample[1 + k / 2].record, sizeof record)) failed("fixed case: another record %d", k);
    }
    is(try_longhand_read(bytes + at, sizeof bytes - at, 10, 1), 15), is(try_longhand_read(bytes, 0, 10, 1), 15);
}

void longhand_cases(void) {
    samples();
    by_hand();
    for (where = AT_START; where < SPOTS; where++) written(), read_back(), frames(), short_slices(), in_a_row();
    damaged();
    printf("door: %d longhand records, each cut to every length and with every byte changed to every other: as told\n", SAMPLES);
}
