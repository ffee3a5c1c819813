/* Slices as a caller could lend them: each in a room of its own between two unmapped pages, with guard bytes around it.
   A byte read or written past a slice that touches an unmapped page ends the test; a byte written beside another one is seen afterwards.
   In order: random numbers; messages and signals; rooms and their fences; lending; what a slice is held to afterwards. */
#include <signal.h>
#include <stdarg.h>
#include <stdio.h>
#include <stdlib.h>
#include <string.h>
#include <sys/mman.h>
#include <sys/wait.h>
#include <unistd.h>

#include "door.h"

enum { GUARD = 64, FENCED = 3 };
static size_t page, room_size;

spot where;
static uint64_t state;
static char told[1024];

void seed(uint64_t s) { state = s; }

/* SplitMix64, so that a seed gives the same calls on every machine. */
uint64_t next(void) {
    uint64_t z = state += 0x9e3779b97f4a7c15;
    z = (z ^ z >> 30) * 0xbf58476d1ce4e5b9;
    z = (z ^ z >> 27) * 0x94d049bb133111eb;
    return z ^ z >> 31;
}

uint64_t below(uint64_t n) { return next() % n; }

/* What the call is, for a failure's message. */
void tell(const char *what, ...) {
    va_list args;
    va_start(args, what);
    vsnprintf(told, sizeof told, what, args);
    va_end(args);
}

void tell_more(const char *what, ...) {
    va_list args;
    va_start(args, what);
    size_t length = strlen(told);
    vsnprintf(told + length, sizeof told - length, what, args);
    va_end(args);
}

void failed(const char *what, ...) {
    va_list args;
    va_start(args, what);
    printf("door: %s: ", told);
    vprintf(what, args);
    putchar('\n');
    va_end(args);
    exit(1);
}

static void ended(int number) {
    if (number == SIGSEGV || number == SIGBUS) failed("a byte outside every slice was touched");
    failed("it ended in signal %d; the Rust ends so where it panics", number);
}

void watch(void) {
    static const int all[] = {SIGSEGV, SIGBUS, SIGABRT, SIGFPE, SIGILL};
    for (size_t k = 0; k < sizeof all / sizeof *all; k++) signal(all[k], ended);
}

static void fenced(int number) {
    (void)number;
    _exit(FENCED);
}

/* A fence that let a byte be read would find nothing: a child that reads one has to fault. */
static void fence(const lent *l, const volatile uint8_t *byte, const char *which) {
    int status = 0;
    pid_t child = fork();
    if (child == 0) {
        signal(SIGSEGV, fenced), signal(SIGBUS, fenced);
        (void)*byte;
        _exit(0);
    }
    if (child < 0 || waitpid(child, &status, 0) != child) failed("no child to try the fences");
    if (!WIFEXITED(status) || WEXITSTATUS(status) != FENCED) failed("%s: a byte %s its room can be read", l->name, which);
}

void lent_open(lent *l, const char *name) {
    page = (size_t)sysconf(_SC_PAGESIZE), room_size = MOST + page;
    l->name = name;
    tell("the room of %s", name);
    l->room = mmap(NULL, room_size + 2 * page, PROT_NONE, MAP_PRIVATE | MAP_ANONYMOUS, -1, 0);
    l->before = malloc(MOST);
    if (l->room == MAP_FAILED || !l->before || mprotect(l->room + page, room_size, PROT_READ | PROT_WRITE)) failed("no memory for %s", name);
    l->room += page;
    fence(l, l->room - 1, "before"), fence(l, l->room + room_size, "after");
}

static uint8_t guard(const uint8_t *at) { return (uint8_t)(0xa5 ^ (uintptr_t)at * 7); }

/* The guard bytes before and after a slice, as far as they lie in its room. */
static void guards(const lent *l, uint8_t *ends[4]) {
    uint8_t *end = l->at + l->bytes, *last = l->room + room_size;
    ends[0] = l->at - l->room > GUARD ? l->at - GUARD : l->room;
    ends[1] = l->at;
    ends[2] = end;
    ends[3] = last - end > GUARD ? end + GUARD : last;
}

static void *placed(lent *l, size_t bytes) {
    if (bytes > MOST) failed("%s: %zu bytes are more than the test has room for", l->name, bytes);
    l->bytes = bytes;
    l->at = where == AT_START ? l->room : where == AT_END ? l->room + room_size - bytes : l->room + 2 * GUARD;
    uint8_t *ends[4];
    guards(l, ends);
    for (int k = 0; k < 4; k += 2) for (uint8_t *p = ends[k]; p < ends[k + 1]; p++) *p = guard(p);
    if (bytes) return l->at;
    /* A slice of no elements: its pointer isn't looked at. */
    void *none[] = {NULL, l->room - page, l->room + room_size, (void *)1};
    return none[below(4)];
}

/* Lends so many bytes, random ones; sometimes 0 and 255 alone, where sums are held. */
void *lend(lent *l, size_t bytes) {
    void *p = placed(l, bytes);
    int ends = below(4) == 0;
    for (size_t k = 0; k < bytes; k += 8) {
        uint64_t eight = ends ? (next() & 0x0101010101010101) * 255 : next();
        memcpy(l->before + k, &eight, bytes - k < 8 ? bytes - k : 8);
    }
    if (bytes) memcpy(l->at, l->before, bytes);
    return p;
}

void *lend_copy(lent *l, const void *of, size_t bytes) {
    void *p = placed(l, bytes);
    if (bytes) memcpy(l->before, of, bytes), memcpy(l->at, of, bytes);
    return p;
}

static void same(const lent *l, size_t from, const uint8_t *want, size_t bytes, const char *what) {
    if (!bytes || !memcmp(l->at + from, want, bytes)) return;
    size_t k = 0;
    while (l->at[from + k] == want[k]) k++;
    failed("%s: %s: byte %zu is %d, not %d", l->name, what, from + k, l->at[from + k], want[k]);
}

/* The guard bytes are as they were. */
void lent_guarded(const lent *l) {
    uint8_t *ends[4];
    guards(l, ends);
    for (int k = 0; k < 4; k += 2) for (uint8_t *p = ends[k]; p < ends[k + 1]; p++) {
        if (*p != guard(p)) failed("%s: a byte outside the slice was changed, at %td of %zu", l->name, p - l->at, l->bytes);
    }
}

/* The bytes from one place to another are as they were. */
void lent_same(const lent *l, size_t from, size_t to) { same(l, from, l->before + from, to - from, "changed"); }

/* Those bytes are as they were, or 0. */
void lent_cleared(const lent *l, size_t from, size_t to) {
    for (size_t k = from; k < to; k++) {
        if (l->at[k] && l->at[k] != l->before[k]) failed("%s: byte %zu is %d, neither 0 nor %d", l->name, k, l->at[k], l->before[k]);
    }
}

/* The front is this value; the rest and the guard bytes are as they were. */
void lent_front(const lent *l, const void *value, size_t bytes) {
    lent_guarded(l);
    if (bytes > l->bytes) failed("%s: the answer is longer than its slice", l->name);
    same(l, 0, value, bytes, "another answer");
    lent_same(l, bytes, l->bytes);
}

void lent_kept(const lent *l) { lent_front(l, NULL, 0); }

void lent_is(const lent *l, const void *value) { lent_front(l, value, l->bytes); }

void lent_zero(const lent *l) {
    static const uint8_t zeros[MOST];
    lent_is(l, zeros);
}
