/* One row function, ours or the Rust's, REPEATS times on a row of 1,920 random bytes. Or, with `check`, both of each once: they leave the same bytes.
     rows SIDE FUNCTION K REPEATS      SIDE: ours or rust
     rows check */
#include <stdint.h>
#include <stdio.h>
#include <stdlib.h>
#include <string.h>

enum { N = 1920 };
typedef uint8_t row[N];
#define SIX const uint8_t *, const uint8_t *, const uint8_t *, const uint8_t *, const uint8_t *, const uint8_t *
#define BOTH(name, ...) extern void row_##name(__VA_ARGS__); extern void rust_##name(__VA_ARGS__);
BOTH(means, uint8_t *, const uint8_t *, const uint8_t *)
BOTH(copy, uint8_t *, const uint8_t *)
BOTH(zero, uint8_t *)
BOTH(vertical, uint32_t, uint8_t *, SIX)
extern void row_halved(uint32_t, uint8_t *, const uint8_t *, uint8_t *);
extern void rust_halved(uint32_t, uint8_t *, const uint8_t *);
BOTH(half_along, uint32_t, uint8_t *, const uint8_t *)
BOTH(half_down, uint32_t, uint8_t *, SIX)

static row in[6], out;
static uint8_t split[N + 2];

static void run(int ours, const char *f, uint32_t k, long repeats) {
#define CALL(name, mine, theirs) if (!strcmp(f, #name)) { if (ours) for (; repeats > 0; repeats--) row_##name mine; else for (; repeats > 0; repeats--) rust_##name theirs; return; }
#define ALIKE(name, ...) CALL(name, (__VA_ARGS__), (__VA_ARGS__))
    ALIKE(means, out, in[0], in[1])
    ALIKE(copy, out, in[0])
    ALIKE(zero, out)
    ALIKE(vertical, k, out, in[0], in[1], in[2], in[3], in[4], in[5])
    CALL(halved, (k, out, in[0], split), (k, out, in[0]))
    ALIKE(half_along, k, out, in[0])
    ALIKE(half_down, k, out, in[0], in[1], in[2], in[3], in[4], in[5])
    fprintf(stderr, "no such function: %s\n", f);
    exit(2);
}

static void same(const char *f, uint32_t k) {
    row want;
    memset(out, 1, N);
    run(0, f, k, 1);
    memcpy(want, out, N);
    memset(out, 1, N);
    run(1, f, k, 1);
    if (memcmp(want, out, N)) { printf("%s %u: another row\n", f, k); exit(1); }
}

int main(int argc, char **argv) {
    uint32_t seed = 1;
    for (int i = 0; i < 6; i++) for (int j = 0; j < N; j++) { seed = seed * 1664525u + 1013904223u; in[i][j] = (uint8_t)(seed >> 24); }
    if (argc == 2) {
        same("means", 0), same("copy", 0), same("zero", 0);
        for (uint32_t k = 1; k <= 4; k++) same("vertical", k), same("halved", k);
        for (uint32_t k = 1; k <= 2; k++) same("half_along", k), same("half_down", k);
        return 0;
    }
    if (argc != 5) return 2;
    run(!strcmp(argv[1], "ours"), argv[2], (uint32_t)atoi(argv[3]), atol(argv[4]));
    return 0;
}
