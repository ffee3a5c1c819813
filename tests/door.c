/* The library as a C program meets it: every exported call on good and bad inputs, every slice between guard bytes and unmapped pages.
     door SEED COUNT     COUNT random calls after the fixed ones
   Parts: rules.c what the documents say; lent.c slices; calls.c each call held to both; fixed.c, layouts.c, longhand.c, planes.c, random.c the
   cases; rust.rs the Rust's doors. */
#include <inttypes.h>
#include <stdio.h>
#include <stdlib.h>

#include "door.h"

#ifdef RUST
#define HELD "numbers and answers are those of the rules and, where it has them, the Rust; bytes are the Rust's"
#else
#define HELD "numbers and answers are those of the rules; three planes are as each is built alone, and built bytes weren't compared with others"
#endif

int main(int argc, char **argv) {
    if (argc != 3) return fprintf(stderr, "usage: door SEED COUNT\n"), 2;
    uint64_t from = strtoull(argv[1], NULL, 10), count = strtoull(argv[2], NULL, 10);
    setvbuf(stdout, NULL, _IOLBF, 0);
    printf("door: seed %" PRIu64 "\n", from);
    watch();
    seed(from);
    calls_open();
    fixed_cases();
    random_calls(count);
    printf("door: %" PRIu64 " random calls, seed %" PRIu64 ": " HELD "; no guard byte was changed, no unmapped page touched\n", count, from);
    return 0;
}
