/* What the small example hosts share: numbers drawn from one seed, so that each run shows the same link, and a stop where a call refuses.
 * A host defines EXAMPLE, its name, first. */
#ifndef EXAMPLE_H
#define EXAMPLE_H

#include <stdint.h>
#include <stdio.h>
#include <stdlib.h>

static uint64_t example_seed = 1;

/* 31 bits; the low ones of such a product are no good draw. */
static inline uint64_t drawn(void) {
    example_seed = example_seed * 6364136223846793005u + 1442695040888963407u;
    return example_seed >> 33;
}

static inline void must(uint8_t number) {
    if (number) {
        fprintf(stderr, "%s: refused %u\n", EXAMPLE, number);
        exit(1);
    }
}

#endif
