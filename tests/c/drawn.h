/* What tests of random actions share: words of SplitMix64, drawn from `state` on, and failures counted with their place. */
#ifndef DRAWN_H
#define DRAWN_H

#include <inttypes.h>
#include <stdio.h>

static int failures;

#define HOLDS(it) ((it) ? (void)0 : (void)(failures++, printf("%s:%d: %s\n", __FILE__, __LINE__, #it)))

static uint64_t state;

static uint64_t drawn(void) {
    state += UINT64_C(0x9E3779B97F4A7C15);
    uint64_t word = (state ^ (state >> 30)) * UINT64_C(0xBF58476D1CE4E5B9);
    word = (word ^ (word >> 27)) * UINT64_C(0x94D049BB133111EB);
    return word ^ (word >> 31);
}

#endif
