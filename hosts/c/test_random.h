/* Random numbers that a seed repeats. */
#ifndef TEST_RANDOM_H
#define TEST_RANDOM_H

#include <stdint.h>
#include <stdlib.h>
#include <time.h>

static uint64_t random_state;

/* The next of the numbers that the seed begins (SplitMix64). */
static inline uint64_t next_random(void) {
    uint64_t z = random_state += 0x9E3779B97F4A7C15;
    z = (z ^ z >> 30) * 0xBF58476D1CE4E5B9;
    z = (z ^ z >> 27) * 0x94D049BB133111EB;
    return z ^ z >> 31;
}

/* One of the numbers from the least to the most. */
static inline uint64_t between(uint64_t least, uint64_t most) { return least + next_random() % (most - least + 1); }

/* A number above the one given, mostly close to it. */
static inline uint64_t above(uint64_t most) {
    switch (between(0, 3)) {
    case 0: return most + 1;
    case 1: return between(most + 1, 2 * most + 9);
    case 2: return between(most + 1, UINT64_MAX);
    default: return UINT64_MAX;
    }
}

/* Begins the random numbers by the seed that SEED gives, or one of the clock; the seed. */
static inline uint64_t begin_random(void) {
    const char *seed = getenv("SEED");
    return random_state = seed == NULL ? (uint64_t)time(NULL) : strtoull(seed, NULL, 10);
}

#endif
