/* A small repeatable random generator (splitmix64), for tests and simulations. Link with -lm. */
#ifndef RANDOM_H
#define RANDOM_H

#include <math.h>
#include <stdint.h>

struct random {
    uint64_t state;
};

static inline uint64_t random_bits(struct random *r) {
    uint64_t z = r->state += 0x9E3779B97F4A7C15u;
    z = (z ^ (z >> 30)) * 0xBF58476D1CE4E5B9u;
    z = (z ^ (z >> 27)) * 0x94D049BB133111EBu;
    return z ^ (z >> 31);
}

/* A number below limit, which is above 0. */
static inline uint64_t random_below(struct random *r, uint64_t limit) { return random_bits(r) % limit; }

/* From low to high, both included. */
static inline int64_t random_from(struct random *r, int64_t low, int64_t high) {
    return low + (int64_t)random_below(r, (uint64_t)(high - low) + 1);
}

/* Strictly between 0 and 1. */
static inline double random_uniform(struct random *r) {
    return ((double)(random_bits(r) >> 11) + 0.5) / 9007199254740992.0;
}

/* True with the given probability. */
static inline int random_chance(struct random *r, double p) { return random_uniform(r) < p; }

/* A standard Gaussian value. */
static inline double random_gauss(struct random *r) {
    double size = sqrt(-2 * log(random_uniform(r)));
    return size * cos(6.283185307179586 * random_uniform(r));
}

/* The generator of one case: seed and case number together decide everything. */
static inline struct random random_case(uint64_t seed, uint64_t number) {
    struct random r = {seed};
    r.state = random_bits(&r) + number * 0xD1342543DE82EF95u;
    random_bits(&r);
    return r;
}

#endif
