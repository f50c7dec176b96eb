// Frames for the benchmark and the simulation: the code's mask, and a channel with Gaussian noise.
#ifndef CHANNEL_H
#define CHANNEL_H

#include "random.h"

#include <stddef.h>
#include <stdint.h>

enum { MAX_N = 1024, MAX_STAGE = 10 };

// The mask of the code of length n with k unfrozen positions: that of an erasure channel of rate 1/2 (c/common/codes.h).
void make_mask(uint8_t *mask, size_t n, size_t k);

// The noise variance of a sample at Eb/N0, for sent samples of +1 and -1 and k payload bits in n samples.
double noise_variance(size_t n, size_t k, double ebn0_db);

// Bit 0 as +1, bit 1 as -1, with normal noise of the variance added; the noise is negated where `negated` has a 1.
void transmit(struct random *r, const uint8_t *word, const uint8_t *negated, size_t n, double variance,
              float *samples);

#endif
