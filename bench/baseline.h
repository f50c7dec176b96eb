// The C baselines: plain C, and a decoder with SSE2 intrinsics. Each call makes the tests of the library's call of the
// same name, in the same order, gives the same answer and clears what the library clears.
#ifndef BASELINE_H
#define BASELINE_H

#include "flips.h"

#include <stddef.h>
#include <stdint.h>

typedef uint64_t decode_call(const uint8_t *mask, size_t mask_length, const uint8_t *plan, size_t plan_length,
                             size_t sweeps, const int16_t *llrs, size_t llrs_length, int32_t *soft, size_t soft_length,
                             uint8_t *hard, size_t hard_length, uint8_t *payload, size_t payload_length, int32_t *work,
                             size_t work_length);
typedef uint64_t encode_call(const uint8_t *mask, size_t mask_length, const uint8_t *payload, size_t payload_length,
                             uint8_t *word, size_t word_length);
typedef uint64_t transform_call(uint8_t *bits, size_t bits_length);
typedef uint64_t plan_call(const uint8_t *mask, size_t mask_length, uint8_t *plan, size_t plan_length,
                           uint32_t *counts);
typedef uint64_t samples_call(const float *samples, size_t samples_length, const uint8_t *marks, size_t marks_length,
                              float variance, int16_t *llrs, size_t llrs_length);

typedef uint64_t mask_call(size_t n, size_t k, uint8_t *mask, size_t mask_length);
typedef uint64_t distance_call(size_t n, size_t k, size_t d, uint8_t *mask, size_t mask_length);

typedef uint64_t erasure_call(size_t n, size_t k, double z, uint8_t *mask, size_t mask_length);
typedef uint64_t flip_call(const uint8_t *mask, size_t mask_length, size_t sweeps, size_t attempts,
                           const int16_t *llrs, size_t llrs_length, uint8_t *payload, size_t payload_length,
                           int32_t *work, size_t work_length);

typedef uint64_t square_call(const uint8_t *mask, size_t mask_length, size_t half_iterations, const uint8_t *llrs,
                             size_t llrs_length, uint8_t *out, size_t out_length);

decode_call plain_decode, sse2_decode;
flip_call sse2_flip;
encode_call plain_encode;
transform_call plain_transform;
plan_call plain_plan;
samples_call plain_samples;
mask_call plain_mask_by_weight;
distance_call plain_mask_for_distance;
erasure_call plain_mask_by_erasure;
square_call plain_square;

// What the lines of a code have in common: the mask with every frozen position frozen to 0, where the word of the
// frozen values has a 1, the planner's plan, and the cycles of a sweep along it.
typedef struct {
    const uint8_t *mask;
    size_t n;
    int t; // the exponent of n
    uint32_t cycles;
    flips ones;
    uint8_t plan[2 * 1024];
} plain_code;

// From an allowed mask, which must stay as long as the code is used. The soft values of one fresh sweep over a line go
// to the first n of n(t + 3) words of work. Neither makes a test.
void plain_prepare(plain_code *c, const uint8_t *mask, size_t n);
void plain_line(const plain_code *c, const int16_t *llrs, int32_t *work);

#endif
