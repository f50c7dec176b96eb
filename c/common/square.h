/*
 * Square frames again, written from request No. 14 and not from the library: an array of soft values for each
 * direction, every line by ref_scan, every sum clamped by itself. For tests, the benchmark and simulations.
 */
#ifndef SQUARE_H
#define SQUARE_H

#include <stddef.h>
#include <stdint.h>

enum { REF_SQUARE_N = 32, REF_PLACES = REF_SQUARE_N * REF_SQUARE_N, REF_HALF_ITERATIONS = 16 };

enum ref_direction { REF_BY_ROWS, REF_BY_COLUMNS, REF_DIRECTIONS };

/* The LLR at a place of a frame's bytes; and its two bytes, written. */
int16_t ref_llr_at(const uint8_t *bytes, size_t place);
void ref_put_llr(uint8_t *bytes, size_t place, int16_t llr);

/* The place of element k of line i, in a frame that is kept by rows. */
size_t ref_square_place(enum ref_direction by, size_t N, size_t i, size_t k);

/*
 * Bits of N times N places become a word of the product code. Payload bits stand where row and column are unfrozen;
 * what stands elsewhere has no influence. 0 where it may be no word: the mask has positions frozen to one, and its last
 * position is frozen.
 */
int ref_square_word(const uint8_t *mask, size_t N, uint8_t *bits);

/* A frame between two half-iterations: the channel's LLRs, the last soft values from each direction, and the inputs and
 * sums of the last half-iteration. INT32_MAX is "certain", and -INT32_MAX certain of a 1. */
struct ref_frame {
    size_t N, half_iterations;
    int16_t channel[REF_PLACES], input[REF_PLACES], sum[REF_PLACES];
    int32_t soft[REF_DIRECTIONS][REF_PLACES];
};

/* For accepted inputs: the frame before the first half-iteration, and the next half-iteration. */
void ref_square_start(struct ref_frame *f, size_t N, const uint8_t *llrs);
void ref_square_next(struct ref_frame *f, const uint8_t *mask);

/* The direction of the half-iteration with this number, from 0 on. */
enum ref_direction ref_direction_of(size_t half_iteration);

/* ruznavo_square, with its answer. A refused call writes nothing. */
uint64_t ref_square(const uint8_t *mask, size_t mask_length, size_t half_iterations, const uint8_t *llrs,
                    size_t llrs_length, uint8_t *out, size_t out_length);

#endif
