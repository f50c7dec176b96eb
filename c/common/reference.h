/*
 * The calls of ruznavo.h again, written from documents 01 and 02 and not from the library: SCAN walked to the last leaf
 * over 64-bit numbers, no plan followed, every definition taken literally. For tests and simulations.
 *
 * Each ref_ call returns the refusal number. A refused call writes nothing, and sets its other results to 0.
 */
#ifndef REFERENCE_H
#define REFERENCE_H

#include <stddef.h>
#include <stdint.h>

enum { REF_MAX_N = 1024, REF_MAX_STAGE = 10, REF_MAX_SWEEPS = 8, REF_KINDS = 8 };

/* Mask bytes. The kinds of nodes see both frozen ones alike. */
enum { REF_UNFROZEN = 0, REF_ZERO = 1, REF_ONE = 2 };

/* Of flip attempts: the bits of the CRC, and the most attempts. */
enum { REF_CRC = 8, REF_MAX_ATTEMPTS = 31 };

/* Of captures: the drains, and the room that is asked for the text of their totals. */
enum { REF_DRAINS = 64, REF_MAX_REPLAY = 6720 };

/* n of N = 2^n, from 1 to 10; 0 of any other number. */
int ref_exponent(size_t N);

/* K, the number of unfrozen positions. */
size_t ref_unfrozen(const uint8_t *mask, size_t N);

/* word becomes u times the polar matrix; both have N bytes. */
void ref_transform(const uint8_t *u, uint8_t *word, size_t N);

/* The word of the frozen values, zeros elsewhere. */
void ref_known_word(const uint8_t *mask, uint8_t *word, size_t N);

/* The kind of a node with m positions of the mask, in request No. 4's order; -1 for none. */
int ref_kind(const uint8_t *mask, size_t m);

/* The kind of node p of the tree over a mask of N positions. */
int ref_node_kind(const uint8_t *mask, size_t N, size_t p);

/* Soft values after a number of sweeps, for accepted inputs. INT32_MAX is "certain", and -INT32_MAX certain of a 1. */
void ref_scan(const uint8_t *mask, size_t N, const int16_t *llrs, size_t sweeps, int32_t *soft);

int ref_samples(const float *samples, size_t N, const uint8_t *marks, size_t marks_length, float variance,
                int16_t *llrs, size_t room);

int ref_encode(const uint8_t *mask, size_t N, const uint8_t *payload, size_t payload_length, uint8_t *word,
               size_t room);

/* The mask by row weight. */
int ref_mask_by_weight(size_t N, size_t K, uint8_t *mask, size_t room);

/* The same mask for the wanted distance d; found is 0 where there is none. Where K and N are small every payload is tried. */
int ref_mask_for_distance(size_t N, size_t K, size_t d, uint8_t *mask, size_t room, int *found);

/* The mask from an erasure rate z. */
int ref_mask_by_erasure(size_t N, size_t K, double z, uint8_t *mask, size_t room);

/* counts, of REF_KINDS words, is left as it was by a refused call. */
int ref_plan(const uint8_t *mask, size_t N, uint8_t *plan, size_t room, uint32_t *counts, uint32_t *cycles);

int ref_check_plan(const uint8_t *mask, size_t N, const uint8_t *plan, size_t plan_length, uint32_t *cycles);

/* work is only measured and cleared; undecided is the number of hard bits that are 2. */
int ref_decode(const uint8_t *mask, size_t N, const uint8_t *plan, size_t plan_length, size_t sweeps,
               const int16_t *llrs, size_t llrs_length, int32_t *soft, size_t soft_room, uint8_t *hard,
               size_t hard_room, uint8_t *payload, size_t payload_room, int32_t *work, size_t words, uint32_t *cycles,
               int *check, size_t *undecided);

/* Whether K bits, the first as the highest power, are a multiple of request No. 11's polynomial over bits. */
int ref_crc_matches(const uint8_t *bits, size_t K);

/* The last 8 of K bits become such that all K are a multiple. */
void ref_crc_append(uint8_t *bits, size_t K);

/* Flip attempts: whether a pass matched, and which one, or how many attempts were made. work is only measured and
 * cleared. */
int ref_flip(const uint8_t *mask, size_t N, size_t sweeps, size_t attempts, const int16_t *llrs, size_t llrs_length,
             uint8_t *payload, size_t payload_room, int32_t *work, size_t words, int *matched, size_t *tries);

/* The text goes to the front of out; `written` is its length. */
int ref_replay(const uint8_t *capture, size_t length, uint8_t *out, size_t room, size_t *written);

#endif
