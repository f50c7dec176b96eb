/* Masks and plans for tests and simulations. */
#ifndef CODES_H
#define CODES_H

#include "random.h"

#include <stddef.h>
#include <stdint.h>

/*
 * A polar code for an erasure channel: of N positions, N a power of two up to 1024, the N - K with the largest erasure
 * rates are frozen. The rates come from the channel's rate, from the index's top bit down.
 */
void code_for_erasures(uint8_t *mask, size_t N, size_t K, double rate);

/*
 * A polar code by polarization weight, which the masks of cellular standards resemble: the N - K positions with the
 * least weights are frozen. The weight of an index is the sum of 2^(b / 4) over its bits b that are 1, bit 0 the
 * lowest. Up to N = 1024 no two weights are equal: the nearest differ by 0.0028, which double precision tells apart.
 */
void code_by_polarization(uint8_t *mask, size_t N, size_t K);

/* A mask of one of several shapes: even density, one node of a kind, a polar code, a run, or nodes of kinds side by
 * side. In most masks some or all frozen positions are frozen to 1. */
void random_mask(struct random *r, uint8_t *mask, size_t N);

/* Plans of 2N bytes that are allowed for the mask. */
void leaf_plan(uint8_t *plan, size_t N);
void random_plan(struct random *r, const uint8_t *mask, size_t N, uint8_t *plan);

#endif
