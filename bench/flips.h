// Positions frozen to 1, which the C baselines leave to the root: LLRs, soft values and hard bits are flipped where the
// word of the frozen values has a 1, and in between every frozen position is frozen to 0. A mask without a 2 costs
// nothing but the test of its largest byte.
#ifndef FLIPS_H
#define FLIPS_H

#include <stddef.h>
#include <stdint.h>
#include <string.h>

// Where there is a 2: the mask with 1 in the place of each 2, and the frozen values, which become their word.
typedef struct {
    int any;
    uint8_t mask[1024], word[1024];
} flips;

static inline uint8_t largest_byte(const uint8_t *bytes, size_t n) {
    uint8_t largest = 0;
    for (size_t i = 0; i < n; i++) largest = bytes[i] > largest ? bytes[i] : largest;
    return largest;
}

// The mask without a 2, for one with this largest byte. Behind fewer than 16 frozen values stand zeros.
static inline const uint8_t *frozen_to_zero(const uint8_t *mask, size_t n, uint8_t largest, flips *f) {
    f->any = largest == 2;
    if (!f->any) return mask;
    memset(f->word, 0, 16);
    for (size_t i = 0; i < n; i++) {
        f->mask[i] = mask[i] != 0;
        f->word[i] = mask[i] >> 1;
    }
    return f->mask;
}

static inline void flip_words(const flips *f, int32_t *words, size_t n) {
    if (!f->any) return;
    for (size_t i = 0; i < n; i++) words[i] = f->word[i] ? -words[i] : words[i];
}

// A 2 stays.
static inline void flip_bits(const flips *f, uint8_t *bits, size_t n) {
    if (!f->any) return;
    for (size_t i = 0; i < n; i++) bits[i] ^= f->word[i] & ~(bits[i] >> 1);
}

#endif
