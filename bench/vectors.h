// What the two baselines with SSE2 intrinsics share: soft values by four, the children's lists and the node's message.
#ifndef VECTORS_H
#define VECTORS_H

#include <emmintrin.h>
#include <stddef.h>
#include <stdint.h>

#define CERTAIN INT32_MAX
#define INLINE static inline __attribute__((always_inline))

typedef __m128i vector;

INLINE vector load(const int32_t *p) { return _mm_loadu_si128((const vector *)p); }
INLINE void store(int32_t *p, vector v) { _mm_storeu_si128((vector *)p, v); }

INLINE vector choose(vector where, vector a, vector b) {
    return _mm_or_si128(_mm_and_si128(where, a), _mm_andnot_si128(where, b));
}

INLINE vector least_of(vector a, vector b) { return choose(_mm_cmplt_epi32(a, b), a, b); }
INLINE vector largest_of(vector a, vector b) { return choose(_mm_cmpgt_epi32(a, b), a, b); }

INLINE vector size_of(vector a) {
    vector sign = _mm_srai_epi32(a, 31);
    return _mm_sub_epi32(_mm_xor_si128(a, sign), sign);
}

INLINE vector box(vector a, vector b) {
    vector low = least_of(a, b), high = largest_of(a, b);
    return largest_of(low, _mm_sub_epi32(_mm_setzero_si128(), high));
}

INLINE vector plus(vector message, vector value) {
    vector certain = _mm_set1_epi32(CERTAIN);
    return _mm_add_epi32(message, _mm_andnot_si128(_mm_cmpeq_epi32(message, certain), value));
}

// The list of the left child: box(L[k], L[k + h] + r[k]); in the first sweep r is zero.
INLINE void left_list(const int32_t *list, const int32_t *right, int32_t *out, size_t h) {
    for (size_t k = 0; k < h; k += 4) store(out + k, box(load(list + k), plus(load(right + k), load(list + k + h))));
}

INLINE void first_left_list(const int32_t *list, int32_t *out, size_t h) {
    for (size_t k = 0; k < h; k += 4) store(out + k, box(load(list + k), load(list + k + h)));
}

// The list of the right child: box(L[k], l[k]) + L[k + h].
INLINE void right_list(const int32_t *list, const int32_t *left, int32_t *out, size_t h) {
    for (size_t k = 0; k < h; k += 4)
        store(out + k, _mm_add_epi32(box(load(list + k), load(left + k)), load(list + k + h)));
}

// The node's message: box(l[k], L[k + h] + r[k]) and r[k] + box(L[k], l[k]).
INLINE void node_message(const int32_t *list, const int32_t *children, int32_t *message, size_t h) {
    for (size_t k = 0; k < h; k += 4) {
        vector first = load(list + k), second = load(list + k + h);
        vector left = load(children + k), right = load(children + k + h);
        store(message + k, box(left, plus(right, second)));
        store(message + k + h, plus(right, box(first, left)));
    }
}

INLINE int32_t small_box(int32_t a, int32_t b) {
    int32_t low = a < b ? a : b, high = a < b ? b : a;
    return low < -high ? -high : low;
}

INLINE int32_t small_plus(int32_t message, int32_t value) { return message == CERTAIN ? CERTAIN : message + value; }

// A routine on h words, the least number of which is 4.
#define COMBINE(routine, h, ...) ((h) == 4 ? routine(__VA_ARGS__, 4) : routine(__VA_ARGS__, h))

static inline int has_lowest(const int16_t *llrs, size_t n) {
    int16_t found = 0;
    for (size_t i = 0; i < n; i++) found |= llrs[i] == INT16_MIN ? -1 : 0;
    return found;
}

// The transform of bits that are followed by zeros up to 16.
static inline void transform(uint8_t *bits, size_t n) {
    for (size_t i = 0; i < n; i += 16) {
        vector x = _mm_loadu_si128((const vector *)(bits + i));
        x = _mm_xor_si128(x, _mm_srli_epi16(x, 8));
        x = _mm_xor_si128(x, _mm_srli_epi32(x, 16));
        x = _mm_xor_si128(x, _mm_srli_epi64(x, 32));
        x = _mm_xor_si128(x, _mm_srli_si128(x, 8));
        _mm_storeu_si128((vector *)(bits + i), x);
    }
    for (size_t h = 16; h < n; h *= 2)
        for (size_t i = 0; i < n; i += 2 * h)
            for (size_t j = i; j < i + h; j += 16) {
                vector a = _mm_loadu_si128((const vector *)(bits + j)),
                       c = _mm_loadu_si128((const vector *)(bits + j + h));
                _mm_storeu_si128((vector *)(bits + j), _mm_xor_si128(a, c));
            }
}

#endif
