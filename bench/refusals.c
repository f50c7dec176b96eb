// Whether a decoder turns down what it must, with the right number and its buffers left as they were.
#include "refusals.h"

#include <string.h>

enum { N = 8, K = 4, WORDS = N * 6 };

// A call of a decode, accepted as it is set up.
typedef struct {
    uint8_t mask[N], plan[2 * N];
    int16_t llrs[N];
    size_t n, plan_length, sweeps, llrs_length, soft_length, hard_length, payload_length, work_length;
} decode_arguments;

typedef struct {
    int32_t soft[N], work[WORDS];
    uint8_t hard[N], payload[K];
} buffers;

// Mask 12101000, cut at its two halves.
static const decode_arguments accepted = {
    {1, 2, 1, 0, 1, 0, 0, 0}, {0, 0, 1, 1}, {3, -2, 5, 1, 4, -6, 2, -1}, N, 2 * N, 1, N, N, N, K, WORDS,
};

static uint64_t call(decode_call *decode, const decode_arguments *a, buffers *b) {
    return decode(a->mask, a->n, a->plan, a->plan_length, a->sweeps, a->llrs, a->llrs_length, b->soft, a->soft_length,
                  b->hard, a->hard_length, b->payload, a->payload_length, b->work, a->work_length);
}

// Damages the call in one way; the number that is due, or 0 past the last way.
static uint64_t damage(decode_arguments *a, int way) {
    switch (way) {
    case 0: a->n = N - 1; return 1;
    case 1: a->mask[N - 1] = 3; return 2;
    case 2: a->llrs_length = N - 1; return 3;
    case 3: a->sweeps = 0; return 4;
    case 4: a->sweeps = 9; return 4;
    case 5: a->plan_length = 2 * N - 1; return 5;
    case 6: a->plan[2 * N - 1] = 2; return 5;
    case 7: a->plan[0] = 1; return 5;
    case 8: a->plan[2] = 0; return 6;
    case 9: a->plan[2 * N - 1] = 1; return 6;
    case 10: memcpy(a->plan, (const uint8_t[]){0, 1, 0, 0}, 4); return 6;
    case 11: a->llrs[N - 1] = INT16_MIN; return 7;
    case 12: a->soft_length = N - 1; return 11;
    case 13: a->hard_length = N - 1; return 11;
    case 14: a->payload_length = K - 1; return 11;
    case 15: a->work_length = WORDS - 1; return 12;
    default: return 0;
    }
}

int refuses_rightly(decode_call *decode) {
    decode_arguments a = accepted;
    buffers before, after;
    memset(&before, 85, sizeof before);
    if (call(decode, &a, &after) & 255) return 0;
    for (int way = 0;; way++) {
        a = accepted;
        after = before;
        uint64_t number = damage(&a, way);
        if (number == 0) return 1;
        if (call(decode, &a, &after) != number || memcmp(&after, &before, sizeof after)) return 0;
    }
}
