// Square frames in plain C, as one would write them without intrinsics. The plan is made once. One array of soft values
// is enough: each place is read by its line before that line writes it, so what it holds is always what the other
// direction has left there.
#include "baseline.h"

#include <string.h>

enum { MAX_N = 32, MAX_STAGE = 5, CERTAIN = INT32_MAX };

typedef struct {
    int16_t channel[MAX_N * MAX_N], sum[MAX_N * MAX_N];
    int32_t soft[MAX_N * MAX_N], work[MAX_N * (MAX_STAGE + 3)];
} square;

static int is_length(size_t n) { return n >= 2 && n <= 1024 && (n & (n - 1)) == 0; }

static int16_t llr_of(const uint8_t *bytes) { return (int16_t)(uint16_t)(bytes[0] | bytes[1] << 8); }

static int16_t clamp(int32_t value) { return (int16_t)(value > 32767 ? 32767 : value < -32767 ? -32767 : value); }

// The marks of a certain soft value are so large that half of one and an LLR still clamp by its sign.
static int16_t clamped_sum(int16_t llr, int32_t soft) {
    int32_t most = CERTAIN / 2;
    return clamp(llr + (soft > most ? most : soft < -most ? -most : soft));
}

// A line starts at a place, and its elements are `step` apart.
static void decode_line(const plain_code *c, square *s, size_t start, size_t step) {
    int16_t input[MAX_N];
    for (size_t k = 0, p = start; k < c->n; k++, p += step) input[k] = clamped_sum(s->channel[p], s->soft[p]);
    plain_line(c, input, s->work);
    for (size_t k = 0, p = start; k < c->n; k++, p += step) {
        s->soft[p] = s->work[k];
        s->sum[p] = clamped_sum(input[k], s->work[k]);
    }
}

static int has_lowest(const uint8_t *llrs, size_t places) {
    int found = 0;
    for (size_t p = 0; p < places; p++) found |= llr_of(llrs + 2 * p) == INT16_MIN;
    return found;
}

uint64_t plain_square(const uint8_t *mask, size_t n, size_t half_iterations, const uint8_t *llrs, size_t llrs_length,
                      uint8_t *out, size_t out_length) {
    if (!is_length(n)) return 1;
    if (n > MAX_N) return 22;
    if (largest_byte(mask, n) > 2) return 2;
    size_t places = n * n;
    if (llrs_length != 2 * places) return 3;
    if (half_iterations < 1 || half_iterations > 16) return 23;
    if (has_lowest(llrs, places)) return 7;
    if (out_length < 2 * places) return 11;
    plain_code c;
    square s;
    plain_prepare(&c, mask, n);
    memset(s.soft, 0, places * sizeof *s.soft);
    for (size_t p = 0; p < places; p++) s.channel[p] = llr_of(llrs + 2 * p);
    for (size_t h = 0; h < half_iterations; h++)
        for (size_t i = 0; i < n; i++) decode_line(&c, &s, h % 2 ? i : i * n, h % 2 ? n : 1);
    for (size_t p = 0; p < places; p++) {
        out[2 * p] = (uint8_t)s.sum[p];
        out[2 * p + 1] = (uint8_t)((uint16_t)s.sum[p] >> 8);
    }
    return 256 * half_iterations * n * (uint64_t)c.cycles;
}
