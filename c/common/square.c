/* See square.h. */
#include "square.h"

#include "reference.h"

#include <string.h>

/* ---- frames */

int16_t ref_llr_at(const uint8_t *bytes, size_t place) {
    int number = bytes[2 * place] + 256 * bytes[2 * place + 1];
    return (int16_t)(number < 32768 ? number : number - 65536);
}

void ref_put_llr(uint8_t *bytes, size_t place, int16_t llr) {
    unsigned number = (unsigned)(llr < 0 ? llr + 65536 : llr);
    bytes[2 * place] = (uint8_t)(number % 256);
    bytes[2 * place + 1] = (uint8_t)(number / 256);
}

size_t ref_square_place(enum ref_direction by, size_t N, size_t i, size_t k) {
    return by == REF_BY_ROWS ? i * N + k : k * N + i;
}

/* ---- words */

static void transform_lines(enum ref_direction by, size_t N, uint8_t *bits) {
    for (size_t i = 0; i < N; i++) {
        uint8_t line[REF_SQUARE_N], word[REF_SQUARE_N];
        for (size_t k = 0; k < N; k++) line[k] = bits[ref_square_place(by, N, i, k)];
        ref_transform(line, word, N);
        for (size_t k = 0; k < N; k++) bits[ref_square_place(by, N, i, k)] = word[k];
    }
}

/* Each row has its known bit at a frozen position where the square's column, transformed, is that bit at every place:
 * where it has a single 1, in the last row, or none. And likewise for columns. */
int ref_square_word(const uint8_t *mask, size_t N, uint8_t *bits) {
    for (size_t i = 0; i < N; i++)
        for (size_t k = 0; k < N; k++)
            if (mask[i] != REF_UNFROZEN || mask[k] != REF_UNFROZEN)
                bits[i * N + k] = (i == N - 1 && mask[k] == REF_ONE) || (k == N - 1 && mask[i] == REF_ONE);
    transform_lines(REF_BY_ROWS, N, bits);
    transform_lines(REF_BY_COLUMNS, N, bits);
    return mask[N - 1] == REF_UNFROZEN || memchr(mask, REF_ONE, N) == NULL;
}

/* ---- half-iterations */

static int16_t clamped_sum(int16_t llr, int32_t soft) {
    if (soft == INT32_MAX) return 32767;
    if (soft == -INT32_MAX) return -32767;
    int32_t sum = llr + soft;
    return (int16_t)(sum > 32767 ? 32767 : sum < -32767 ? -32767 : sum);
}

void ref_square_start(struct ref_frame *f, size_t N, const uint8_t *llrs) {
    memset(f, 0, sizeof *f);
    f->N = N;
    for (size_t p = 0; p < N * N; p++) f->channel[p] = ref_llr_at(llrs, p);
}

enum ref_direction ref_direction_of(size_t half_iteration) {
    return half_iteration % 2 == 0 ? REF_BY_ROWS : REF_BY_COLUMNS;
}

static void decode_line(struct ref_frame *f, const uint8_t *mask, enum ref_direction by, size_t i) {
    enum ref_direction other = by == REF_BY_ROWS ? REF_BY_COLUMNS : REF_BY_ROWS;
    int16_t input[REF_SQUARE_N];
    int32_t soft[REF_SQUARE_N];
    for (size_t k = 0; k < f->N; k++) {
        size_t p = ref_square_place(by, f->N, i, k);
        input[k] = clamped_sum(f->channel[p], f->soft[other][p]);
    }
    ref_scan(mask, f->N, input, 1, soft);
    for (size_t k = 0; k < f->N; k++) {
        size_t p = ref_square_place(by, f->N, i, k);
        f->input[p] = input[k];
        f->soft[by][p] = soft[k];
        f->sum[p] = clamped_sum(input[k], soft[k]);
    }
}

void ref_square_next(struct ref_frame *f, const uint8_t *mask) {
    enum ref_direction by = ref_direction_of(f->half_iterations);
    for (size_t i = 0; i < f->N; i++) decode_line(f, mask, by, i);
    f->half_iterations++;
}

/* ---- the call */

static int has_lowest(const uint8_t *llrs, size_t places) {
    for (size_t p = 0; p < places; p++)
        if (ref_llr_at(llrs, p) == -32768) return 1;
    return 0;
}

static uint64_t refusal(const uint8_t *mask, size_t N, size_t half_iterations, const uint8_t *llrs, size_t llrs_length,
                        size_t out_length) {
    if (ref_exponent(N) == 0) return 1;
    if (N > REF_SQUARE_N) return 22;
    for (size_t i = 0; i < N; i++)
        if (mask[i] > REF_ONE) return 2;
    if (llrs_length != 2 * N * N) return 3;
    if (half_iterations < 1 || half_iterations > REF_HALF_ITERATIONS) return 23;
    if (has_lowest(llrs, N * N)) return 7;
    return out_length < 2 * N * N ? 11 : 0;
}

uint64_t ref_square(const uint8_t *mask, size_t N, size_t half_iterations, const uint8_t *llrs, size_t llrs_length,
                    uint8_t *out, size_t out_length) {
    uint64_t number = refusal(mask, N, half_iterations, llrs, llrs_length, out_length);
    if (number) return number;
    struct ref_frame f;
    uint8_t plan[2 * REF_SQUARE_N];
    uint32_t counts[REF_KINDS], line_cycles;
    uint64_t cycles = 0;
    ref_plan(mask, N, plan, sizeof plan, counts, &line_cycles);
    ref_square_start(&f, N, llrs);
    while (f.half_iterations < half_iterations) {
        ref_square_next(&f, mask);
        cycles += N * line_cycles;
    }
    for (size_t p = 0; p < N * N; p++) ref_put_llr(out, p, f.sum[p]);
    return 256 * cycles;
}
