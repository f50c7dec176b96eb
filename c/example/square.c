/* A square frame through both libraries: a payload becomes a word of a product code, which is sent over a noisy
 * channel, converted to LLRs and decoded by rows and columns. */
#include "ruznavo.h"
#include "ruznavo_square.h"

#include <stdio.h>
#include <stdlib.h>

/* Rows and columns have one mask of N positions, K of them unfrozen: K * K payload bits in N * N. */
enum { N = 32, K = 21, HALF_ITERATIONS = 8 };

static uint8_t mask[N], payload[N][N], word[N][N], bits[N][N];
static uint8_t llrs[RUZNAVO_SQUARE_BYTES(N)], sums[RUZNAVO_SQUARE_BYTES(N)];

static void accepted(const char *call, unsigned number) {
    if (number == 0) return;
    printf("%s: refused with number %u\n", call, number);
    exit(1);
}

/* A random number (xorshift). */
static uint32_t random_bits(void) {
    static uint32_t x = 2024;
    x ^= x << 13;
    x ^= x >> 17;
    x ^= x << 5;
    return x;
}

/* Noise of variance 2/3, nearly Gaussian: a sum of eight numbers between -1/2 and 1/2, each of variance 1/12. */
static const float variance = 2.0f / 3;
static float noise(void) {
    float sum = -4;
    for (int i = 0; i < 8; i++) sum += (float)(random_bits() >> 8) / 16777216;
    return sum;
}

/* The rows, then the columns. A second transform gives the first square again. */
static void transform(uint8_t square[N][N]) {
    for (size_t i = 0; i < N; i++) accepted("transform", ruznavo_number(ruznavo_transform(square[i], N)));
    for (size_t k = 0; k < N; k++) {
        uint8_t column[N];
        for (size_t i = 0; i < N; i++) column[i] = square[i][k];
        accepted("transform", ruznavo_number(ruznavo_transform(column, N)));
        for (size_t i = 0; i < N; i++) square[i][k] = column[i];
    }
}

/* Payload bits stand where row and column are unfrozen; all other bits are 0, since the mask freezes to 0 only. */
static int is_payload(size_t i, size_t k) { return mask[i] == RUZNAVO_UNFROZEN && mask[k] == RUZNAVO_UNFROZEN; }

static void make_word(void) {
    for (size_t i = 0; i < N; i++)
        for (size_t k = 0; k < N; k++) word[i][k] = payload[i][k] = is_payload(i, k) ? random_bits() >> 8 & 1 : 0;
    transform(word);
}

/* Row i is sent, bit 0 as +1 and bit 1 as -1, and its LLRs go to their place in the frame, low byte first. */
static void send_row(size_t i) {
    static const uint8_t marks[N]; /* all positions are sent */
    float samples[N];
    int16_t row[N];
    for (size_t k = 0; k < N; k++) samples[k] = (word[i][k] ? -1.0f : 1.0f) + noise();
    /* The variance divided by 256: LLRs on a larger scale lose less by rounding (ruznavo.h). */
    accepted("samples", ruznavo_number(ruznavo_samples(samples, N, marks, N, variance / 256, row, N)));
    for (size_t k = 0; k < N; k++) {
        llrs[2 * (i * N + k)] = (uint8_t)((uint16_t)row[k] & 255);
        llrs[2 * (i * N + k) + 1] = (uint8_t)((uint16_t)row[k] >> 8);
    }
}

/* The bits of a frame by the signs of its values, RUZNAVO_UNDECIDED where one is 0. How many are not the word's. */
static int decide(const uint8_t *frame) {
    int wrong = 0;
    for (size_t p = 0; p < N * N; p++) {
        uint8_t low = frame[2 * p], high = frame[2 * p + 1], bit = high >> 7; /* the sign */
        if (low == 0 && high == 0) bit = RUZNAVO_UNDECIDED;
        bits[p / N][p % N] = bit;
        wrong += bit != word[p / N][p % N];
    }
    return wrong;
}

int main(void) {
    accepted("mask", ruznavo_number(ruznavo_mask_by_weight(N, K, mask, N)));
    make_word();
    for (size_t i = 0; i < N; i++) send_row(i);
    printf("received: %d of %d bits wrong or undecided\n", decide(llrs), N * N);

    for (size_t half_iterations = 1; half_iterations <= HALF_ITERATIONS; half_iterations++) {
        uint64_t answer = ruznavo_square(mask, N, half_iterations, llrs, sizeof llrs, sums, sizeof sums);
        accepted("square", ruznavo_square_number(answer));
        printf("%zu half-iterations: %d wrong or undecided, %u cycles\n", half_iterations, decide(sums),
               (unsigned)ruznavo_square_cycles(answer));
    }

    /* A byte 2 is no bit: with an undecided bit there would be no payload. */
    if (decide(sums) > 0) return 1;
    int wrong = 0;
    transform(bits);
    for (size_t p = 0; p < N * N; p++) wrong += bits[p / N][p % N] != payload[p / N][p % N];
    printf("decoded: %d of %d payload bits wrong\n", wrong, K * K);
    return wrong == 0 ? 0 : 1;
}
