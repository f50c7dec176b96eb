/* One frame through the library: a payload is encoded, sent over a noisy channel, converted to LLRs and decoded. */
#include "ruznavo.h"

#include <stdio.h>
#include <stdlib.h>

enum { N = 256, K = 128, SWEEPS = 4 };

/* The code, of which sender and receiver know: bit i % 32 of word i / 32 is 1 if position i is frozen. These are the
 * positions with the largest erasure rates, for an erasure channel of rate 0.4. */
static const uint32_t frozen[N / 32] = {0xFFFFFFFF, 0x17FFFFFF, 0x177FFFFF, 0x0001017F,
                                        0x013F7FFF, 0x00010117, 0x00000017, 0x00000000};

/* The station's number, which both know too: positions are frozen to its bits. */
enum { STATION = 0x5B };

/* What a receiver keeps. The workspace may be shared by decodes that do not run at the same time. */
static uint8_t mask[N], plan[2 * N], payload[K], word[N], hard[N], decoded[K];
static uint8_t marks[N];
static float samples[N];
static int16_t llrs[N];
static int32_t soft[N], work[RUZNAVO_WORK_WORDS(N)];
static uint32_t counts[RUZNAVO_KINDS];

static uint64_t accepted(const char *call, uint64_t answer) {
    unsigned number = ruznavo_number(answer);
    if (number != RUZNAVO_OK) {
        printf("%s: refused with number %u, %s\n", call, number, ruznavo_number_name(number));
        exit(1);
    }
    return answer;
}

/* A random number (xorshift). */
static uint32_t random_bits(void) {
    static uint32_t x = 2024;
    x ^= x << 13;
    x ^= x >> 17;
    x ^= x << 5;
    return x;
}

/* Noise of variance 1/2, nearly Gaussian: a sum of six numbers between -1/2 and 1/2, each of variance 1/12. */
static const float variance = 0.5f;
static float noise(void) {
    float sum = -3;
    for (int i = 0; i < 6; i++) sum += (float)(random_bits() >> 8) / 16777216;
    return sum;
}

/* Bit 0 is sent as +1, bit 1 as -1. The first four positions are not sent. */
static void send_word(void) {
    for (size_t i = 0; i < N; i++) {
        samples[i] = (word[i] ? -1.0f : 1.0f) + noise();
        marks[i] = i < 4 ? RUZNAVO_PUNCTURED : RUZNAVO_SENT;
    }
}

/* The bits of the number stand in the last frozen positions, the lowest bit last; the other frozen positions are 0. A
 * one in the first positions would flip few bits of the word, and a receiver of another number would correct these. */
static void set_mask(unsigned number) {
    for (size_t i = N; i-- > 0;) {
        mask[i] = frozen[i / 32] >> i % 32 & 1 ? RUZNAVO_FROZEN_ZERO : RUZNAVO_UNFROZEN;
        if (mask[i] == RUZNAVO_UNFROZEN) continue;
        if (number & 1) mask[i] = RUZNAVO_FROZEN_ONE;
        number /= 2;
    }
}

static int different(const uint8_t *a, const uint8_t *b, size_t length) {
    int count = 0;
    for (size_t i = 0; i < length; i++) count += a[i] != b[i];
    return count;
}

int main(void) {
    set_mask(STATION);
    uint64_t planned = accepted("plan", ruznavo_plan(mask, N, plan, sizeof plan, counts));
    printf("plan: %u cycles a sweep; cut nodes by kind:", (unsigned)ruznavo_cycles(planned));
    for (int kind = 0; kind < RUZNAVO_KINDS; kind++) printf(" %u", (unsigned)counts[kind]);
    printf("\n");

    for (size_t i = 0; i < K; i++) payload[i] = random_bits() >> 8 & 1;
    accepted("encode", ruznavo_encode(mask, N, payload, K, word, N));
    send_word();
    /* The variance divided by 256: LLRs and soft values on a larger scale lose less by rounding (ruznavo.h). */
    accepted("samples", ruznavo_samples(samples, N, marks, N, variance / 256, llrs, N));

    for (size_t i = 0; i < N; i++) hard[i] = llrs[i] < 0;
    printf("received: %d of %d bits of the word wrong before decoding\n", different(hard, word, N), N);

    uint64_t answer = accepted("decode", ruznavo_decode(mask, N, plan, sizeof plan, SWEEPS, llrs, N, soft, N, hard, N,
                                                        decoded, K, work, sizeof work / sizeof *work));
    /* Of a word with an undecided bit there is no payload: its bytes are RUZNAVO_UNDECIDED. */
    if (ruznavo_undecided(answer)) {
        printf("decoded: %u of %d bits of the word undecided\n", ruznavo_undecided(answer), N);
        return 1;
    }
    printf("decoded: %d of %d payload bits wrong, frozen check %u, %u cycles\n", different(decoded, payload, K), K,
           ruznavo_check(answer), (unsigned)ruznavo_cycles(answer));
    return different(decoded, payload, K) == 0 ? 0 : 1;
}
