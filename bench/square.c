// Times square frames: the proved library, the decodes of the same lines alone through the first library, and plain C,
// side by side in one run, after comparing what library and plain C answer and write.
#include "baseline.h"
#include "channel.h"
#include "replay.h"
#include "ruznavo.h"
#include "ruznavo_square.h"
#include "square.h"

#include <stdio.h>
#include <stdlib.h>
#include <string.h>

// Times are over many different frames, so that no branch is foretold from the frame before.
enum { FRAMES = 32, HALF_ITERATIONS = 8, LONGEST = RUZNAVO_SQUARE_MAX_N, LINES = HALF_ITERATIONS * LONGEST };
enum { BYTES = 2 * LONGEST * LONGEST };
enum { PROVED, DECODES, PLAIN, WAYS };

typedef struct {
    size_t n, k;
} test_case;

// What the calls read: the frames, and the inputs of each frame's lines in the order in which they are decoded.
static uint8_t mask[LONGEST], plan[2 * LONGEST], frames[FRAMES][BYTES];
static int16_t inputs[FRAMES][LINES][LONGEST];

// What they write.
static uint8_t sums[WAYS][BYTES], hard[LONGEST], payload[LONGEST];
static int32_t soft[LONGEST], work[RUZNAVO_WORK_WORDS(LONGEST)];

static void fail(const test_case *c, const char *what) {
    fprintf(stderr, "bench: square frames of (%zu,%zu): %s\n", c->n, c->k, what);
    exit(1);
}

static void prepare_mask(const test_case *c, int with_ones) {
    struct random r = random_case(2, 0);
    uint32_t counts[RUZNAVO_KINDS];
    if (ruznavo_mask_by_weight(c->n, c->k, mask, c->n)) fail(c, "no mask");
    for (size_t i = 0; i < c->n; i++)
        if (with_ones && mask[i] && random_chance(&r, 0.5)) mask[i] = RUZNAVO_FROZEN_ONE;
    if (ruznavo_number(ruznavo_plan(mask, c->n, plan, 2 * c->n, counts))) fail(c, "no plan");
}

// Noisy words of random payloads. The front end takes a whole frame, which is as long as a code can be.
static void prepare_frames(const test_case *c, double ebn0_db, float scale) {
    static const uint8_t as_drawn[MAX_N], sent[MAX_N];
    size_t places = c->n * c->n;
    struct random r = random_case(1, 0);
    float variance = (float)noise_variance(places, c->k * c->k, ebn0_db), samples[MAX_N];
    for (int f = 0; f < FRAMES; f++) {
        uint8_t word[MAX_N];
        int16_t llrs[MAX_N];
        for (size_t p = 0; p < places; p++) word[p] = random_bits(&r) >> 63;
        if (!ref_square_word(mask, c->n, word)) fail(c, "no word");
        transmit(&r, word, as_drawn, places, variance, samples);
        if (ruznavo_samples(samples, places, sent, places, variance / scale, llrs, places)) fail(c, "no LLRs");
        for (size_t p = 0; p < places; p++) ref_put_llr(frames[f], p, llrs[p]);
    }
}

static uint64_t square(const test_case *c, int way, int f, size_t half_iterations) {
    square_call *call = way == PROVED ? ruznavo_square : plain_square;
    size_t bytes = RUZNAVO_SQUARE_BYTES(c->n);
    return call(mask, c->n, half_iterations, frames[f], bytes, sums[way], bytes);
}

// The decodes of a frame's lines, with their inputs as they are; the cycles of all.
static uint64_t decode_lines(const test_case *c, int f) {
    uint64_t cycles = 0;
    for (size_t line = 0; line < HALF_ITERATIONS * c->n; line++) {
        uint64_t answer = ruznavo_decode(mask, c->n, plan, 2 * c->n, 1, inputs[f][line], c->n, soft,
                                         c->n, hard, c->n, payload, c->k, work, RUZNAVO_WORK_WORDS(LONGEST));
        cycles += ruznavo_cycles(answer);
    }
    return cycles;
}

// Records the inputs of a frame's lines by the reference, which must come to the library's sums and cycles.
static void record_lines(const test_case *c, int f) {
    static struct ref_frame at;
    uint64_t answer = square(c, PROVED, f, HALF_ITERATIONS);
    ref_square_start(&at, c->n, frames[f]);
    for (size_t h = 0; h < HALF_ITERATIONS; h++) {
        ref_square_next(&at, mask);
        for (size_t p = 0; p < c->n * c->n; p++)
            inputs[f][h * c->n + p / c->n][p % c->n] =
                at.input[ref_square_place(ref_direction_of(h), c->n, p / c->n, p % c->n)];
    }
    for (size_t p = 0; p < c->n * c->n; p++)
        if (ref_llr_at(sums[PROVED], p) != at.sum[p]) fail(c, "the library differs from the reference");
    if (answer != 256 * decode_lines(c, f)) fail(c, "the cycles are not those of the decodes");
}

// The sums of the last frame that have the largest size.
static int largest_sums(const test_case *c) {
    int count = 0;
    for (size_t p = 0; p < c->n * c->n; p++) count += abs(ref_llr_at(sums[PROVED], p)) == 32767;
    return count;
}

// Library and plain C must answer and write the same, on buffers that held the same before. How many sums have the
// largest size.
static int compare(const test_case *c) {
    int largest = 0;
    for (int f = 0; f < FRAMES; f++) {
        size_t half_iterations = (size_t)f % RUZNAVO_SQUARE_MAX_HALF_ITERATIONS + 1;
        memset(sums, 85, sizeof sums);
        uint64_t proved = square(c, PROVED, f, half_iterations), plain = square(c, PLAIN, f, half_iterations);
        if (ruznavo_square_number(proved)) fail(c, "turned down");
        if (proved != plain || memcmp(sums[PROVED], sums[PLAIN], BYTES)) fail(c, "library and plain C differ");
        largest += largest_sums(c);
    }
    return largest;
}

// Both make the same tests in the same order: an input more is put right from each call to the next.
static int refuse_alike(void) {
    static const size_t calls[][4] = {{3, 0, 31, 0},   {64, 0, 31, 0},   {4, 0, 31, 0},   {4, 0, 32, 0},
                                      {4, 17, 32, 31}, {4, 16, 32, 31}, {4, 16, 32, 32}};
    static uint8_t codes[2][64], llrs[2][32], out[32];
    int alike = 1;
    codes[1][2] = 3;
    ref_put_llr(llrs[1], 9, INT16_MIN);
    for (size_t i = 0; i < 4 * sizeof calls / sizeof *calls; i++) {
        const size_t *c = calls[i / 4];
        const uint8_t *code = codes[i % 2], *values = llrs[i / 2 % 2];
        alike &= ruznavo_square(code, c[0], c[1], values, c[2], out, c[3]) ==
                 plain_square(code, c[0], c[1], values, c[2], out, c[3]);
    }
    return alike;
}

static void run(const test_case *c, int way) {
    for (int f = 0; f < FRAMES; f++)
        if (way == DECODES) decode_lines(c, f);
        else square(c, way, f, HALF_ITERATIONS);
}

// The nanoseconds of a frame, from the fastest of many passes over all frames.
static void measure(const test_case *c, double *mean) {
    double end = now() + 1e9;
    for (int round = 0; round < 20 || now() < end; round++)
        for (int way = 0; way < WAYS; way++) {
            double start = now();
            run(c, way);
            double pass = (now() - start) / FRAMES;
            if (round == 0 || pass < mean[way]) mean[way] = pass;
        }
}

// Compares on masks with positions frozen to 1 and without, on noisy frames with small LLRs and on clear ones, whose
// sums grow until they are clamped. The mask without and the clear frames stay.
static void prepare(const test_case *c) {
    for (int with_ones = 1; with_ones >= 0; with_ones--) {
        prepare_mask(c, with_ones);
        prepare_frames(c, 2, 1);
        compare(c);
        prepare_frames(c, 4, 16);
        if (compare(c) == 0) fail(c, "no sum is clamped");
    }
    for (int f = 0; f < FRAMES; f++) record_lines(c, f);
}

int main(void) {
    static const test_case cases[] = {{32, 26}, {32, 21}, {32, 16}, {16, 11}};
    if (!refuse_alike()) return fputs("bench: library and plain C refuse square frames otherwise\n", stderr), 1;
    printf("\nSquare frames, %d half-iterations, masks by row weight\n%40s\n", HALF_ITERATIONS, "ns a frame");
    puts("code          proved  its lines    plain C   proved/its lines  proved/plain");
    for (size_t i = 0; i < sizeof cases / sizeof *cases; i++) {
        const test_case *c = &cases[i];
        double mean[WAYS];
        prepare(c);
        measure(c, mean);
        printf("(%2zu,%2zu)^2 %10.0f %10.0f %10.0f %18.2f %13.2f\n", c->n, c->k, mean[PROVED], mean[DECODES],
               mean[PLAIN], mean[PROVED] / mean[DECODES], mean[PROVED] / mean[PLAIN]);
        fflush(stdout);
    }
    return 0;
}
