// Times the proved library and the C baselines side by side, and compares what they answer and write first.
//   bench             prints the tables of times
//   bench FILE        the same, with the instructions that FILE lists, in the order of `bench count`
//   bench count       calls each routine once for each frame inside count_here, for a profiler that counts there
#include "baseline.h"
#include "channel.h"
#include "reference.h"
#include "refusals.h"
#include "replay.h"
#include "ruznavo.h"

#include <stdio.h>
#include <stdlib.h>
#include <string.h>

// Times are over many different frames, so that no branch is foretold from the frame before; instructions over a few.
enum { FRAMES = 256, COUNTED = 16, LIBRARIES = 3, KINDS = RUZNAVO_KINDS };
enum { PROVED, PLAIN, SSE2 };

typedef struct {
    const char *name;
    decode_call *decode;
    encode_call *encode;
    transform_call *transform;
    plan_call *plan;
    samples_call *samples;
    mask_call *mask_by_weight;
    distance_call *mask_for_distance;
    flip_call *flip;
    erasure_call *mask_by_erasure;
} library;

static const library libraries[LIBRARIES] = {
    {"proved", ruznavo_decode, ruznavo_encode, ruznavo_transform, ruznavo_plan, ruznavo_samples, ruznavo_mask_by_weight,
     ruznavo_mask_for_distance, ruznavo_flip, ruznavo_mask_by_erasure},
    {"plain C", plain_decode, plain_encode, plain_transform, plain_plan, plain_samples, plain_mask_by_weight,
     plain_mask_for_distance, NULL, plain_mask_by_erasure},
    {"SSE2 C", sse2_decode, NULL, NULL, NULL, NULL, NULL, NULL, sse2_flip, NULL},
};

typedef enum { DECODE, ENCODE, PLAN, SAMPLES, MARKED, MASK, DISTANCE, ERASURE, TRANSFORM, CHAIN, FLIP } routine;

// The planner's plan; one near the leaves, which cuts every node of 2 positions that is of a kind; and the one that cuts
// the leaves.
typedef enum { PLANNERS, PAIRS, LEAVES, PLANS } plan_choice;
static const char *const plan_names[PLANS] = {"planner's", "pairs", "leaf-only"};

// What frozen positions are frozen to: all to 0, or a drawn half of them to 1.
typedef enum { ZEROS, ONES } frozen_choice;

typedef struct {
    routine what;
    size_t n, k, sweeps;
    plan_choice plan;
    frozen_choice frozen;
    size_t attempts; // of flips
} test_case;

// The channel of a case's frames, and the scale of their LLRs, by which the front end's noise variance is divided.
typedef struct {
    double ebn0_db;
    float scale;
} channel;

// Some of the noisy frames have an undecided bit, and none of the clear ones. Both are compared, and the clear ones
// timed: a word with an undecided bit is less work, since it is not transformed and has no payload to be read off.
static const channel noisy = {2, 1}, clear = {6, 16};

// What the calls read.
static uint8_t mask[MAX_N], plan[2 * MAX_N], marks[MAX_N], payloads[FRAMES][MAX_N], encoded[FRAMES][MAX_N];
static const uint8_t as_drawn[MAX_N]; // no noise is negated
static float samples[FRAMES][MAX_N], variance;
static int16_t llrs[FRAMES][MAX_N];

// What each library's calls write, and the answer of the last one.
typedef struct {
    uint64_t answer;
    int32_t soft[MAX_N], work[RUZNAVO_MAX_WORK_WORDS];
    uint8_t hard[MAX_N], payload[MAX_N], word[MAX_N], plan[2 * MAX_N];
    uint32_t counts[KINDS];
    int16_t llrs[MAX_N];
} outputs;

static outputs written[LIBRARIES];

static void fail(const test_case *c, const char *what) {
    fprintf(stderr, "bench: routine %d at (%zu,%zu), %zu sweeps: %s\n", c->what, c->n, c->k, c->sweeps, what);
    exit(1);
}

// A node of 2 positions is of a kind unless only its second is frozen.
static void cut_pairs(size_t n) {
    for (size_t i = 0; i < n; i += 2) {
        if (mask[i + 1] && !mask[i]) continue;
        plan[(n + i) / 2] = 1;
        plan[n + i] = plan[n + i + 1] = 0;
    }
}

static void freeze_to_one(size_t n) {
    struct random r = random_case(2, 0);
    for (size_t i = 0; i < n; i++)
        if (mask[i] && random_chance(&r, 0.5)) mask[i] = RUZNAVO_FROZEN_ONE;
}

static void make_plan(const test_case *c) {
    uint32_t counts[KINDS];
    if (plain_plan(mask, c->n, plan, 2 * c->n, counts) & 255) fail(c, "no plan");
    if (c->plan == PLANNERS) return;
    memset(plan, 0, c->n);
    memset(plan + c->n, 1, c->n);
    if (c->plan == PAIRS) cut_pairs(c->n);
}

// All positions sent; in the front end's rows with marks every eighth is punctured, and the last sixteenth shortened.
static uint8_t mark_at(const test_case *c, size_t i) {
    if (c->what != MARKED) return RUZNAVO_SENT;
    if (i >= c->n - c->n / 16) return RUZNAVO_SHORTENED;
    return i % 8 == 0 ? RUZNAVO_PUNCTURED : RUZNAVO_SENT;
}

// A payload's last 8 bits become its CRC, but for the last of them, so that what is sent does not match.
static void spoil_crc(uint8_t *payload, size_t k) {
    ref_crc_append(payload, k);
    payload[k - 1] ^= 1;
}

// The same frames for each case of a code: random payloads.
static void prepare(const test_case *c, channel way) {
    struct random r = random_case(1, 0);
    float noise = (float)noise_variance(c->n, c->k, way.ebn0_db);
    make_mask(mask, c->n, c->k);
    if (c->frozen == ONES) freeze_to_one(c->n);
    make_plan(c);
    for (size_t i = 0; i < c->n; i++) marks[i] = mark_at(c, i);
    variance = noise / way.scale;
    for (int f = 0; f < FRAMES; f++) {
        for (size_t i = 0; i < c->k; i++) payloads[f][i] = random_bits(&r) >> 63;
        if (c->what == FLIP) spoil_crc(payloads[f], c->k);
        if (plain_encode(mask, c->n, payloads[f], c->k, encoded[f], c->n)) fail(c, "no word");
        transmit(&r, encoded[f], as_drawn, c->n, noise, samples[f]);
        if (plain_samples(samples[f], c->n, marks, c->n, variance, llrs[f], c->n)) fail(c, "no LLRs");
    }
}

static int has_routine(const test_case *c, int which) {
    if (c->what == FLIP) return libraries[which].flip != NULL;
    return c->what == DECODE || libraries[which].encode != NULL;
}

static void call(const test_case *c, int which, int f) {
    const library *lib = &libraries[which];
    outputs *o = &written[which];
    size_t n = c->n;
    switch (c->what) {
    case DECODE:
        o->answer = lib->decode(mask, n, plan, 2 * n, c->sweeps, llrs[f], n, o->soft, n, o->hard, n, o->payload, c->k,
                                o->work, RUZNAVO_MAX_WORK_WORDS);
        break;
    case ENCODE: o->answer = lib->encode(mask, n, payloads[f], c->k, o->word, n); break;
    case TRANSFORM: o->answer = lib->transform(o->word, n); break;
    case PLAN: o->answer = lib->plan(mask, n, o->plan, 2 * n, o->counts); break;
    case SAMPLES:
    case MARKED: o->answer = lib->samples(samples[f], n, marks, n, variance, o->llrs, n); break;
    case MASK: o->answer = lib->mask_by_weight(n, c->k, o->word, n); break;
    case DISTANCE: o->answer = lib->mask_for_distance(n, c->k, (size_t)f % 32 + 1, o->word, n); break;
    case ERASURE: o->answer = lib->mask_by_erasure(n, c->k, (f + 0.5) / FRAMES, o->word, n); break;
    case FLIP:
        o->answer = lib->flip(mask, n, c->sweeps, c->attempts, llrs[f], n, o->payload, c->k, o->work,
                              RUZNAVO_MAX_WORK_WORDS);
        break;
    case CHAIN:
        lib->samples(samples[f], n, marks, n, variance, o->llrs, n);
        o->answer = lib->decode(mask, n, plan, 2 * n, c->sweeps, o->llrs, n, o->soft, n, o->hard, n, o->payload, c->k,
                                o->work, RUZNAVO_MAX_WORK_WORDS);
        break;
    }
}

// All libraries must answer 0 and write the same, on buffers that held the same before. How many frames a decoder left
// a bit of undecided.
static int compare(const test_case *c) {
    int undecided = 0;
    for (int f = 0; f < FRAMES; f++) {
        for (int which = 0; which < LIBRARIES; which++) {
            if (!has_routine(c, which)) continue;
            memset(&written[which], 85, sizeof written[which]);
            if (c->what == TRANSFORM) memcpy(written[which].word, encoded[f], c->n);
            call(c, which, f);
            if (written[which].answer & 255) fail(c, "turned down");
            if (memcmp(&written[which], &written[PROVED], sizeof written[which])) fail(c, "the libraries differ");
        }
        undecided += ruznavo_undecided(written[PROVED].answer) > 0;
    }
    return undecided;
}

// Compares on both kinds of frames; the clear ones stay.
static void compare_all(const test_case *c) {
    int decodes = c->what == DECODE || c->what == CHAIN;
    prepare(c, noisy);
    if (compare(c) == 0 && decodes) fail(c, "no noisy frame is undecided");
    prepare(c, clear);
    if (compare(c) > 0) fail(c, "a clear frame is undecided");
}

// For each library the nanoseconds of a call, from the fastest of many passes over all frames.
static void measure(const test_case *c, double *mean) {
    double end = now() + 5e8;
    for (int round = 0; round < 20 || now() < end; round++)
        for (int which = 0; which < LIBRARIES; which++) {
            if (!has_routine(c, which)) continue;
            double start = now();
            for (int f = 0; f < FRAMES; f++) call(c, which, f);
            double pass = (now() - start) / FRAMES;
            if (round == 0 || pass < mean[which]) mean[which] = pass;
        }
}

// A profiler counts instructions inside this function, and lists its calls one by one.
__attribute__((noinline)) void count_here(const test_case *c, int which) {
    for (int f = 0; f < COUNTED; f++) call(c, which, f);
}

static int counting;
static FILE *instructions;

// The instructions of a frame, or 0 where they were not counted.
static double next_count(void) {
    double total = 0;
    if (instructions && fscanf(instructions, "%lf", &total) != 1) total = 0;
    return total / COUNTED;
}

static void print_numbers(const test_case *c, const double *values) {
    for (int which = 0; which < LIBRARIES; which++)
        if (has_routine(c, which) && values[which] > 0) printf(" %9.*f", values[which] < 100, values[which]);
        else printf(" %9s", "-");
}

// The case's line of a table, after its name; the times of the three libraries.
static void run_case(const test_case *c, double *mean) {
    double counts[LIBRARIES] = {0};
    compare_all(c);
    if (counting) {
        for (int which = 0; which < LIBRARIES; which++)
            if (has_routine(c, which)) count_here(c, which);
        return;
    }
    for (int which = 0; which < LIBRARIES; which++)
        if (has_routine(c, which)) counts[which] = next_count();
    measure(c, mean);
    print_numbers(c, mean);
    printf(" |");
    print_numbers(c, counts);
}

static void heading(const char *title, const char *columns) {
    if (counting) return;
    printf("\n%s\n%-26s", title, "");
    printf(" %29s | %29s\n", "ns a frame", "instructions a frame");
    printf("%-26s", columns);
    for (int part = 0; part < 2; part++)
        for (int which = 0; which < LIBRARIES; which++)
            printf("%s %9s", part == 1 && which == 0 ? " |" : "", libraries[which].name);
}

static const size_t codes[][2] = {{1024, 512}, {1024, 128}, {1024, 896}, {256, 128}, {128, 64}};
enum { CODES = sizeof codes / sizeof *codes };

static void decode_table(void) {
    heading("Decoder", "code       plan     sweeps");
    if (!counting) puts("   proved/plain  proved/SSE2");
    for (int i = 0; i < 2 * PLANS * CODES; i++) {
        const size_t *code = codes[i / (2 * PLANS)];
        test_case c = {DECODE, code[0], code[1], i % 2 ? 4 : 1, (plan_choice)(i / 2 % PLANS), ZEROS, 0};
        double mean[LIBRARIES];
        if (!counting) printf("(%4zu,%3zu) %-10s %4zu", c.n, c.k, plan_names[c.plan], c.sweeps);
        run_case(&c, mean);
        if (!counting)
            printf("   %12.2f %12.2f\n", mean[PROVED] / mean[PLAIN], mean[PROVED] / mean[SSE2]), fflush(stdout);
    }
}

// Two rows: of a case with all frozen positions frozen to 0, and of the same with a half of them frozen to 1.
static void ones_rows(const char *label, test_case c) {
    double zeros[LIBRARIES], ones[LIBRARIES];
    if (!counting) printf("(%4zu,%3zu) %-15s", c.n, c.k, label);
    run_case(&c, zeros);
    if (!counting) printf("\n%-26s", "    half of them to 1");
    c.frozen = ONES;
    run_case(&c, ones);
    if (!counting)
        printf("   %12.2f %12.2f\n", ones[PROVED] / zeros[PROVED], ones[PLAIN] / zeros[PLAIN]), fflush(stdout);
}

static void ones_table(void) {
    heading("Positions frozen to 0, and half of them to 1: decoder and encoder", "code       plan, sweeps");
    if (!counting) puts("   to 1 / to 0: proved, plain");
    for (int i = 0; i < CODES; i++) {
        size_t n = codes[i][0], k = codes[i][1];
        ones_rows("planner's, 1", (test_case){DECODE, n, k, 1, PLANNERS, ZEROS, 0});
        ones_rows("planner's, 4", (test_case){DECODE, n, k, 4, PLANNERS, ZEROS, 0});
        ones_rows("leaf-only, 1", (test_case){DECODE, n, k, 1, LEAVES, ZEROS, 0});
        ones_rows("encoder", (test_case){ENCODE, n, k, 0, PLANNERS, ZEROS, 0});
    }
}

static void other_table(void) {
    static const char *const names[] = {"",     "encoder",  "planner", "front end", "with marks",
                                        "mask", "distance", "erasure"};
    heading("Encoder, planner, front end, mask by row weight, for distances from 1 to 32 and for erasure rates from 0 to 1",
            "routine    code");
    if (!counting) puts("   proved/plain");
    for (int i = 0; i < 7 * CODES; i++) {
        test_case c = {(routine)(ENCODE + i / CODES), codes[i % CODES][0], codes[i % CODES][1], 0, PLANNERS, ZEROS, 0};
        double mean[LIBRARIES];
        if (!counting) printf("%-10s (%4zu,%3zu)%5s", names[c.what], c.n, c.k, "");
        run_case(&c, mean);
        if (!counting) printf("   %12.2f\n", mean[PROVED] / mean[PLAIN]), fflush(stdout);
    }
}

// The passes of a frame's flip attempts, on the average of all frames: fewer than allowed where one matches by chance.
static double passes_made(const test_case *c) {
    double passes = 0;
    for (int f = 0; f < FRAMES; f++) {
        call(c, PROVED, f);
        passes += 1 + ruznavo_attempts(written[PROVED].answer);
    }
    return passes / FRAMES;
}

// Flip attempts on payloads whose CRC does not match, so that the attempts allowed are made.
static void flip_table(void) {
    static const size_t attempts[] = {0, 8, 31};
    heading("Flip attempts", "code       sweeps attempts");
    if (!counting) puts("   proved/SSE2   ns a pass: proved, SSE2");
    for (int i = 0; i < 6 * CODES; i++) {
        test_case c = {FLIP, codes[i / 6][0], codes[i / 6][1], i % 2 ? 4 : 1, PLANNERS, ZEROS, attempts[i % 6 / 2]};
        double mean[LIBRARIES], passes = 0;
        if (!counting) printf("(%4zu,%3zu) %6zu %8zu", c.n, c.k, c.sweeps, c.attempts);
        run_case(&c, mean);
        if (counting) continue;
        passes = passes_made(&c);
        printf("   %11.2f %12.0f %11.0f\n", mean[PROVED] / mean[SSE2], mean[PROVED] / passes, mean[SSE2] / passes);
        fflush(stdout);
    }
}

// Front end and decoder, one after the other.
static void chain_table(void) {
    heading("Chain: front end and decoder, planner's plan", "code             sweeps");
    if (!counting) puts("   proved/plain   frames a second   Mbit of payload a second");
    for (int i = 0; i < 2 * CODES; i++) {
        test_case c = {CHAIN, codes[i / 2][0], codes[i / 2][1], i % 2 ? 4 : 1, PLANNERS, ZEROS, 0};
        double mean[LIBRARIES];
        if (!counting) printf("(%4zu,%3zu) %-10s %4zu", c.n, c.k, "", c.sweeps);
        run_case(&c, mean);
        if (!counting)
            printf("   %12.2f %17.0f %26.1f\n", mean[PROVED] / mean[PLAIN], 1e9 / mean[PROVED],
                   1e3 * (double)c.k / mean[PROVED]),
                fflush(stdout);
    }
}

static void word_table(void) {
    static const char *const names[] = {"transform", "encoder"};
    heading("Transform and encoder by N, rate 1/2", "routine    N");
    if (!counting) puts("   proved/plain");
    for (int i = 0; i < 2 * MAX_STAGE; i++) {
        size_t n = (size_t)2 << i % MAX_STAGE;
        test_case c = {i < MAX_STAGE ? TRANSFORM : ENCODE, n, n / 2, 0, PLANNERS, ZEROS, 0};
        double mean[LIBRARIES];
        if (!counting) printf("%-10s %4zu%11s", names[i / MAX_STAGE], n, "");
        run_case(&c, mean);
        if (!counting) printf("   %12.2f\n", mean[PROVED] / mean[PLAIN]), fflush(stdout);
    }
}

static void growth_table(void) {
    heading("Decoder by N, rate 1/2, 1 sweep, planner's plan", "N");
    if (!counting) puts("   ns / (N log2 N): proved, plain, SSE2");
    for (int stage = 1; stage <= MAX_STAGE; stage++) {
        size_t n = (size_t)1 << stage;
        test_case c = {DECODE, n, n / 2, 1, PLANNERS, ZEROS, 0};
        double mean[LIBRARIES], steps = (double)n * stage;
        if (!counting) printf("%-26zu", n);
        run_case(&c, mean);
        if (!counting)
            printf("   %6.2f %6.2f %6.2f\n", mean[PROVED] / steps, mean[PLAIN] / steps, mean[SSE2] / steps),
                fflush(stdout);
    }
}

// Captures with as many frames as they hold, and the decodes of those frames alone.
static void replay_table(void) {
    if (counting) return;
    puts("\nReplay of a full capture, rate 1/2, planner's plan, proved library\n"
         "                                         ns a frame\n"
         "N                sweeps   frames    replay   decodes   replay/decodes");
    for (int i = 0; i < 4; i++) {
        test_case c = {DECODE, i < 2 ? 1024 : 2, i < 2 ? 512 : 1, i % 2 ? 4 : 1, PLANNERS, ZEROS, 0};
        prepare(&c, noisy);
        compare_replay(mask, c.n, (unsigned)c.sweeps, llrs[0], MAX_N, FRAMES);
        prepare(&c, clear);
        replay_times t = time_replay(mask, c.n, (unsigned)c.sweeps, llrs[0], MAX_N, FRAMES);
        printf("%-16zu %6zu %8zu %9.1f %9.1f %16.2f\n", c.n, c.sweeps, t.frames, t.replay, t.decodes,
               t.replay / t.decodes);
    }
}

int main(int count, char **words) {
    counting = count == 2 && !strcmp(words[1], "count");
    if (count == 2 && !counting && !(instructions = fopen(words[1], "r"))) return perror(words[1]), 2;
    for (int which = 0; which < LIBRARIES; which++)
        if (!refuses_rightly(libraries[which].decode))
            return fprintf(stderr, "bench: %s misses a test\n", libraries[which].name), 1;
    decode_table();
    ones_table();
    chain_table();
    other_table();
    word_table();
    growth_table();
    flip_table();
    replay_table();
    return 0;
}
