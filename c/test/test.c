/*
 * Compares the library with the reference on random calls, valid and damaged: the answer, every buffer with its tail,
 * that inputs stay, and guard bytes and pages around every buffer.
 *
 *     test [SEED [CASES [FIRST]]]
 *
 * A difference prints seed and case number and exits 1; `test SEED 1 CASE` runs that case again.
 */
#define _DEFAULT_SOURCE
#include "captures.h"
#include "codes.h"
#include "guarded.h"
#include "random.h"
#include "reference.h"
#include "ruznavo.h"

#include <inttypes.h>
#include <signal.h>
#include <stdio.h>
#include <stdlib.h>
#include <string.h>
#include <unistd.h>

/* The longest input that a damaged call has. */
enum { LONGEST = 4 * REF_MAX_N };

enum call {
    SAMPLES,
    ENCODE,
    TRANSFORM,
    PLAN,
    CHECK_PLAN,
    DECODE,
    REPLAY,
    MASK_BY_WEIGHT,
    MASK_FOR_DISTANCE,
    FLIP,
    MASK_BY_ERASURE,
    CALLS
};
static const char *const call_names[CALLS] = {"samples", "encode", "transform",      "plan",              "check_plan",
                                              "decode",  "replay", "mask_by_weight", "mask_for_distance", "flip",
                                              "mask_by_erasure"};

/* The numbers that each call can answer, as bits. */
static const unsigned answers[CALLS] = {
    1u << 0 | 1u << 1 | 1u << 3 | 1u << 8 | 1u << 9 | 1u << 11,
    1u << 0 | 1u << 1 | 1u << 2 | 1u << 3 | 1u << 10 | 1u << 11,
    1u << 0 | 1u << 1,
    1u << 0 | 1u << 1 | 1u << 2 | 1u << 11,
    1u << 0 | 1u << 1 | 1u << 2 | 1u << 5 | 1u << 6,
    0xFFu | 1u << 11 | 1u << 12,
    1u << 0 | 1u << 1 | 1u << 2 | 1u << 4 | 1u << 7 | 1u << 11 | 1u << 14 | 1u << 15,
    1u << 0 | 1u << 1 | 1u << 11 | 1u << 16,
    1u << 0 | 1u << 1 | 1u << 11 | 1u << 16 | 1u << 17,
    0x9Fu | 1u << 11 | 1u << 12 | 1u << 18 | 1u << 19,
    1u << 0 | 1u << 1 | 1u << 11 | 1u << 16 | 1u << 20,
};

/* The least exponent of N of an accepted call: flip attempts need nine unfrozen positions. */
static const int least_stage_of[CALLS] = {1, 1, 1, 1, 1, 1, 1, 1, 1, 4, 1};

static uint64_t seed = 1, case_number;
enum { NUMBERS = RUZNAVO_BAD_RATE + 1 };
static uint64_t number_seen[CALLS][NUMBERS], stage_seen[CALLS][REF_MAX_STAGE + 1], sweeps_seen[REF_MAX_SWEEPS + 1],
    found_seen[2];

/* Accepted decodes by n: without an undecided bit and with one; and those without by their frozen check. */
static uint64_t undecided_seen[2][REF_MAX_STAGE + 1], check_seen[2];

/* Accepted flip attempts: a match in the first pass, in an attempt, none in as many as allowed, and none where the
 * unfrozen positions ran out. */
enum ending { FIRST_PASS, IN_ATTEMPT, ALL_TRIED, RAN_OUT, ENDINGS };
static uint64_t endings_seen[ENDINGS], tries_seen[RUZNAVO_MAX_ATTEMPTS + 1];

/* Nodes of a kind by their stage, in accepted decodes: those that the plan goes below, and those that it cuts; and of
 * the cut ones those that have a position frozen to 1. */
static uint64_t kind_seen[2][REF_KINDS][REF_MAX_STAGE + 1], kind_with_ones[REF_KINDS][REF_MAX_STAGE + 1];

/* Accepted calls whose mask has a position frozen to 1. */
static uint64_t ones_seen[CALLS];

enum slot { MASK, PLAN_BYTES, LLRS, SOFT, HARD, PAYLOAD, WORK, SAMPLE_VALUES, MARKS, WORD, COUNTS, CAPTURE, TEXT, SLOTS };
static const char *const slot_names[SLOTS] = {"mask",    "plan",  "llrs", "soft",   "hard",    "payload", "work",
                                              "samples", "marks", "word", "counts", "capture", "text"};
static struct guarded slots[SLOTS];

static void stop(const char *what) {
    printf("%s: seed %" PRIu64 ", case %" PRIu64 "\n", what, seed, case_number);
    exit(1);
}

static void fault(int signal) {
    char text[96];
    int length =
        snprintf(text, sizeof text,
                 "memory outside a buffer or an input touched (signal %d): seed %" PRIu64 ", case %" PRIu64 "\n",
                 signal, seed, case_number);
    if (write(STDOUT_FILENO, text, (size_t)(length < 95 ? length : 95)) < 0) _exit(2);
    _exit(1);
}

/* ---- placing and comparing buffers */

static void place(struct random *r, enum slot s, size_t count, size_t size, const void *content) {
    guarded_place(&slots[s], r, count * size, size, content);
}

static void *buffer(enum slot s) { return guarded_buffer(&slots[s]); }
static void *twin(enum slot s) { return guarded_twin(&slots[s]); }

static void lock(const enum slot *inputs, size_t count, int writable) {
    for (size_t i = 0; i < count; i++) guarded_writable(&slots[inputs[i]], writable);
}

/* The answer of a call that has one result beside the number, from bit 8 on: cycles, a text's length, or whether a mask
 * was found. */
static uint64_t answer_of(int number, uint64_t result) { return (uint64_t)number + 256 * result; }

static void compare(enum call call, uint64_t answer, uint64_t expected, const enum slot *used, size_t count) {
    if (answer != expected) {
        printf("%s answers %" PRIx64 ", and %" PRIx64 " is expected\n", call_names[call], answer, expected);
        stop("wrong answer");
    }
    for (size_t i = 0; i < count; i++)
        if (guarded_differs(&slots[used[i]])) stop(call_names[call]);
    number_seen[call][expected & 255]++;
}

static int has_ones(const uint8_t *mask, size_t length) { return memchr(mask, RUZNAVO_FROZEN_ONE, length) != NULL; }

/* Counts an accepted call with a mask. */
static void count_mask(enum call call, const uint8_t *mask, size_t N) {
    stage_seen[call][ref_exponent(N)]++;
    ones_seen[call] += (uint64_t)has_ones(mask, N);
}

/* ---- inputs */

/* A length that is mostly not the right one, up to LONGEST. */
static size_t other_length(struct random *r, size_t right) {
    size_t choices[] = {
        0, 1, 3, right - 1, right + 1, right / 2, 2 * right, 2048, random_below(r, 2100), random_below(r, right + 1)};
    size_t length = choices[random_below(r, sizeof choices / sizeof *choices)];
    return length > LONGEST ? LONGEST : length;
}

/* Room for an output: exact or longer. */
static size_t enough(struct random *r, size_t needed) {
    return needed + (random_chance(r, 0.5) ? 0 : random_below(r, 70));
}

static size_t too_short(struct random *r, size_t needed) {
    if (needed == 0) return 0;
    return random_chance(r, 0.5) ? needed - 1 : random_below(r, needed);
}

static void damage_byte(struct random *r, uint8_t *bytes, size_t length, uint8_t most) {
    if (length)
        bytes[random_below(r, length)] = (uint8_t)random_from(r, most + 1, random_chance(r, 0.5) ? most + 1 : 255);
}

static void random_bytes(struct random *r, uint8_t *bytes, size_t length) {
    for (size_t i = 0; i < length; i++) bytes[i] = (uint8_t)random_below(r, 2);
}

struct code {
    size_t N, K, mask_length;
    uint8_t mask[LONGEST];
};

static void random_code(struct random *r, struct code *c) {
    c->N = c->mask_length = (size_t)1 << random_from(r, 1, REF_MAX_STAGE);
    random_bytes(r, c->mask, LONGEST);
    random_mask(r, c->mask, c->N);
    c->K = ref_unfrozen(c->mask, c->N);
}

/* How many inputs of a call are damaged: none in half of the calls. */
static int damages(struct random *r) { return random_chance(r, 0.5) ? 0 : (int)random_from(r, 1, 3); }

static void damage_mask(struct random *r, struct code *c) {
    switch (random_below(r, 3)) {
    case 0: c->mask_length = other_length(r, c->N); break;
    case 1: damage_byte(r, c->mask, c->N, RUZNAVO_FROZEN_ONE); break;
    default: c->mask[random_below(r, c->N)] = (uint8_t)random_below(r, 3);
    }
}

/* ---- samples */

static float float_of(uint32_t bits) {
    float f;
    memcpy(&f, &bits, sizeof f);
    return f;
}

static float random_float(struct random *r) {
    static const float special[] = {0.0f,     -0.0f,    0.125f,    0.25f,  -0.25f,  0.75f,
                                    16383.5f, 16384.0f, -16383.5f, 1e-45f, 3.4e38f, -3.4e38f};
    switch (random_below(r, 5)) {
    case 0: return float_of((uint32_t)random_bits(r));
    case 1: return special[random_below(r, sizeof special / sizeof *special)];
    case 2: return (float)random_from(r, -140000, 140000) / 4; /* halves and quarters */
    case 3: return (float)(1.0 + random_gauss(r));
    default: return (float)(random_gauss(r) * pow(10, (double)random_from(r, -6, 6)));
    }
}

static float finite_float(struct random *r) {
    float f = random_float(r);
    return isfinite(f) ? f : 1.0f;
}

/* Neighbours of values at which a rounding turns: y with 2y / v near a whole number and a half. */
static float near_half(struct random *r, float v) {
    float y = (float)((double)random_from(r, -32768, 32767) + 0.5) * v / 2;
    float toward = random_chance(r, 0.5) ? -INFINITY : INFINITY;
    y = random_chance(r, 0.5) ? y : nextafterf(y, toward);
    return isfinite(y) ? y : 0;
}

static float random_variance(struct random *r) {
    static const float special[] = {1.0f, 0.5f, 2.0f, 1e-45f, 1.17549435e-38f, 3.4028235e38f};
    if (random_chance(r, 0.4)) return special[random_below(r, sizeof special / sizeof *special)];
    float v = fabsf(finite_float(r));
    return v > 0 ? v : 1.0f;
}

static float bad_variance(struct random *r) {
    static const uint32_t bits[] = {0,          0x80000000, 0x7F800000, 0xFF800000, 0x7FC00000,
                                    0xFFC00000, 0x7F800001, 0x80000001, 0xBF800000};
    return float_of(bits[random_below(r, sizeof bits / sizeof *bits)]);
}

static void samples_case(struct random *r) {
    static float samples[LONGEST];
    static uint8_t marks[LONGEST];
    size_t N = (size_t)1 << random_from(r, 1, REF_MAX_STAGE), count = N, marks_length = N, room = enough(r, N);
    float v = random_variance(r);
    double sent = random_uniform(r);
    for (size_t i = 0; i < LONGEST; i++) {
        marks[i] = random_chance(r, sent) ? 0 : (uint8_t)random_from(r, 1, 2);
        samples[i] = marks[i] ? random_float(r) : random_chance(r, 0.3) ? near_half(r, v) : finite_float(r);
    }
    for (int d = damages(r); d > 0; d--) switch (random_below(r, 6)) {
        case 0: count = other_length(r, N); break;
        case 1: marks_length = other_length(r, N); break;
        case 2: v = bad_variance(r); break;
        case 3: damage_byte(r, marks, N, 2); break;
        case 4: samples[random_below(r, N)] = float_of(0x7F800000u | (uint32_t)random_bits(r)); break;
        default: room = too_short(r, N);
        }
    place(r, SAMPLE_VALUES, count, sizeof *samples, samples);
    place(r, MARKS, marks_length, 1, marks);
    place(r, LLRS, room, sizeof(int16_t), NULL);
    static const enum slot used[] = {SAMPLE_VALUES, MARKS, LLRS};
    lock(used, 2, 0);
    uint64_t answer = ruznavo_samples(buffer(SAMPLE_VALUES), count, buffer(MARKS), marks_length, v, buffer(LLRS), room);
    lock(used, 2, 1);
    int number = ref_samples(twin(SAMPLE_VALUES), count, twin(MARKS), marks_length, v, twin(LLRS), room);
    compare(SAMPLES, answer, answer_of(number, 0), used, 3);
    if (number == 0) stage_seen[SAMPLES][ref_exponent(count)]++;
}

/* ---- encoder */

static void encode_case(struct random *r) {
    static struct code c;
    static uint8_t payload[LONGEST];
    random_code(r, &c);
    random_bytes(r, payload, LONGEST);
    size_t payload_length = c.K, room = enough(r, c.N);
    for (int d = damages(r); d > 0; d--) switch (random_below(r, 4)) {
        case 0: damage_mask(r, &c); break;
        case 1: payload_length = other_length(r, c.K + 1); break;
        case 2: damage_byte(r, payload, c.K, 1); break;
        default: room = too_short(r, c.N);
        }
    place(r, MASK, c.mask_length, 1, c.mask);
    place(r, PAYLOAD, payload_length, 1, payload);
    place(r, WORD, room, 1, NULL);
    static const enum slot used[] = {MASK, PAYLOAD, WORD};
    lock(used, 2, 0);
    uint64_t answer = ruznavo_encode(buffer(MASK), c.mask_length, buffer(PAYLOAD), payload_length, buffer(WORD), room);
    lock(used, 2, 1);
    int number = ref_encode(twin(MASK), c.mask_length, twin(PAYLOAD), payload_length, twin(WORD), room);
    compare(ENCODE, answer, answer_of(number, 0), used, 3);
    if (number == 0) count_mask(ENCODE, c.mask, c.mask_length);
}

/* ---- transform */

static void transform_case(struct random *r) {
    size_t N = (size_t)1 << random_from(r, 1, REF_MAX_STAGE), length = damages(r) ? other_length(r, N) : N;
    static uint8_t bits[LONGEST], reduced[LONGEST];
    int any = random_chance(r, 0.5); /* bytes stand for bits by their values modulo 2 */
    for (size_t i = 0; i < LONGEST; i++) bits[i] = (uint8_t)random_below(r, any ? 256 : 2);
    place(r, WORD, length, 1, bits);
    static const enum slot used[] = {WORD};
    uint64_t answer = ruznavo_transform(buffer(WORD), length);
    int number = ref_exponent(length) ? 0 : 1;
    for (size_t i = 0; i < LONGEST; i++) reduced[i] = bits[i] % 2;
    if (number == 0) ref_transform(reduced, twin(WORD), length);
    compare(TRANSFORM, answer, answer_of(number, 0), used, 1);
    if (number == 0) stage_seen[TRANSFORM][ref_exponent(length)]++;
}

/* ---- planner and check of a plan */

static void plan_case(struct random *r) {
    static struct code c;
    random_code(r, &c);
    size_t room = enough(r, 2 * c.N);
    for (int d = damages(r); d > 0; d--) {
        if (random_chance(r, 0.6))
            damage_mask(r, &c);
        else
            room = too_short(r, 2 * c.N);
    }
    place(r, MASK, c.mask_length, 1, c.mask);
    place(r, PLAN_BYTES, room, 1, NULL);
    place(r, COUNTS, REF_KINDS, sizeof(uint32_t), NULL);
    static const enum slot used[] = {MASK, PLAN_BYTES, COUNTS};
    uint32_t cycles;
    lock(used, 1, 0);
    uint64_t answer = ruznavo_plan(buffer(MASK), c.mask_length, buffer(PLAN_BYTES), room, buffer(COUNTS));
    lock(used, 1, 1);
    int number = ref_plan(twin(MASK), c.mask_length, twin(PLAN_BYTES), room, twin(COUNTS), &cycles);
    compare(PLAN, answer, answer_of(number, cycles), used, 3);
    if (number == 0) count_mask(PLAN, c.mask, c.mask_length);
}

struct plan {
    size_t length;
    uint8_t bytes[LONGEST];
};

/* The planner's plan, the leaf-only one, or a random allowed one. */
static void any_plan(struct random *r, const struct code *c, struct plan *p) {
    uint32_t counts[REF_KINDS], cycles;
    random_bytes(r, p->bytes, LONGEST);
    p->length = 2 * c->N;
    switch (random_below(r, 3)) {
    case 0: ref_plan(c->mask, c->N, p->bytes, p->length, counts, &cycles); break;
    case 1: leaf_plan(p->bytes, c->N); break;
    default: random_plan(r, c->mask, c->N, p->bytes);
    }
}

static void damage_plan(struct random *r, const struct code *c, struct plan *p) {
    size_t node = (size_t)random_from(r, 1, (int64_t)(2 * c->N - 1));
    switch (random_below(r, 5)) {
    case 0: p->length = other_length(r, 2 * c->N); break;
    case 1: damage_byte(r, p->bytes, 2 * c->N, 1); break;
    case 2: p->bytes[0] = 1; break;
    case 3: p->bytes[node] ^= 1; break;
    default: /* one cut moved to its node's parent, whatever its kind, or to its children */
        if (p->bytes[node] && node < c->N)
            p->bytes[2 * node] = p->bytes[2 * node + 1] = 1;
        else if (node > 1)
            p->bytes[node / 2] = 1;
        p->bytes[node] = 0;
    }
}

static void check_plan_case(struct random *r) {
    static struct code c;
    static struct plan p;
    random_code(r, &c);
    any_plan(r, &c, &p);
    for (int d = damages(r); d > 0; d--) {
        if (random_chance(r, 0.4))
            damage_mask(r, &c);
        else
            damage_plan(r, &c, &p);
    }
    place(r, MASK, c.mask_length, 1, c.mask);
    place(r, PLAN_BYTES, p.length, 1, p.bytes);
    static const enum slot used[] = {MASK, PLAN_BYTES};
    uint32_t cycles;
    lock(used, 2, 0);
    uint64_t answer = ruznavo_check_plan(buffer(MASK), c.mask_length, buffer(PLAN_BYTES), p.length);
    lock(used, 2, 1);
    int number = ref_check_plan(twin(MASK), c.mask_length, twin(PLAN_BYTES), p.length, &cycles);
    compare(CHECK_PLAN, answer, answer_of(number, cycles), used, 2);
    if (number == 0) count_mask(CHECK_PLAN, c.mask, c.mask_length);
}

/* ---- decoder */

/* LLRs of a noisy word of the code, at a random noise variance and on a random scale. */
static void noisy_llrs(struct random *r, const struct code *c, int16_t *llrs) {
    uint8_t payload[REF_MAX_N], word[REF_MAX_N];
    double v = 0.2 + 1.5 * random_uniform(r), scale = (double)((uint64_t)1 << random_below(r, 7));
    random_bytes(r, payload, c->K);
    ref_encode(c->mask, c->N, payload, c->K, word, c->N);
    for (size_t i = 0; i < c->N; i++)
        llrs[i] = (int16_t)lround(scale * 2 * ((word[i] ? -1 : 1) + sqrt(v) * random_gauss(r)) / v);
}

/* One LLR becomes what cancels its soft value: a tie, unless the soft value depends on it. */
static void make_tie(struct random *r, const struct code *c, size_t sweeps, int16_t *llrs) {
    int32_t soft[REF_MAX_N];
    size_t k = random_below(r, c->N);
    ref_scan(c->mask, c->N, llrs, sweeps, soft);
    if (soft[k] >= -RUZNAVO_MAX_LLR && soft[k] <= RUZNAVO_MAX_LLR) llrs[k] = (int16_t)-soft[k];
}

static void random_llrs(struct random *r, const struct code *c, int16_t *llrs) {
    int64_t most = random_chance(r, 0.5) ? RUZNAVO_MAX_LLR : random_from(r, 0, 4);
    for (size_t i = 0; i < LONGEST; i++) llrs[i] = (int16_t)random_from(r, -most, most);
    switch (random_below(r, 4)) {
    case 0:
        for (size_t i = 0; i < c->N; i++) llrs[i] = random_chance(r, 0.5) ? RUZNAVO_MAX_LLR : -RUZNAVO_MAX_LLR;
        break;
    case 1:
        for (size_t i = 0; i < c->N; i++) llrs[i] = RUZNAVO_MAX_LLR;
        break;
    case 2: noisy_llrs(r, c, llrs);
    }
}

struct rooms {
    size_t llrs, sweeps, soft, hard, payload, work;
};

static void damage_decode(struct random *r, struct code *c, struct plan *p, int16_t *llrs, struct rooms *m) {
    static const size_t bad_sweeps[] = {0, 9, 16, 65537, SIZE_MAX};
    switch (random_below(r, 9)) {
    case 0: damage_mask(r, c); break;
    case 1: m->llrs = other_length(r, c->N); break;
    case 2: m->sweeps = bad_sweeps[random_below(r, 5)]; break;
    case 3: damage_plan(r, c, p); break;
    case 4: llrs[random_below(r, c->N)] = INT16_MIN; break;
    case 5: m->soft = too_short(r, c->N); break;
    case 6: m->hard = too_short(r, c->N); break;
    case 7: m->payload = too_short(r, c->K); break;
    default: m->work = too_short(r, RUZNAVO_WORK_WORDS(c->N));
    }
}

/* The nodes from p down to the cuts, for an allowed plan. */
static void count_kinds(const uint8_t *mask, size_t N, const uint8_t *plan, size_t p, int stage) {
    int kind = ref_node_kind(mask, N, p);
    if (kind >= 0) kind_seen[plan[p]][kind][stage]++;
    if (plan[p]) {
        kind_with_ones[kind][stage] += (uint64_t)has_ones(mask + ((p << stage) - N), (size_t)1 << stage);
        return;
    }
    count_kinds(mask, N, plan, 2 * p, stage - 1);
    count_kinds(mask, N, plan, 2 * p + 1, stage - 1);
}

/* An accepted decode again, as request No. 9 also says it: the LLRs flipped where the word of the frozen values has a 1,
 * 1 in the place of each mask byte 2, soft values and decided hard bits flipped back. */
static void compare_flipped(const uint8_t *mask, size_t N, const uint8_t *plan, size_t sweeps, const int16_t *llrs,
                            uint64_t answer) {
    static int32_t soft[REF_MAX_N], work[RUZNAVO_MAX_WORK_WORDS];
    int16_t turned[REF_MAX_N];
    uint8_t word[REF_MAX_N], zeros[REF_MAX_N], hard[REF_MAX_N], payload[REF_MAX_N];
    ref_known_word(mask, word, N);
    for (size_t i = 0; i < N; i++) {
        zeros[i] = mask[i] != RUZNAVO_UNFROZEN;
        turned[i] = (int16_t)(word[i] ? -llrs[i] : llrs[i]);
    }
    uint64_t flipped = ruznavo_decode(zeros, N, plan, 2 * N, sweeps, turned, N, soft, N, hard, N, payload, N, work,
                                      RUZNAVO_MAX_WORK_WORDS);
    for (size_t i = 0; i < N; i++) {
        if (word[i]) soft[i] = -soft[i];
        if (word[i] && hard[i] != RUZNAVO_UNDECIDED) hard[i] ^= 1;
    }
    if (flipped != answer || memcmp(payload, buffer(PAYLOAD), ref_unfrozen(mask, N))) stop("a flipped frame's answer");
    if (memcmp(soft, buffer(SOFT), N * sizeof *soft) || memcmp(hard, buffer(HARD), N)) stop("a flipped frame");
}

/* An accepted decode again, as request No. 10 says it: the LLRs negated where a word has a 1 that the mask encodes with
 * zeros at the frozen positions. Soft values are negated there, decided bits flipped, also those of the payload where the
 * word's payload has a 1; the answer is the same, and no soft value there is certain. */
static void compare_negated(struct random *r, const uint8_t *mask, size_t N, const uint8_t *plan, size_t sweeps,
                            const int16_t *llrs, uint64_t answer) {
    static int32_t soft[REF_MAX_N], work[RUZNAVO_MAX_WORK_WORDS];
    int16_t negated[REF_MAX_N];
    uint8_t zeros[REF_MAX_N], bits[REF_MAX_N], word[REF_MAX_N], hard[REF_MAX_N], payload[REF_MAX_N];
    const int32_t *first = buffer(SOFT);
    size_t K = ref_unfrozen(mask, N);
    for (size_t i = 0; i < N; i++) zeros[i] = mask[i] != RUZNAVO_UNFROZEN;
    random_bytes(r, bits, K);
    ref_encode(zeros, N, bits, K, word, N);
    for (size_t i = 0; i < N; i++) negated[i] = (int16_t)(word[i] ? -llrs[i] : llrs[i]);
    if (ruznavo_decode(mask, N, plan, 2 * N, sweeps, negated, N, soft, N, hard, N, payload, K, work,
                       RUZNAVO_MAX_WORK_WORDS) != answer)
        stop("a negated frame's answer");
    for (size_t i = 0; i < N; i++) {
        if (word[i] && (first[i] == RUZNAVO_CERTAIN || first[i] == RUZNAVO_CERTAIN_ONE)) stop("a certain value");
        if (word[i]) soft[i] = -soft[i];
        if (word[i] && hard[i] != RUZNAVO_UNDECIDED) hard[i] ^= 1;
    }
    for (size_t i = 0; i < K; i++)
        if (bits[i] && payload[i] != RUZNAVO_UNDECIDED) payload[i] ^= 1;
    if (memcmp(soft, first, N * sizeof *soft) || memcmp(hard, buffer(HARD), N) || memcmp(payload, buffer(PAYLOAD), K))
        stop("a negated frame");
}

/* Counts an accepted decode. */
static void count_decode(const struct code *c, const struct plan *p, size_t sweeps, int check, size_t undecided) {
    int stage = ref_exponent(c->mask_length);
    count_mask(DECODE, c->mask, c->mask_length);
    sweeps_seen[sweeps]++;
    undecided_seen[undecided > 0][stage]++;
    if (undecided == 0) check_seen[check]++;
    count_kinds(c->mask, c->mask_length, p->bytes, 1, stage);
}

static void decode_case(struct random *r) {
    static struct code c;
    static struct plan p;
    static int16_t llrs[LONGEST];
    random_code(r, &c);
    any_plan(r, &c, &p);
    random_llrs(r, &c, llrs);
    size_t sweeps = (size_t)random_from(r, 1, random_chance(r, 0.2) ? RUZNAVO_MAX_SWEEPS : 3);
    if (random_chance(r, 0.2)) make_tie(r, &c, sweeps, llrs);
    struct rooms m = {
        c.N, sweeps, enough(r, c.N), enough(r, c.N), enough(r, c.K), enough(r, RUZNAVO_WORK_WORDS(c.N))};
    for (int d = damages(r); d > 0; d--) damage_decode(r, &c, &p, llrs, &m);
    place(r, MASK, c.mask_length, 1, c.mask);
    place(r, PLAN_BYTES, p.length, 1, p.bytes);
    place(r, LLRS, m.llrs, sizeof(int16_t), llrs);
    place(r, SOFT, m.soft, sizeof(int32_t), NULL);
    place(r, HARD, m.hard, 1, NULL);
    place(r, PAYLOAD, m.payload, 1, NULL);
    place(r, WORK, m.work, sizeof(int32_t), NULL);
    static const enum slot used[] = {MASK, PLAN_BYTES, LLRS, SOFT, HARD, PAYLOAD, WORK};
    uint32_t cycles;
    int check;
    size_t undecided;
    lock(used, 3, 0);
    uint64_t answer =
        ruznavo_decode(buffer(MASK), c.mask_length, buffer(PLAN_BYTES), p.length, m.sweeps, buffer(LLRS), m.llrs,
                       buffer(SOFT), m.soft, buffer(HARD), m.hard, buffer(PAYLOAD), m.payload, buffer(WORK), m.work);
    lock(used, 3, 1);
    int number = ref_decode(twin(MASK), c.mask_length, twin(PLAN_BYTES), p.length, m.sweeps, twin(LLRS), m.llrs,
                            twin(SOFT), m.soft, twin(HARD), m.hard, twin(PAYLOAD), m.payload, twin(WORK), m.work,
                            &cycles, &check, &undecided);
    compare(DECODE, answer, answer_of(number, cycles) + ((uint64_t)check << 40) + ((uint64_t)undecided << 41), used, 7);
    if (ruznavo_check(answer) != (unsigned)check || ruznavo_undecided(answer) != undecided) stop("the answer's parts");
    if (number != 0) return;
    count_decode(&c, &p, m.sweeps, check, undecided);
    if (has_ones(c.mask, c.mask_length)) compare_flipped(c.mask, c.mask_length, p.bytes, m.sweeps, llrs, answer);
    compare_negated(r, c.mask, c.mask_length, p.bytes, m.sweeps, llrs, answer);
}

/* ---- flip attempts */

/* Mostly a code with nine unfrozen positions or more, often only a few more. */
static void flip_code(struct random *r, struct code *c) {
    do random_code(r, c);
    while (c->K <= RUZNAVO_CRC_BITS && !random_chance(r, 0.05));
    if (random_chance(r, 0.3) && c->K > RUZNAVO_CRC_BITS) {
        size_t wanted = RUZNAVO_CRC_BITS + 1 + random_below(r, 30);
        for (size_t i = 0; i < c->N && c->K > wanted; i++)
            if (c->mask[i] == RUZNAVO_UNFROZEN) c->mask[i] = RUZNAVO_FROZEN_ZERO, c->K--;
    }
}

/* LLRs of a word whose payload matches its CRC, with some noise. */
static void flip_llrs(struct random *r, const struct code *c, int16_t *llrs) {
    uint8_t payload[REF_MAX_N], word[REF_MAX_N];
    double v = 0.1 + 0.9 * random_uniform(r), scale = (double)((uint64_t)1 << random_below(r, 7));
    random_bytes(r, payload, c->K);
    ref_crc_append(payload, c->K);
    ref_encode(c->mask, c->N, payload, c->K, word, c->N);
    for (size_t i = 0; i < c->N; i++)
        llrs[i] = (int16_t)lround(scale * 2 * ((word[i] ? -1 : 1) + sqrt(v) * random_gauss(r)) / v);
}

struct flip_rooms {
    size_t llrs, sweeps, attempts, payload, work;
};

static void damage_flip(struct random *r, struct code *c, int16_t *llrs, struct flip_rooms *m) {
    static const size_t bad_sweeps[] = {0, 9, 16, 65537, SIZE_MAX}, bad_attempts[] = {32, 33, 256, 65536, SIZE_MAX};
    switch (random_below(r, 8)) {
    case 0: damage_mask(r, c); break;
    case 1: m->llrs = other_length(r, c->N); break;
    case 2: m->sweeps = bad_sweeps[random_below(r, 5)]; break;
    case 3: m->attempts = bad_attempts[random_below(r, 5)]; break;
    case 4: llrs[random_below(r, c->N)] = INT16_MIN; break;
    case 5: m->payload = too_short(r, c->K); break;
    case 6:
        for (size_t i = 0; i < c->N; i++)
            if (c->mask[i] == RUZNAVO_UNFROZEN && random_chance(r, 0.9)) c->mask[i] = RUZNAVO_FROZEN_ONE;
        break;
    default: m->work = too_short(r, RUZNAVO_WORK_WORDS(c->N));
    }
}

/* Counts accepted flip attempts. */
static void count_flip(const struct code *c, size_t attempts, int matched, size_t tries) {
    enum ending e = matched ? tries == 0 ? FIRST_PASS : IN_ATTEMPT : tries == attempts ? ALL_TRIED : RAN_OUT;
    count_mask(FLIP, c->mask, c->mask_length);
    endings_seen[e]++;
    tries_seen[tries]++;
}

static void flip_case(struct random *r) {
    static struct code c;
    static int16_t llrs[LONGEST];
    flip_code(r, &c);
    random_llrs(r, &c, llrs);
    if (c.K > RUZNAVO_CRC_BITS && random_chance(r, 0.8)) flip_llrs(r, &c, llrs);
    size_t few = c.N > 128 && random_chance(r, 0.9) ? 3 : RUZNAVO_MAX_ATTEMPTS;
    struct flip_rooms m = {c.N, (size_t)random_from(r, 1, random_chance(r, 0.2) ? RUZNAVO_MAX_SWEEPS : 2),
                           random_below(r, few + 1), enough(r, c.K), enough(r, RUZNAVO_WORK_WORDS(c.N))};
    for (int d = damages(r); d > 0; d--) damage_flip(r, &c, llrs, &m);
    place(r, MASK, c.mask_length, 1, c.mask);
    place(r, LLRS, m.llrs, sizeof(int16_t), llrs);
    place(r, PAYLOAD, m.payload, 1, NULL);
    place(r, WORK, m.work, sizeof(int32_t), NULL);
    static const enum slot used[] = {MASK, LLRS, PAYLOAD, WORK};
    int matched;
    size_t tries;
    lock(used, 2, 0);
    uint64_t answer = ruznavo_flip(buffer(MASK), c.mask_length, m.sweeps, m.attempts, buffer(LLRS), m.llrs,
                                   buffer(PAYLOAD), m.payload, buffer(WORK), m.work);
    lock(used, 2, 1);
    int number = ref_flip(twin(MASK), c.mask_length, m.sweeps, m.attempts, twin(LLRS), m.llrs, twin(PAYLOAD), m.payload,
                          twin(WORK), m.work, &matched, &tries);
    compare(FLIP, answer, answer_of(number, tries) + ((uint64_t)matched << 40), used, 4);
    if (ruznavo_matched(answer) != (unsigned)matched || ruznavo_attempts(answer) != tries) stop("the answer's parts");
    if (number == 0) count_flip(&c, m.attempts, matched, tries);
}

/* ---- captures */

/* Frames of one code: few, or as many as a capture holds, or one more. */
static void random_capture(struct random *r, const struct code *c, struct capture *all) {
    int16_t llrs[LONGEST];
    size_t most = (RUZNAVO_MAX_CAPTURE - CAPTURE_TRAILER - c->N) / capture_frame_size(c->N);
    size_t frames = random_chance(r, 0.01) ? most + random_below(r, 2) : random_below(r, 6);
    unsigned drains = (unsigned)random_from(r, 1, 64);
    all->frames = all->length = 0;
    while (all->frames < frames) {
        random_llrs(r, c, llrs);
        capture_frame(all, (unsigned)random_below(r, drains), (unsigned)random_from(r, 1, 2), llrs, c->N);
    }
    capture_end(all, c->mask, c->N);
}

/* A number of 16 bits, put somewhere into a frame: as its drain, its sweeps or an LLR. */
static void damage_frame(struct random *r, const struct code *c, struct capture *all) {
    static const uint16_t numbers[] = {0, 8, 9, 63, 64, 256, 0x8000, 0xFFFF};
    uint16_t number = numbers[random_below(r, sizeof numbers / sizeof *numbers)];
    if (all->frames == 0) return;
    size_t at = random_below(r, all->frames) * capture_frame_size(c->N) + 2 * random_below(r, 3);
    all->bytes[at] = (uint8_t)number;
    all->bytes[at + 1] = (uint8_t)(number >> 8);
}

/* Zeros put in somewhere before the trailer. */
static void lengthen(struct random *r, struct capture *all) {
    size_t at = random_below(r, all->length - CAPTURE_TRAILER + 1), more = random_from(r, 1, 2000);
    memmove(all->bytes + at + more, all->bytes + at, all->length - at);
    memset(all->bytes + at, 0, more);
    all->length += more;
}

static void damage_capture(struct random *r, const struct code *c, struct capture *all) {
    uint8_t *trailer = all->bytes + all->length - CAPTURE_TRAILER;
    switch (random_below(r, 6)) {
    case 0: all->length = other_length(r, all->length < LONGEST ? all->length : LONGEST); break;
    case 1: trailer[random_below(r, CAPTURE_TRAILER)] ^= (uint8_t)(1u << random_below(r, 8)); break;
    case 2: damage_byte(r, trailer - c->N, c->N, RUZNAVO_FROZEN_ONE); break;
    case 3: lengthen(r, all); break;
    default: damage_frame(r, c, all);
    }
}

/* A capture whose mask mostly has a length that no code has. */
static void odd_capture(struct random *r, struct code *c, struct capture *all) {
    int16_t llrs[LONGEST] = {0};
    size_t frames = random_below(r, 3);
    c->N = other_length(r, 4);
    memset(c->mask, 0, c->N);
    all->frames = all->length = 0;
    while (all->frames < frames) capture_frame(all, 0, 1, llrs, c->N);
    capture_end(all, c->mask, c->N);
}

static void replay_case(struct random *r) {
    static struct code c;
    static struct capture all;
    random_code(r, &c);
    if (random_chance(r, 0.1)) {
        odd_capture(r, &c, &all);
    } else {
        random_capture(r, &c, &all);
        if (random_chance(r, 0.5)) damage_capture(r, &c, &all);
    }
    size_t room = enough(r, RUZNAVO_MAX_REPLAY), written;
    if (random_chance(r, 0.2)) room = random_chance(r, 0.5) ? RUZNAVO_MAX_REPLAY - 1 : random_below(r, RUZNAVO_MAX_REPLAY);
    place(r, CAPTURE, all.length, 1, all.bytes);
    place(r, TEXT, room, 1, NULL);
    static const enum slot used[] = {CAPTURE, TEXT};
    lock(used, 1, 0);
    uint64_t answer = ruznavo_replay(buffer(CAPTURE), all.length, buffer(TEXT), room);
    lock(used, 1, 1);
    int number = ref_replay(twin(CAPTURE), all.length, twin(TEXT), room, &written);
    compare(REPLAY, answer, answer_of(number, written), used, 2);
    if (number == 0) count_mask(REPLAY, c.mask, c.N);
}

/* ---- masks */

static void mask_by_weight_case(struct random *r) {
    size_t N = (size_t)1 << random_from(r, 1, REF_MAX_STAGE), K = random_below(r, N + 1), room = enough(r, N);
    for (int d = damages(r); d > 0; d--) switch (random_below(r, 3)) {
        case 0: N = other_length(r, N); break;
        case 1: K = random_chance(r, 0.5) ? N + 1 : random_chance(r, 0.5) ? SIZE_MAX : other_length(r, N); break;
        default: room = too_short(r, N);
        }
    place(r, MASK, room, 1, NULL);
    static const enum slot used[] = {MASK};
    uint64_t answer = ruznavo_mask_by_weight(N, K, buffer(MASK), room);
    int number = ref_mask_by_weight(N, K, twin(MASK), room);
    compare(MASK_BY_WEIGHT, answer, answer_of(number, 0), used, 1);
    if (number == 0) stage_seen[MASK_BY_WEIGHT][ref_exponent(N)]++;
}

/* Rates of every size, the least and the largest between 0 and 1 among them. */
static double drawn_rate(struct random *r) {
    static const double edges[] = {0.5, 0.25, 0x1p-1074, 0x1p-1022, 0x1.fffffffffffffp-1, 0x1p-53, 0.9};
    if (random_chance(r, 0.3)) return edges[random_below(r, sizeof edges / sizeof *edges)];
    double z = random_uniform(r);
    return random_chance(r, 0.2) ? ldexp(z, -(int)random_below(r, 1060)) : random_chance(r, 0.2) ? 1 - ldexp(z, -40) : z;
}

/* What is no rate. */
static double bad_rate(struct random *r) {
    static const double bad[] = {0, -0.0, 1, 0x1.0000000000001p0, -0.5, -0x1p-1074, INFINITY, -INFINITY, NAN, 1e308};
    return bad[random_below(r, sizeof bad / sizeof *bad)];
}

static void mask_by_erasure_case(struct random *r) {
    size_t N = (size_t)1 << random_from(r, 1, REF_MAX_STAGE), K = random_below(r, N + 1), room = enough(r, N);
    double z = drawn_rate(r);
    for (int d = damages(r); d > 0; d--) switch (random_below(r, 4)) {
        case 0: N = other_length(r, N); break;
        case 1: K = random_chance(r, 0.5) ? N + 1 : random_chance(r, 0.5) ? SIZE_MAX : other_length(r, N); break;
        case 2: z = bad_rate(r); break;
        default: room = too_short(r, N);
        }
    place(r, MASK, room, 1, NULL);
    static const enum slot used[] = {MASK};
    uint64_t answer = ruznavo_mask_by_erasure(N, K, z, buffer(MASK), room);
    int number = ref_mask_by_erasure(N, K, z, twin(MASK), room);
    compare(MASK_BY_ERASURE, answer, answer_of(number, 0), used, 1);
    if (number == 0) stage_seen[MASK_BY_ERASURE][ref_exponent(N)]++;
}

/* Distances about the rows' weights, powers of two, and others. */
static size_t drawn_distance(struct random *r, size_t N) {
    if (random_chance(r, 0.1)) return SIZE_MAX;
    size_t d = (size_t)1 << random_below(r, 11);
    return random_chance(r, 0.5) ? d + random_below(r, 2) : 1 + random_below(r, 2 * N);
}

static void mask_for_distance_case(struct random *r) {
    size_t N = (size_t)1 << random_from(r, 1, REF_MAX_STAGE), room = enough(r, N);
    size_t K = random_from(r, 1, random_chance(r, 0.3) && N > 10 ? 10 : N), d = drawn_distance(r, N);
    for (int damage = damages(r); damage > 0; damage--) switch (random_below(r, 5)) {
        case 0: N = other_length(r, N); break;
        case 1: K = random_chance(r, 0.5) ? N + 1 : random_chance(r, 0.5) ? SIZE_MAX : other_length(r, N); break;
        case 2: K = 0; break;
        case 3: d = 0; break;
        default: room = too_short(r, N);
        }
    place(r, MASK, room, 1, NULL);
    static const enum slot used[] = {MASK};
    uint64_t answer = ruznavo_mask_for_distance(N, K, d, buffer(MASK), room);
    int found, number = ref_mask_for_distance(N, K, d, twin(MASK), room, &found);
    compare(MASK_FOR_DISTANCE, answer, answer_of(number, (uint64_t)found), used, 1);
    if (ruznavo_found(answer) != (unsigned)found) stop("whether a mask was found");
    if (number == 0) stage_seen[MASK_FOR_DISTANCE][ref_exponent(N)]++, found_seen[found]++;
}

/* ---- document 01's frames and others, so that library and reference cannot be wrong alike there */

/* What is expected of a frame: soft values, hard word and payload, and the parts of the answer. */
struct frame {
    const char *mask;
    size_t sweeps;
    int16_t llrs[8];
    int32_t soft[8];
    const char *hard, *payload;
    uint32_t cycles;
    unsigned check, undecided;
};

static const struct frame frames[] = {
    {"11101000", 1, {3, -2, 5, 1, 4, -6, 2, -1}, {3, -4, 2, -7, 3, -2, 4, -5}, "01010101", "0011", 10, 1, 0},
    {"11101000", 2, {3, -2, 5, 1, 4, -6, 2, -1}, {3, -4, 2, -7, 3, -2, 4, -5}, "01010101", "0011", 20, 1, 0},
    {"1011", 1, {5, -3, 2, 1}, {-1, 2, RUZNAVO_CERTAIN, RUZNAVO_CERTAIN}, "0100", "1", 6, 0, 0},
    {"1011", 2, {5, -3, 2, 1}, {-3, 5, RUZNAVO_CERTAIN, RUZNAVO_CERTAIN}, "0000", "0", 12, 1, 0},
    {"10", 1, {7, -4}, {-4, 7}, "00", "0", 2, 1, 0},
    {"1100", 1, {1, 2, 3, 4}, {3, 4, 1, 2}, "0000", "00", 2, 1, 0},
    {"11", 1, {7, -4}, {RUZNAVO_CERTAIN, RUZNAVO_CERTAIN}, "00", "", 0, 1, 0},
    {"00", 1, {7, -4}, {0, 0}, "01", "11", 0, 1, 0},
    /* and a node of type II and one of type IV, worked out by hand */
    {"11111000", 1, {1, -2, 3, -4, 5, -6, 7, -8}, {13, -12, 13, -14, 9, -8, 9, -10}, "01010101", "011", 4, 1, 0},
    {"11100000", 1, {1, -2, 3, -4, 5, -6, 7, -8}, {5, -6, 7, -6, 1, -2, 3, -4}, "01010101", "00011", 4, 1, 0},
    /* and ties: by an LLR of 0, by two LLRs that cancel, in one half only; a certain bit is none */
    {"00", 1, {7, 0}, {0, 0}, "02", "22", 0, 0, 1},
    {"10", 1, {4, -4}, {-4, 4}, "22", "2", 2, 0, 2},
    {"1100", 1, {1, -2, -1, -4}, {-1, -4, 1, -2}, "2121", "22", 2, 0, 2},
    {"11", 1, {0, 0}, {RUZNAVO_CERTAIN, RUZNAVO_CERTAIN}, "00", "", 0, 1, 0},
    /* and positions frozen to 1: REP and SPC, type IV with ties, type II, type I, type III, REP, SPC, SPC and rate-0 at
     * one sweep and at two, rate-0 twice, and two leaves */
    {"21201000", 1, {3, -2, 5, 1, 4, -6, 2, -1}, {-1, 0, -2, 1, -1, 0, -4, 3}, "01000110", "0110", 10, 1, 0},
    {"21200000", 1, {3, -2, 5, 1, 4, -6, 2, -1}, {-1, 0, -2, -1, -1, 0, -4, 1}, "01020112", "22222", 4, 0, 2},
    {"12112000", 1, {3, -2, 5, 1, 4, -6, 2, -1}, {-4, 6, 2, 0, -3, 2, 5, 2}, "10000100", "100", 4, 1, 0},
    {"21121100", 1, {3, -2, 5, 1, 4, -6, 2, -1}, {1, 8, -9, 5, 0, 0, 2, -5}, "00100101", "11", 2, 1, 0},
    {"1200", 1, {1, 2, 3, 4}, {-3, -4, -1, -2}, "1100", "00", 2, 1, 0},
    {"2110", 1, {5, -3, 2, 1}, {0, -2, -7, -6}, "0111", "1", 2, 1, 0},
    {"2000", 1, {5, -3, 2, 1}, {1, -1, 1, 2}, "0100", "100", 2, 1, 0},
    {"1012", 1, {5, -3, 2, 1}, {1, -2, RUZNAVO_CERTAIN_ONE, RUZNAVO_CERTAIN_ONE}, "0111", "0", 6, 0, 0},
    {"1012", 2, {5, -3, 2, 1}, {-3, 5, RUZNAVO_CERTAIN_ONE, RUZNAVO_CERTAIN_ONE}, "0011", "1", 12, 1, 0},
    {"21", 1, {7, -4}, {RUZNAVO_CERTAIN_ONE, RUZNAVO_CERTAIN}, "10", "", 0, 1, 0},
    {"22", 1, {0, 0}, {RUZNAVO_CERTAIN, RUZNAVO_CERTAIN_ONE}, "01", "", 0, 1, 0},
    {"02", 1, {0, -4}, {0, RUZNAVO_CERTAIN_ONE}, "21", "2", 2, 0, 1},
};

/* Whether bytes are these digits. */
static int are_digits(const uint8_t *bytes, const char *digits) {
    for (size_t i = 0; digits[i]; i++)
        if (bytes[i] != digits[i] - '0') return 0;
    return 1;
}

static void run_frame(const struct frame *f) {
    uint8_t mask[8], plan[16], hard[8], payload[8];
    uint32_t counts[RUZNAVO_KINDS];
    int32_t soft[8], reference[8], work[48];
    size_t N = strlen(f->mask), K = strlen(f->payload);
    for (size_t i = 0; i < N; i++) mask[i] = (uint8_t)(f->mask[i] - '0');
    if (ruznavo_number(ruznavo_plan(mask, N, plan, 2 * N, counts))) stop("a frame's plan");
    uint64_t answer =
        ruznavo_decode(mask, N, plan, 2 * N, f->sweeps, f->llrs, N, soft, N, hard, N, payload, K, work, 48);
    ref_scan(mask, N, f->llrs, f->sweeps, reference);
    if (ruznavo_number(answer) || ruznavo_cycles(answer) != f->cycles) stop("a frame's answer");
    if (ruznavo_check(answer) != f->check || ruznavo_undecided(answer) != f->undecided) stop("a frame's check");
    if (memcmp(soft, f->soft, N * sizeof *soft) || memcmp(reference, f->soft, N * sizeof *soft))
        stop("a frame's soft values");
    if (!are_digits(hard, f->hard) || !are_digits(payload, f->payload)) stop("a frame's bits");
}

/* LLRs of 0 and no frozen position: as many undecided bits as there can be. */
static void run_undecided(void) {
    static const int16_t llrs[REF_MAX_N] = {0};
    static uint8_t mask[REF_MAX_N], plan[2 * REF_MAX_N] = {0, 1}, hard[REF_MAX_N], payload[REF_MAX_N];
    static int32_t soft[REF_MAX_N], work[RUZNAVO_MAX_WORK_WORDS];
    size_t N = REF_MAX_N;
    uint64_t answer =
        ruznavo_decode(mask, N, plan, 2 * N, 8, llrs, N, soft, N, hard, N, payload, N, work, RUZNAVO_MAX_WORK_WORDS);
    if (answer != (uint64_t)1024 << 41 || ruznavo_undecided(answer) != 1024) stop("1024 undecided bits");
    for (size_t i = 0; i < N; i++)
        if (hard[i] != RUZNAVO_UNDECIDED || payload[i] != RUZNAVO_UNDECIDED) stop("an undecided bit");
}

/* Flip attempts, up to five, worked out from the definitions (crates/model/proofs/FlipExamples.antt): a match in the
 * first pass, in attempt 4, and none. */
static void run_flips(void) {
    static const struct {
        int16_t llrs[16];
        unsigned matched, attempts;
        const char *payload;
    } flips[] = {{{-2, 2, -10, -9, 7, 2, -1, 4, -9, -6, -4, -9, -10, 0, -10, -7}, 1, 0, "11010000001"},
                 {{-6, -8, 9, -10, 2, -3, -2, 9, -2, 0, 1, 2, 10, 3, -2, 1}, 1, 4, "11010000001"},
                 {{-2, -1, -7, 0, 10, 6, -3, 8, -1, 2, -8, -9, -3, -6, 0, -1}, 0, 5, "00111000001"}};
    static const uint8_t mask[16] = {1, 1, 1, 0, 2, 0, 0, 0, 1};
    static int32_t work[RUZNAVO_WORK_WORDS(16)];
    for (size_t i = 0; i < sizeof flips / sizeof *flips; i++) {
        uint8_t payload[2][11];
        int matched;
        size_t tries;
        uint64_t answer = ruznavo_flip(mask, 16, 2, 5, flips[i].llrs, 16, payload[0], 11, work, RUZNAVO_WORK_WORDS(16));
        ref_flip(mask, 16, 2, 5, flips[i].llrs, 16, payload[1], 11, work, RUZNAVO_WORK_WORDS(16), &matched, &tries);
        if (ruznavo_number(answer) || (unsigned)matched != flips[i].matched || tries != flips[i].attempts)
            stop("a flipped frame's reference");
        if (ruznavo_matched(answer) != flips[i].matched || ruznavo_attempts(answer) != flips[i].attempts)
            stop("a flipped frame's match");
        if (!are_digits(payload[0], flips[i].payload) || !are_digits(payload[1], flips[i].payload))
            stop("a flipped frame's payload");
    }
}

/* A capture of one frame of two positions. */
static void run_capture(uint8_t first, uint8_t second, int16_t first_llr, int16_t second_llr, const char *line) {
    const uint8_t mask[2] = {first, second};
    const int16_t llrs[2] = {first_llr, second_llr};
    static uint8_t text[RUZNAVO_MAX_REPLAY];
    static struct capture all;
    all.frames = all.length = 0;
    capture_frame(&all, 5, 1, llrs, 2);
    capture_end(&all, mask, 2);
    uint64_t answer = ruznavo_replay(all.bytes, all.length, text, sizeof text);
    if (answer != answer_of(0, strlen(line)) || memcmp(text, line, strlen(line))) stop(line);
}

/* Two undecided bits: the check is 0, and both differ from the LLRs' signs. Two bits that are fixed to 1: the check is
 * 1, and the first differs. */
static void run_captures(void) {
    run_capture(RUZNAVO_FROZEN_ZERO, RUZNAVO_UNFROZEN, 3, -3, "5 1 0 2 2\n");
    run_capture(RUZNAVO_FROZEN_ZERO, RUZNAVO_FROZEN_ONE, 3, -3, "5 1 1 1 0\n");
}

/* The report's places by name: a plan with one cut, the root. Of 2 and 4 positions two kinds fit. */
static void run_counts(void) {
    static const struct {
        const char *mask;
        int place;
    } one_cut[] = {{"11", RUZNAVO_RATE_0},         {"00", RUZNAVO_RATE_1},         {"10", RUZNAVO_SPC},
                   {"1000", RUZNAVO_SPC},          {"1110", RUZNAVO_REP},          {"1100", RUZNAVO_TYPE_III},
                   {"11000000", RUZNAVO_TYPE_III}, {"11111100", RUZNAVO_TYPE_I},   {"11111000", RUZNAVO_TYPE_II},
                   {"11100000", RUZNAVO_TYPE_IV},  {"12", RUZNAVO_RATE_0},         {"2000", RUZNAVO_SPC},
                   {"1220", RUZNAVO_REP},          {"12000000", RUZNAVO_TYPE_III}, {"21112100", RUZNAVO_TYPE_I},
                   {"11112000", RUZNAVO_TYPE_II},  {"22200000", RUZNAVO_TYPE_IV}};
    for (size_t i = 0; i < sizeof one_cut / sizeof *one_cut; i++) {
        uint8_t mask[8], plan[16];
        uint32_t counts[RUZNAVO_KINDS];
        size_t N = strlen(one_cut[i].mask);
        for (size_t k = 0; k < N; k++) mask[k] = (uint8_t)(one_cut[i].mask[k] - '0');
        if (ruznavo_number(ruznavo_plan(mask, N, plan, 2 * N, counts))) stop("a plan of one cut");
        for (int kind = 0; kind < RUZNAVO_KINDS; kind++)
            if (counts[kind] != (kind == one_cut[i].place)) stop("a place of the report");
    }
}

/* Masks of which each byte stands first: up to 2 they are accepted. */
static void run_mask_bytes(void) {
    for (unsigned byte = 0; byte < 256; byte++) {
        uint8_t mask[2] = {(uint8_t)byte, 0}, plan[4];
        uint32_t counts[RUZNAVO_KINDS];
        unsigned number = ruznavo_number(ruznavo_plan(mask, 2, plan, 4, counts));
        if (number != (byte > 2 ? RUZNAVO_BAD_MASK : RUZNAVO_OK)) stop("a mask byte");
    }
}

/* The word of payload 0011 under a mask: document 01's ninth frame, and one with positions frozen to 1. */
static void run_words(void) {
    static const uint8_t masks[2][8] = {{1, 1, 1, 0, 1, 0, 0, 0}, {1, 2, 1, 0, 2, 0, 0, 0}}, payload[4] = {0, 0, 1, 1},
                         words[2][8] = {{0, 1, 0, 1, 0, 1, 0, 1}, {0, 0, 0, 1, 1, 1, 0, 1}};
    uint8_t bits[2][8];
    for (int i = 0; i < 2; i++) {
        if (ruznavo_encode(masks[i], 8, payload, 4, bits[0], 8) || ref_encode(masks[i], 8, payload, 4, bits[1], 8))
            stop("the word's answer");
        if (memcmp(bits[0], words[i], 8) || memcmp(bits[1], words[i], 8)) stop("the word");
    }
}

static void run_frames(void) {
    static const float samples[8] = {0.125f, 0.25f, -0.25f, 0.75f, 16383.5f, 16384.0f, 1.0f, NAN};
    static const uint8_t marks[8] = {0, 0, 0, 0, 0, 0, 1, 2};
    static const int16_t llrs[8] = {0, 1, -1, 2, 32767, 32767, 0, 32767};
    int16_t values[2][8];
    for (size_t i = 0; i < sizeof frames / sizeof *frames; i++) run_frame(&frames[i]);
    run_undecided();
    run_flips();
    run_captures();
    run_words();
    if (ruznavo_samples(samples, 8, marks, 8, 1, values[0], 8) || ref_samples(samples, 8, marks, 8, 1, values[1], 8))
        stop("the samples' answer");
    if (memcmp(values[0], llrs, sizeof llrs) || memcmp(values[1], llrs, sizeof llrs)) stop("the samples");
}

/* ---- what the header itself has */

/* Every number has a name of its own, and any other has the same one. */
static void run_names(void) {
    for (unsigned a = 0; a < NUMBERS + 1; a++)
        for (unsigned b = 0; b < a; b++)
            if (strcmp(ruznavo_number_name(a), ruznavo_number_name(b)) == 0) stop("two numbers of one name");
    if (strcmp(ruznavo_number_name(NUMBERS), ruznavo_number_name(255))) stop("an unknown number's name");
}

static void run_header(void) {
    char version[40];
    snprintf(version, sizeof version, "%d.%d.%d", RUZNAVO_VERSION_MAJOR, RUZNAVO_VERSION_MINOR, RUZNAVO_VERSION_PATCH);
    if (strcmp(version, RUZNAVO_VERSION)) stop("the version's text");
    for (size_t n = 1, N = RUZNAVO_MIN_N; N <= RUZNAVO_MAX_N; n++, N *= 2)
        if (RUZNAVO_WORK_WORDS(N) != N * (n + 3)) stop("the workspace's words");
    if (RUZNAVO_MAX_WORK_WORDS != 1024 * 13) stop("the longest workspace");
    run_names();
}

/* A mask worked out by hand. */
static void run_mask(void) {
    static const uint8_t expected[8] = {1, 1, 1, 1, 1, 0, 0, 0};
    uint8_t mask[8];
    if (ruznavo_mask_by_weight(8, 3, mask, 8) || memcmp(mask, expected, 8)) stop("the mask of 8 and 3");
    memset(mask, 7, sizeof mask);
    if (ruznavo_mask_for_distance(8, 3, 5, mask, 8) != 0 || mask[0] != 7 || mask[7] != 7) stop("no mask of distance 5");
    if (ruznavo_mask_for_distance(8, 3, 4, mask, 8) != 256 || memcmp(mask, expected, 8)) stop("a mask of distance 4");
    static const uint8_t at_half[4] = {1, 1, 0, 0};
    if (ruznavo_mask_by_erasure(4, 2, 0.5, mask, 4) || memcmp(mask, at_half, 4)) stop("the mask of 4 and 2 at 1/2");
}

/* ---- what was tried */

static uint64_t undecided_decodes(void) {
    uint64_t count = 0;
    for (int n = 1; n <= REF_MAX_STAGE; n++) count += undecided_seen[1][n];
    return count;
}

static void report(void) {
    for (int call = 0; call < CALLS; call++) {
        printf("%-17s", call_names[call]);
        for (int number = 0; number < NUMBERS; number++)
            if (number_seen[call][number]) printf("  %d: %" PRIu64, number, number_seen[call][number]);
        printf("\n");
    }
    printf("decodes accepted with an undecided bit: %" PRIu64 "\n", undecided_decodes());
    printf("decodes accepted with none, frozen check 0: %" PRIu64 ", 1: %" PRIu64 "\n", check_seen[0], check_seen[1]);
    printf("decodes accepted with a position frozen to 1: %" PRIu64 "\n", ones_seen[DECODE]);
    printf("flip attempts, match in the first pass: %" PRIu64 ", in an attempt: %" PRIu64 ", none: %" PRIu64
           ", none and positions ran out: %" PRIu64 "\n",
           endings_seen[FIRST_PASS], endings_seen[IN_ATTEMPT], endings_seen[ALL_TRIED], endings_seen[RAN_OUT]);
    printf("masks for a distance, none: %" PRIu64 ", found: %" PRIu64 "\n", found_seen[0], found_seen[1]);
}

/* A run of some length has tried every number that a call can answer, every N, positions frozen to 1 in each call with
 * a mask, every sweep count, undecided bits, without these both checks, every ending of flip attempts, and masks for a
 * distance that are found and that are not. */
static void all_tried(void) {
    static const enum call with_mask[] = {ENCODE, PLAN, CHECK_PLAN, DECODE, REPLAY, FLIP};
    for (size_t i = 0; i < sizeof with_mask / sizeof *with_mask; i++)
        if (!ones_seen[with_mask[i]]) stop("positions frozen to 1 not tried");
    for (int call = 0; call < CALLS; call++) {
        for (int number = 0; number < NUMBERS; number++)
            if ((number_seen[call][number] > 0) != (answers[call] >> number & 1))
                stop("a number not tried, or not the call's");
        for (int n = least_stage_of[call]; n <= REF_MAX_STAGE; n++)
            if (!stage_seen[call][n]) stop("an N not tried");
    }
    for (int e = 0; e < ENDINGS; e++)
        if (!endings_seen[e]) stop("an ending of flip attempts not tried");
    for (int sweeps = 1; sweeps <= REF_MAX_SWEEPS; sweeps++)
        if (!sweeps_seen[sweeps]) stop("a number of sweeps not tried");
    if (!undecided_decodes()) stop("undecided bits not tried");
    if (!check_seen[0] || !check_seen[1]) stop("a frozen check not tried");
    if (!found_seen[0] || !found_seen[1]) stop("a mask for a distance, found or not, not tried");
}

/* A longer run has ended with every number of attempts, and has cut every kind at every size at which a node has it,
 * also with a position frozen to 1, and gone below it where there are children. And it has decoded with an undecided
 * bit and with none at every N. */
static void all_kinds_tried(void) {
    static const int least_stage[REF_KINDS] = {0, 0, 1, 2, 2, 3, 3, 3};
    for (int t = 0; t <= RUZNAVO_MAX_ATTEMPTS; t++)
        if (!tries_seen[t]) stop("a number of attempts not tried");
    for (int n = 1; n <= REF_MAX_STAGE; n++)
        if (!undecided_seen[0][n] || !undecided_seen[1][n]) stop("undecided bits, or none, not tried at an N");
    for (int kind = 0; kind < REF_KINDS; kind++)
        for (int n = 0; n <= REF_MAX_STAGE; n++) {
            int exists = n >= least_stage[kind];
            if ((kind_seen[1][kind][n] > 0) != exists) stop("a kind not cut at a size, or not one of that size");
            if ((kind_with_ones[kind][n] > 0) != (exists && kind != RUZNAVO_RATE_1)) stop("a kind not cut with ones");
            if ((kind_seen[0][kind][n] > 0) != (exists && n > 0)) stop("a kind not gone below at a size");
        }
}

int main(int argc, char **argv) {
    static void (*const run[CALLS])(struct random *) = {
        samples_case, encode_case, transform_case,      plan_case,             check_plan_case,
        decode_case,  replay_case, mask_by_weight_case, mask_for_distance_case, flip_case,
        mask_by_erasure_case};
    uint64_t cases = argc > 2 ? strtoull(argv[2], NULL, 10) : 50000, first = argc > 3 ? strtoull(argv[3], NULL, 10) : 0;
    if (argc > 1) seed = strtoull(argv[1], NULL, 10);
    signal(SIGSEGV, fault);
    signal(SIGBUS, fault);
    for (int s = 0; s < SLOTS; s++) guarded_map(&slots[s], slot_names[s]);
    run_header();
    run_frames();
    run_counts();
    run_mask_bytes();
    run_mask();
    for (case_number = first; case_number < first + cases; case_number++) {
        struct random r = random_case(seed, case_number);
        run[case_number % CALLS](&r);
    }
    report();
    if (cases >= 5000) all_tried();
    if (cases >= 50000) all_kinds_tried();
    printf("test: ok, seed %" PRIu64 ", %" PRIu64 " cases\n", seed, cases);
    return 0;
}
