/*
 * Compares ruznavo_square with the reference on random calls, valid and damaged: the answer, the output with its tail,
 * that inputs stay, and guard bytes and pages around every buffer.
 *
 *     square_test [SEED [CASES [FIRST]]]
 *
 * A difference prints seed and case number and exits 1; `square_test SEED 1 CASE` runs that case again.
 */
#define _DEFAULT_SOURCE
#include "codes.h"
#include "guarded.h"
#include "random.h"
#include "reference.h"
#include "ruznavo_square.h"
#include "square.h"

#include <inttypes.h>
#include <signal.h>
#include <stdio.h>
#include <stdlib.h>
#include <string.h>
#include <unistd.h>

/* The longest mask and the most LLR bytes that a damaged call has. */
enum { LONGEST_MASK = 2100, LONGEST = 2 * RUZNAVO_SQUARE_BYTES(RUZNAVO_SQUARE_MAX_N), MAX_STAGE = 5 };

static uint64_t seed = 1, case_number;

/* Of all calls the number; of accepted ones N with the half-iterations, whether the output is longer than it must be,
 * and whether the mask has a position frozen to 1. */
enum { NUMBERS = RUZNAVO_SQUARE_BAD_HALF_ITERATIONS + 1 };
static uint64_t number_seen[NUMBERS], half_iterations_seen[MAX_STAGE + 1][RUZNAVO_SQUARE_MAX_HALF_ITERATIONS + 1],
    tail_seen[2], ones_seen[2];

/* The numbers that the call can answer, as bits. */
static const uint32_t answers = 1u << 0 | 1u << 1 | 1u << 2 | 1u << 3 | 1u << 7 | 1u << 11 | 1u << 22 | 1u << 23;

/* What was clamped in accepted calls, by direction: inputs and sums, by the cause. */
enum clamped { INPUT, SUM, CLAMPED };
enum cause { BEYOND, BELOW, CERTAIN, CERTAIN_ONE, CAUSES };
static const char *const cause_names[CAUSES] = {"above 32767", "below -32767", "certain", "certain of a 1"};
static uint64_t cause_seen[REF_DIRECTIONS][CLAMPED][CAUSES];

/* Accepted calls whose LLRs have the signs of a word, without and with positions frozen to 1. */
static uint64_t words_seen[2];

enum slot { MASK, LLRS, OUT, SLOTS };
static const char *const slot_names[SLOTS] = {"mask", "llrs", "out"};
static struct guarded slots[SLOTS];

static void stop(const char *what) {
    printf("%s: seed %" PRIu64 ", case %" PRIu64 "\n", what, seed, case_number);
    exit(1);
}

static void fault(int signal) {
    char text[96];
    int length =
        snprintf(text, sizeof text,
                 "memory outside a buffer or an input touched (signal %d): seed %" PRIu64 ", case %" PRIu64 "\n",
                 signal, seed, case_number);
    if (write(STDOUT_FILENO, text, (size_t)(length < 95 ? length : 95)) < 0) _exit(2);
    _exit(1);
}

/* ---- calls */

/* N is that of the mask before it is damaged. */
struct call {
    size_t N, mask_length, half_iterations, llrs_length, out_length;
    uint8_t mask[LONGEST_MASK], llrs[LONGEST];
    int is_word; /* the LLRs have the signs of this word */
    uint8_t word[REF_PLACES];
};

/* A word of the product code with a drawn payload; 0 where the mask has none. */
static int random_word(struct random *r, const struct call *c, uint8_t *word) {
    for (size_t p = 0; p < c->N * c->N; p++) word[p] = (uint8_t)random_below(r, 2);
    return ref_square_word(c->mask, c->N, word);
}

/* LLRs of a noisy word, at a random noise variance and on a random scale. */
static void noisy_llrs(struct random *r, struct call *c) {
    uint8_t word[REF_PLACES];
    double v = 0.2 + 1.5 * random_uniform(r), scale = (double)((uint64_t)1 << random_below(r, 8));
    random_word(r, c, word);
    for (size_t p = 0; p < c->N * c->N; p++)
        ref_put_llr(c->llrs, p, (int16_t)lround(scale * 2 * ((word[p] ? -1 : 1) + sqrt(v) * random_gauss(r)) / v));
}

/* LLRs of any size above 0 with the signs of a word. */
static void word_llrs(struct random *r, struct call *c, int64_t most) {
    c->is_word = random_word(r, c, c->word);
    for (size_t p = 0; p < c->N * c->N; p++) {
        int64_t size = random_from(r, 1, most);
        ref_put_llr(c->llrs, p, (int16_t)(c->word[p] ? -size : size));
    }
}

static void random_llrs(struct random *r, struct call *c) {
    static const int64_t sizes[] = {0, 1, 4, 300, 5000, 32767};
    int64_t most = sizes[random_below(r, sizeof sizes / sizeof *sizes)];
    c->is_word = 0;
    for (size_t p = 0; p < LONGEST / 2; p++) ref_put_llr(c->llrs, p, (int16_t)random_from(r, -most, most));
    switch (random_below(r, 5)) {
    case 0:
        for (size_t p = 0; p < c->N * c->N; p++) ref_put_llr(c->llrs, p, random_chance(r, 0.5) ? 32767 : -32767);
        break;
    case 1: noisy_llrs(r, c); break;
    case 2: word_llrs(r, c, most > 0 ? most : 1); break;
    }
}

static void random_call(struct random *r, struct call *c) {
    c->N = c->mask_length = (size_t)1 << random_from(r, 1, MAX_STAGE);
    for (size_t i = 0; i < LONGEST_MASK; i++) c->mask[i] = (uint8_t)random_below(r, 3);
    random_mask(r, c->mask, c->N);
    c->half_iterations = (size_t)random_from(r, 1, random_chance(r, 0.3) ? RUZNAVO_SQUARE_MAX_HALF_ITERATIONS : 3);
    c->llrs_length = RUZNAVO_SQUARE_BYTES(c->N);
    c->out_length = c->llrs_length + (random_chance(r, 0.5) ? 0 : random_below(r, 70));
    random_llrs(r, c);
}

/* ---- damaged calls */

static size_t other_mask_length(struct random *r, size_t N) {
    size_t choices[] = {0,  1,   3,   N - 1, N + 1, N / 2, 2 * N, 33,
                        64, 128, 256, 512,   1024,  2048,  random_below(r, LONGEST_MASK)};
    return choices[random_below(r, sizeof choices / sizeof *choices)];
}

static size_t other_llrs_length(struct random *r, size_t N) {
    size_t right = RUZNAVO_SQUARE_BYTES(N);
    size_t choices[] = {0,         1,         N,         2 * N,     N * N,
                        right - 2, right - 1, right + 1, right + 2, 2 * right, random_below(r, right)};
    return choices[random_below(r, sizeof choices / sizeof *choices)];
}

static size_t bad_half_iterations(struct random *r) {
    static const size_t bad[] = {0, 17, 18, 32, 256, 257, 65537, ((size_t)1 << 32) + 1, SIZE_MAX};
    return bad[random_below(r, sizeof bad / sizeof *bad)];
}

static void damage(struct random *r, struct call *c) {
    size_t needed = RUZNAVO_SQUARE_BYTES(c->N);
    switch (random_below(r, 7)) {
    case 0: c->mask_length = other_mask_length(r, c->N); break;
    case 1: c->mask[random_below(r, c->N)] = (uint8_t)random_from(r, 3, random_chance(r, 0.5) ? 3 : 255); break;
    case 2: c->mask[random_below(r, c->N)] = (uint8_t)random_below(r, 3); break;
    case 3: c->llrs_length = other_llrs_length(r, c->N); break;
    case 4: c->half_iterations = bad_half_iterations(r); break;
    case 5: ref_put_llr(c->llrs, random_below(r, c->N * c->N), INT16_MIN); break;
    default: c->out_length = random_chance(r, 0.5) ? needed - 1 : random_below(r, needed);
    }
    c->is_word = 0;
}

/* ---- what an accepted call has met */

static void count_sum(uint64_t *seen, int16_t llr, int32_t soft) {
    if (soft == INT32_MAX) seen[CERTAIN]++;
    else if (soft == -INT32_MAX) seen[CERTAIN_ONE]++;
    else if (llr + soft > 32767) seen[BEYOND]++;
    else if (llr + soft < -32767) seen[BELOW]++;
}

/* The sums of the last half-iteration: its inputs were made of the channel's LLRs and the other direction's soft
 * values. */
static void count_sums(const struct ref_frame *f) {
    enum ref_direction by = ref_direction_of(f->half_iterations - 1);
    for (size_t p = 0; p < f->N * f->N; p++) {
        count_sum(cause_seen[by][INPUT], f->channel[p], f->soft[1 - by][p]);
        count_sum(cause_seen[by][SUM], f->input[p], f->soft[by][p]);
    }
}

static void count_accepted(const struct call *c) {
    static struct ref_frame f;
    int has_ones = memchr(c->mask, REF_ONE, c->mask_length) != NULL;
    half_iterations_seen[ref_exponent(c->mask_length)][c->half_iterations]++;
    tail_seen[c->out_length > RUZNAVO_SQUARE_BYTES(c->mask_length)]++;
    ones_seen[has_ones]++;
    words_seen[has_ones] += (uint64_t)c->is_word;
    ref_square_start(&f, c->mask_length, c->llrs);
    while (f.half_iterations < c->half_iterations) {
        ref_square_next(&f, c->mask);
        count_sums(&f);
    }
}

/* Where the LLRs have the signs of a word, the sums have them too. */
static void compare_word(const struct call *c, const uint8_t *out) {
    for (size_t p = 0; p < c->N * c->N; p++) {
        int16_t sum = ref_llr_at(out, p);
        if (sum == 0 || (sum < 0) != c->word[p]) stop("a word's signs");
    }
}

static void run_case(struct random *r) {
    static struct call c;
    random_call(r, &c);
    for (int64_t d = random_chance(r, 0.5) ? 0 : random_from(r, 1, 3); d > 0; d--) damage(r, &c);
    guarded_place(&slots[MASK], r, c.mask_length, 1, c.mask);
    guarded_place(&slots[LLRS], r, c.llrs_length, 1, c.llrs);
    guarded_place(&slots[OUT], r, c.out_length, 1, NULL);
    for (int s = MASK; s <= LLRS; s++) guarded_writable(&slots[s], 0);
    uint64_t answer =
        ruznavo_square(guarded_buffer(&slots[MASK]), c.mask_length, c.half_iterations, guarded_buffer(&slots[LLRS]),
                       c.llrs_length, guarded_buffer(&slots[OUT]), c.out_length);
    for (int s = MASK; s <= LLRS; s++) guarded_writable(&slots[s], 1);
    uint64_t expected =
        ref_square(guarded_twin(&slots[MASK]), c.mask_length, c.half_iterations, guarded_twin(&slots[LLRS]),
                   c.llrs_length, guarded_twin(&slots[OUT]), c.out_length);
    if (answer != expected) {
        printf("the answer is %" PRIx64 ", and %" PRIx64 " is expected\n", answer, expected);
        stop("wrong answer");
    }
    for (int s = 0; s < SLOTS; s++)
        if (guarded_differs(&slots[s])) stop("a buffer");
    number_seen[ruznavo_square_number(answer)]++;
    if (ruznavo_square_number(answer)) return;
    count_accepted(&c);
    if (c.is_word) compare_word(&c, guarded_buffer(&slots[OUT]));
}

/* ---- frames worked out by hand, so that library and reference cannot be wrong alike there */

struct frame {
    const char *mask;
    size_t half_iterations;
    int16_t llrs[16], sums[16];
    uint32_t cycles;
};

static const struct frame frames[] = {
    /* no position frozen: soft values of 0 */
    {"00", 5, {7, -4, 0, 32767}, {7, -4, 0, 32767}, 0},
    /* SPC: a place has the LLR of the other one as its soft value */
    {"10", 1, {7, -4, -1, -3}, {3, 3, -4, -4}, 4},
    {"10", 2, {7, -4, -1, -3}, {-1, -1, -1, -1}, 8},
    {"10", 3, {7, -4, -1, -3}, {-5, -5, 2, 2}, 12},
    /* its negative where the first position is frozen to 1 */
    {"20", 1, {7, -4, -1, -3}, {11, -11, 2, -2}, 4},
    {"20", 2, {7, -4, -1, -3}, {9, -9, -9, 9}, 8},
    /* clamped sums, and inputs of 32767 and not 40000 */
    {"10", 1, {20000, 20000, -1, -2}, {32767, 32767, -3, -3}, 4},
    {"10", 2, {20000, 20000, -1, -2}, {32764, 32764, 32764, 32764}, 8},
    {"10", 2, {-20000, -20000, 1, 2}, {-32764, -32764, -32764, -32764}, 8},
    /* all bits known, by rows and by columns */
    {"11", 1, {-5, 0, 3, -32767}, {32767, 32767, 32767, 32767}, 0},
    {"22", 1, {-5, 0, 3, -32767}, {32767, -32767, 32767, -32767}, 0},
    {"22", 2, {-5, 0, 3, -32767}, {32767, 32767, -32767, -32767}, 0},
    /* the second position known, and with it the second bit of a line; the first has a soft value of 0 */
    {"01", 1, {-5, 9, 3, -7}, {-5, 32767, 3, 32767}, 4},
    {"01", 2, {-5, 9, 3, -7}, {-5, 32767, 32767, 32767}, 8},
    {"02", 1, {-5, 9, 3, -7}, {-5, -32767, 3, -32767}, 4},
    /* REP: a place has the sum of the others, so all become the line's sum, and then the frame's */
    {"1110", 1, {1, 2, 3, 4, 5, 6, 7, 8, 9, 10, 11, 12, 13, 14, 15, 16},
     {10, 10, 10, 10, 26, 26, 26, 26, 42, 42, 42, 42, 58, 58, 58, 58}, 8},
    {"1110", 2, {1, 2, 3, 4, 5, 6, 7, 8, 9, 10, 11, 12, 13, 14, 15, 16},
     {136, 136, 136, 136, 136, 136, 136, 136, 136, 136, 136, 136, 136, 136, 136, 136}, 16},
};

/* Whether a call, the library's or the reference's, gives the frame's sums and cycles. */
typedef uint64_t square_call(const uint8_t *mask, size_t mask_length, size_t half_iterations, const uint8_t *llrs,
                             size_t llrs_length, uint8_t *out, size_t out_length);

static int gives_frame(square_call *call, const struct frame *f) {
    uint8_t mask[4], llrs[32], out[32];
    size_t N = strlen(f->mask), bytes = RUZNAVO_SQUARE_BYTES(N);
    for (size_t i = 0; i < N; i++) mask[i] = (uint8_t)(f->mask[i] - '0');
    for (size_t p = 0; p < N * N; p++) ref_put_llr(llrs, p, f->llrs[p]);
    uint64_t answer = call(mask, N, f->half_iterations, llrs, bytes, out, bytes);
    if (ruznavo_square_number(answer) || ruznavo_square_cycles(answer) != f->cycles) return 0;
    for (size_t p = 0; p < N * N; p++)
        if (ref_llr_at(out, p) != f->sums[p]) return 0;
    return 1;
}

static void run_frames(void) {
    for (size_t i = 0; i < sizeof frames / sizeof *frames; i++) {
        if (!gives_frame(ref_square, &frames[i])) printf("frame %zu: ", i), stop("the reference");
        if (!gives_frame(ruznavo_square, &frames[i])) printf("frame %zu: ", i), stop("the library");
    }
}

/* The order of the tests: calls in which one input after the other is put right, from the first tested one on. */
static void run_refusals(void) {
    static const struct {
        size_t mask_length, half_iterations, llrs_length, out_length;
        unsigned bad_mask, bad_llr, number;
    } calls[] = {
        {3, 0, 31, 0, 1, 1, 1},   {2048, 0, 31, 0, 1, 1, 1}, {64, 0, 31, 0, 1, 1, 22},  {1024, 17, 31, 0, 1, 1, 22},
        {4, 0, 31, 0, 1, 1, 2},   {4, 0, 31, 0, 0, 1, 3},    {4, 0, 33, 0, 0, 1, 3},    {4, 0, 32, 0, 0, 1, 23},
        {4, 17, 32, 0, 0, 1, 23}, {4, 16, 32, 0, 0, 1, 7},   {4, 16, 32, 31, 0, 0, 11}, {4, 16, 32, 32, 0, 0, 0},
    };
    static uint8_t mask[2048], llrs[33], out[32];
    for (size_t i = 0; i < sizeof calls / sizeof *calls; i++) {
        mask[1] = calls[i].bad_mask ? 3 : 0;
        ref_put_llr(llrs, 15, calls[i].bad_llr ? INT16_MIN : 0);
        uint64_t answer = ruznavo_square(mask, calls[i].mask_length, calls[i].half_iterations, llrs,
                                         calls[i].llrs_length, out, calls[i].out_length);
        if (answer != calls[i].number) printf("refused call %zu: ", i), stop("another number");
    }
}

/* ---- what the header and the reference's words are */

static void run_header(void) {
    char version[40];
    snprintf(version, sizeof version, "%d.%d.%d", RUZNAVO_SQUARE_VERSION_MAJOR, RUZNAVO_SQUARE_VERSION_MINOR,
             RUZNAVO_SQUARE_VERSION_PATCH);
    if (strcmp(version, RUZNAVO_SQUARE_VERSION)) stop("the version's text");
    if (RUZNAVO_SQUARE_BYTES(RUZNAVO_SQUARE_MAX_N) != 2048 || RUZNAVO_SQUARE_BYTES(1 + 1) != 8) stop("a frame's bytes");
    if (ruznavo_square_number(0x5678917) != 0x17) stop("an answer's number");
    if (ruznavo_square_cycles(0x5678917) != 0x56789) stop("an answer's cycles");
}

/* Each line of a word has, transformed, the known bits. */
static void check_word(const uint8_t *mask, size_t N, const uint8_t *word) {
    uint8_t line[REF_SQUARE_N], bits[REF_SQUARE_N];
    for (size_t i = 0; i < 2 * N; i++) {
        enum ref_direction by = i < N ? REF_BY_ROWS : REF_BY_COLUMNS;
        for (size_t k = 0; k < N; k++) line[k] = word[ref_square_place(by, N, i % N, k)];
        ref_transform(line, bits, N);
        for (size_t k = 0; k < N; k++)
            if (mask[k] != REF_UNFROZEN && bits[k] != (mask[k] == REF_ONE)) stop("a word of the reference");
    }
}

static void run_words(void) {
    struct random r = random_case(seed, 0);
    static struct call c;
    for (int i = 0; i < 1000; i++) {
        c.N = (size_t)1 << random_from(&r, 1, MAX_STAGE);
        random_mask(&r, c.mask, c.N);
        if (random_word(&r, &c, c.word)) check_word(c.mask, c.N, c.word);
    }
}

/* ---- what was tried */

static void report(void) {
    printf("%-17s", "square");
    for (int number = 0; number < NUMBERS; number++)
        if (number_seen[number]) printf("  %d: %" PRIu64, number, number_seen[number]);
    printf("\n");
    for (int k = 0; k < CLAMPED; k++) {
        printf("%s clamped, rows and columns:", k == INPUT ? "inputs" : "sums");
        for (int cause = 0; cause < CAUSES; cause++)
            printf("%s %s %" PRIu64 " and %" PRIu64, cause ? "," : "", cause_names[cause],
                   cause_seen[REF_BY_ROWS][k][cause], cause_seen[REF_BY_COLUMNS][k][cause]);
        printf("\n");
    }
    printf("squares accepted with a position frozen to 1: %" PRIu64 "\n", ones_seen[1]);
    printf("squares accepted with the signs of a word: %" PRIu64 ", of these with one: %" PRIu64 "\n",
           words_seen[0] + words_seen[1], words_seen[1]);
}

/* A run of some length has tried every number that the call can answer and no other, every number of half-iterations at
 * every N, outputs of the exact length and longer, masks without and with positions frozen to 1, words of both, and
 * inputs and sums clamped for each cause in both directions. */
static void all_tried(void) {
    for (int number = 0; number < NUMBERS; number++)
        if ((number_seen[number] > 0) != (answers >> number & 1)) stop("a number not tried, or not the call's");
    for (int n = 1; n <= MAX_STAGE; n++)
        for (int h = 1; h <= RUZNAVO_SQUARE_MAX_HALF_ITERATIONS; h++)
            if (!half_iterations_seen[n][h]) stop("a number of half-iterations not tried at an N");
    for (int i = 0; i < 2; i++) {
        if (!tail_seen[i]) stop("an output of the exact length, or a longer one, not tried");
        if (!ones_seen[i]) stop("masks with positions frozen to 1, or without, not tried");
        if (!words_seen[i]) stop("words with positions frozen to 1, or without, not tried");
    }
    for (int by = 0; by < REF_DIRECTIONS; by++)
        for (int k = 0; k < CLAMPED; k++)
            for (int cause = 0; cause < CAUSES; cause++)
                if (!cause_seen[by][k][cause]) stop("a cause of clamping not tried");
}

int main(int argc, char **argv) {
    uint64_t cases = argc > 2 ? strtoull(argv[2], NULL, 10) : 50000, first = argc > 3 ? strtoull(argv[3], NULL, 10) : 0;
    if (argc > 1) seed = strtoull(argv[1], NULL, 10);
    signal(SIGSEGV, fault);
    signal(SIGBUS, fault);
    for (int s = 0; s < SLOTS; s++) guarded_map(&slots[s], slot_names[s]);
    run_header();
    run_words();
    run_frames();
    run_refusals();
    for (case_number = first; case_number < first + cases; case_number++) {
        struct random r = random_case(seed, case_number);
        run_case(&r);
    }
    report();
    if (cases >= 5000) all_tried();
    printf("square_test: ok, seed %" PRIu64 ", %" PRIu64 " cases\n", seed, cases);
    return 0;
}
