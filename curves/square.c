// Bit and block error rates of square frames by half-iterations, over the C interface of both libraries: random
// payloads at the places whose row and column are unfrozen, transformed by rows and by columns, BPSK with Gaussian
// noise, front end, ruznavo_square. All numbers of half-iterations are on the same frames. An error is a bit of the
// word whose sum has the wrong sign or is 0; a block is in error if a bit is. Eb/N0 is that of a payload bit, of which
// there are K * K in N * N samples.
// Every so many frames the library is compared with the reference; the first difference ends the run with exit status
// 1.
#define _POSIX_C_SOURCE 200809L
#include "frames.h"
#include "points.h"
#include "ruznavo.h"
#include "ruznavo_square.h"
#include "square.h"

#include <stdio.h>
#include <string.h>

enum { CURVES = 10, PLACES = RUZNAVO_SQUARE_MAX_N * RUZNAVO_SQUARE_MAX_N };
static const size_t half_iterations[CURVES] = {1, 2, 3, 4, 5, 6, 7, 8, 12, 16};
static const float scale = 256;

static code c;

// What is counted at one number of half-iterations.
typedef struct {
    unsigned long bit_errors, block_errors;
} tally;

typedef struct {
    tally tallies[CURVES];
    unsigned long frames, compared;
    double ebn0_db;
} point;

// What was sent, and what the front end made of it.
typedef struct {
    uint8_t word[PLACES], llrs[2 * PLACES];
} square;

static void transform_line(uint8_t *word, size_t start, size_t step) {
    uint8_t line[RUZNAVO_SQUARE_MAX_N];
    for (size_t k = 0; k < c.n; k++) line[k] = word[start + k * step];
    if (ruznavo_transform(line, c.n)) fail("the transform turned a line down");
    for (size_t k = 0; k < c.n; k++) word[start + k * step] = line[k];
}

static void draw_word(struct random *r, uint8_t *word) {
    draw_bits(r, word, c.n * c.n);
    for (size_t p = 0; p < c.n * c.n; p++)
        if (c.mask[p / c.n] || c.mask[p % c.n]) word[p] = 0;
    for (size_t i = 0; i < c.n; i++) transform_line(word, i * c.n, 1);
    for (size_t k = 0; k < c.n; k++) transform_line(word, k, c.n);
}

static void make_square(struct random *r, double ebn0_db, square *s) {
    static const uint8_t as_drawn[PLACES];
    frame f = {.variance = (float)noise_variance(c.n * c.n, c.k * c.k, ebn0_db)};
    draw_word(r, s->word);
    for (size_t i = 0; i < c.n; i++) {
        int16_t llrs[MAX_N];
        transmit(r, s->word + i * c.n, as_drawn, c.n, f.variance, f.samples);
        make_llrs(&c, &f, scale, llrs);
        for (size_t k = 0; k < c.n; k++) ref_put_llr(s->llrs, i * c.n + k, llrs[k]);
    }
}

static void count(tally *t, const square *s, const uint8_t *sums) {
    unsigned long wrong = 0;
    for (size_t p = 0; p < c.n * c.n; p++) {
        int16_t sum = ref_llr_at(sums, p);
        wrong += sum == 0 || (sum < 0) != s->word[p];
    }
    t->bit_errors += wrong;
    t->block_errors += wrong > 0;
}

static void compare(const point *p, const square *s, size_t count, uint64_t answer, const uint8_t *sums) {
    uint8_t expected[2 * PLACES];
    size_t bytes = RUZNAVO_SQUARE_BYTES(c.n);
    if (ref_square(c.mask, c.n, count, s->llrs, bytes, expected, bytes) == answer && !memcmp(sums, expected, bytes))
        return;
    fprintf(stderr, "\n%s %.2f dB, frame %lu, %zu half-iterations", c.name, p->ebn0_db, p->frames, count);
    fail("the library differs from the reference");
}

static void decode_square(point *p, const square *s, int comparing) {
    uint8_t sums[2 * PLACES];
    size_t bytes = RUZNAVO_SQUARE_BYTES(c.n);
    for (int i = 0; i < CURVES; i++) {
        uint64_t answer = ruznavo_square(c.mask, c.n, half_iterations[i], s->llrs, bytes, sums, bytes);
        if (ruznavo_square_number(answer)) fail("the library turned a frame down");
        count(&p->tallies[i], s, sums);
        if (comparing) compare(p, s, half_iterations[i], answer, sums);
    }
}

static int has_errors(const point *p, unsigned long wanted) {
    for (int i = 0; i < CURVES; i++)
        if (p->tallies[i].block_errors < wanted) return 0;
    return 1;
}

static int is_done(const point *p, const settings *s) {
    return p->frames >= s->most_frames || (p->frames >= s->least_frames && has_errors(p, s->block_errors));
}

static void simulate(point *p, const settings *s) {
    static square sent;
    struct random r = frames_at(p->ebn0_db, s->seed);
    while (!is_done(p, s)) {
        int comparing = p->frames++ % s->compare_every == 0;
        p->compared += comparing;
        make_square(&r, p->ebn0_db, &sent);
        decode_square(p, &sent, comparing);
    }
}

static void write_rows(FILE *csv, const point *p) {
    for (int i = 0; i < CURVES; i++)
        fprintf(csv, "%s,%.2f,%zu,%lu,%lu,%lu\n", c.name, p->ebn0_db, half_iterations[i], p->frames,
                p->tallies[i].bit_errors, p->tallies[i].block_errors);
    fflush(csv);
}

static void print_row(const point *p) {
    printf("(%2zu,%2zu)^2 %6.2f %8lu", c.n, c.k, p->ebn0_db, p->frames);
    for (int i = 0; i < CURVES; i++)
        printf(" %8.2e", (double)p->tallies[i].bit_errors / (double)(p->frames * c.n * c.n));
    printf("\n");
    fflush(stdout);
}

static void print_heading(void) {
    printf("%s, square frames: bit error rates by half-iterations\n", c.name);
    printf("code       Eb/N0   frames");
    for (int i = 0; i < CURVES; i++) printf(" %8zu", half_iterations[i]);
    printf("\n");
}

static int usage(void) {
    fputs("usage: square MASK-FILE FROM:STEP:TO LEAST:MOST BLOCK-ERRORS COMPARE-EVERY SEED CSV-FILE\n"
          "A mask of at most 32 positions. Eb/N0 in dB; frames of a point; every so many frames the library is\n"
          "compared with the reference: 1 for all\n",
          stderr);
    return 2;
}

int main(int word_count, char **words) {
    double points[MAX_POINTS];
    settings s;
    int point_count = word_count == 8 && read_settings(words + 3, &s) ? read_range(words[2], points) : 0;
    if (point_count == 0) return usage();
    read_code(&c, words[1]);
    if (c.n > RUZNAVO_SQUARE_MAX_N) return usage();
    FILE *csv = fopen(words[7], "w");
    if (!csv) return perror(words[7]), 2;
    fputs("mask,ebn0_db,half_iterations,frames,bit_errors,block_errors\n", csv);
    print_heading();
    unsigned long frames = 0, compared = 0;
    for (int i = 0; i < point_count; i++) {
        point p = {.ebn0_db = points[i]};
        simulate(&p, &s);
        frames += p.frames;
        compared += p.compared;
        write_rows(csv, &p);
        print_row(&p);
    }
    printf("compared with the reference in %lu of %lu frames: no difference\n", compared, frames);
    return fclose(csv) ? 1 : 0;
}
