// Block error rates of flip attempts beside SCAN without them, over the library's C interface, with the rate that the CRC
// costs accounted for: both send the same number of information bits in N samples at the same noise variance. SCAN has a
// mask with that many unfrozen positions, and the attempts have one with 8 more, for the CRC.
//   SCAN   ruznavo_decode with the planner's plan
//   flip   ruznavo_flip with up to 31 attempts. What fewer attempts give is known from it: the first match is the same,
//          and where it comes later, or none does, the payload is the first pass's, which is wrong, as its CRC is.
// Every so many frames ruznavo_flip is compared with the reference; the first difference ends the run with exit status 1.
#define _POSIX_C_SOURCE 200809L
#include "frames.h"
#include "points.h"
#include "reference.h"
#include "ruznavo.h"

#include <stdio.h>
#include <stdlib.h>
#include <string.h>

enum { SWEEPS = 2, ALLOWED = 3 };
static const size_t sweeps[SWEEPS] = {1, 4};
static const unsigned allowed[ALLOWED] = {0, 8, RUZNAVO_MAX_ATTEMPTS};
static const float scale = 256;

static code without, with_crc;

// What is counted of one decoder.
typedef struct {
    unsigned long block_errors;
    unsigned long wrong_matched; // blocks in error that matched their CRC
    unsigned long attempts;      // made in all frames
} tally;

typedef struct {
    tally scan[SWEEPS], flip[SWEEPS][ALLOWED];
    unsigned long frames, compared;
    double ebn0_db;
} point;

static uint64_t flip(const int16_t *llrs, size_t sweep_count, uint8_t *payload) {
    static int32_t work[RUZNAVO_MAX_WORK_WORDS];
    const code *c = &with_crc;
    uint64_t answer = ruznavo_flip(c->mask, c->n, sweep_count, RUZNAVO_MAX_ATTEMPTS, llrs, c->n, payload, c->k, work,
                                   RUZNAVO_MAX_WORK_WORDS);
    if (ruznavo_number(answer)) fail("the flip attempts turned a frame down");
    return answer;
}

static void compare(const int16_t *llrs, size_t sweep_count, uint64_t answer, const uint8_t *payload) {
    static int32_t work[RUZNAVO_MAX_WORK_WORDS];
    const code *c = &with_crc;
    uint8_t expected[MAX_N];
    int matched;
    size_t tries;
    ref_flip(c->mask, c->n, sweep_count, RUZNAVO_MAX_ATTEMPTS, llrs, c->n, expected, c->k, work,
             RUZNAVO_MAX_WORK_WORDS, &matched, &tries);
    if (ruznavo_matched(answer) != (unsigned)matched || ruznavo_attempts(answer) != tries ||
        memcmp(payload, expected, c->k))
        fail("the library's flip attempts differ from the reference");
}

// Counts what a call with fewer attempts would have answered.
static void count_flip(tally *t, unsigned most, uint64_t answer, int right) {
    int in_time = ruznavo_matched(answer) && ruznavo_attempts(answer) <= most;
    t->block_errors += !in_time || !right;
    t->wrong_matched += in_time && !right;
    t->attempts += in_time || ruznavo_attempts(answer) < most ? ruznavo_attempts(answer) : most;
}

static void decode_frame(point *p, int s, const frame *plain, const frame *checked, int comparing) {
    static decoded d;
    int16_t llrs[MAX_N];
    uint8_t payload[MAX_N];
    make_llrs(&without, plain, scale, llrs);
    decode(&without, llrs, sweeps[s], &d);
    p->scan[s].block_errors += wrong_bits(&without, plain, d.payload) > 0;
    make_llrs(&with_crc, checked, scale, llrs);
    uint64_t answer = flip(llrs, sweeps[s], payload);
    if (comparing) compare(llrs, sweeps[s], answer, payload);
    int right = wrong_bits(&with_crc, checked, payload) == 0;
    for (int a = 0; a < ALLOWED; a++) count_flip(&p->flip[s][a], allowed[a], answer, right);
}

// The same information bits, and the same noise before it is added.
static void make_frames(struct random *r, double variance, frame *plain, frame *checked) {
    draw_bits(r, plain->payload, without.k);
    memcpy(checked->payload, plain->payload, without.k);
    ref_crc_append(checked->payload, with_crc.k);
    struct random again = *r;
    send_payload(&without, r, variance, plain);
    send_payload(&with_crc, &again, variance, checked);
}

static int is_done(const point *p, const settings *s) {
    if (p->frames < s->least_frames) return 0;
    if (p->frames >= s->most_frames) return 1;
    for (int i = 0; i < SWEEPS; i++)
        if (p->scan[i].block_errors < s->block_errors || p->flip[i][ALLOWED - 1].block_errors < s->block_errors) return 0;
    return 1;
}

static void simulate(point *p, const settings *s) {
    static frame plain, checked;
    struct random r = frames_at(p->ebn0_db, s->seed);
    double variance = noise_variance(without.n, without.k, p->ebn0_db);
    while (!is_done(p, s)) {
        int comparing = p->frames++ % s->compare_every == 0;
        p->compared += comparing;
        make_frames(&r, variance, &plain, &checked);
        for (int i = 0; i < SWEEPS; i++) decode_frame(p, i, &plain, &checked, comparing);
    }
}

static void write_row(FILE *csv, const point *p, const char *decoder, size_t sweep_count, unsigned most,
                      const tally *t) {
    double low, high, errors = (double)t->block_errors, frames = (double)p->frames;
    wilson(errors, frames, &low, &high);
    fprintf(csv, "%s,%zu,%zu,%.2f,%s,%zu,%u,%lu,%lu,%lu,%lu,%.6g,%.6g,%.6g,%.6g\n", without.name, without.n, without.k,
            p->ebn0_db, decoder, sweep_count, most, p->frames, p->compared, t->block_errors, t->wrong_matched,
            1 + (double)t->attempts / frames, errors / frames, low, high);
}

static void write_rows(FILE *csv, const point *p) {
    for (int i = 0; i < SWEEPS; i++) {
        write_row(csv, p, "SCAN", sweeps[i], 0, &p->scan[i]);
        for (int a = 0; a < ALLOWED; a++) write_row(csv, p, "flip", sweeps[i], allowed[a], &p->flip[i][a]);
    }
    fflush(csv);
}

static void print_row(const point *p) {
    double frames = (double)p->frames;
    printf("(%4zu,%3zu) %6.2f %8lu", without.n, without.k, p->ebn0_db, p->frames);
    for (int i = 0; i < SWEEPS; i++) {
        printf(" %8.2e", (double)p->scan[i].block_errors / frames);
        for (int a = 0; a < ALLOWED; a++) printf(" %8.2e", (double)p->flip[i][a].block_errors / frames);
    }
    printf("\n");
    fflush(stdout);
}

static void print_heading(void) {
    printf("%s and %s: block error rates, SCAN and flip attempts by sweeps\n", without.name, with_crc.name);
    printf("code        Eb/N0   frames");
    for (int i = 0; i < SWEEPS; i++) {
        printf("   SCAN %zu", sweeps[i]);
        for (int a = 0; a < ALLOWED; a++) printf("  %2u, %2zu ", allowed[a], sweeps[i]);
    }
    printf("\n");
}

static int usage(void) {
    fputs("usage: flip MASK-FILE MASK-FILE-WITH-CRC FROM:STEP:TO LEAST:MOST BLOCK-ERRORS COMPARE-EVERY SEED CSV-FILE\n"
          "The second mask has 8 unfrozen positions more. Eb/N0 in dB, of an information bit; frames of a point; every\n"
          "so many frames the library is compared with the reference: 1 for all\n",
          stderr);
    return 2;
}

static const char columns[] = "mask,n,k,ebn0_db,decoder,sweeps,attempts,frames,compared,block_errors,wrong_matched,"
                              "passes,block_error_rate,low_95,high_95\n";

int main(int word_count, char **words) {
    double points[MAX_POINTS];
    settings s;
    int point_count = word_count == 9 && read_settings(words + 4, &s) ? read_range(words[3], points) : 0;
    if (point_count == 0) return usage();
    read_code(&without, words[1]);
    read_code(&with_crc, words[2]);
    if (with_crc.n != without.n || with_crc.k != without.k + RUZNAVO_CRC_BITS) return usage();
    FILE *csv = fopen(words[8], "w");
    if (!csv) return perror(words[8]), 2;
    fputs(columns, csv);
    print_heading();
    unsigned long frames = 0, compared = 0;
    for (int i = 0; i < point_count; i++) {
        point p = {.ebn0_db = points[i]};
        simulate(&p, &s);
        frames += p.frames;
        compared += p.compared;
        write_rows(csv, &p);
        print_row(&p);
    }
    printf("compared with the reference in %lu of %lu frames: no difference\n", compared, frames);
    return fclose(csv) ? 1 : 0;
}
