// Block and bit error rates over the library's C interface: random payloads, or the zero payload only, encoder, BPSK
// with Gaussian noise, front end, decoder. On the same frames:
//   SC          successive cancellation, floating-point, on 2y/v, not rounded
//   v/256, v    the library at several numbers of sweeps, its front end working with the noise variance v / 256 and v
// In every frame, or in every so many, floating-point SCAN walked to the last leaf on the front end's LLRs must give
// the library's soft values, bits, payload, frozen check and number of undecided bits; the first difference ends the
// run with exit status 1.
#define _POSIX_C_SOURCE 200809L
#include "frames.h"
#include "points.h"
#include "ruznavo.h"
#include "sc.h"
#include "scan.h"

#include <math.h>
#include <stdio.h>
#include <stdlib.h>
#include <string.h>
#include <time.h>

enum { SWEEPS = 4, SCALES = 2, SC = 0, CURVES = 1 + SCALES * SWEEPS };
static const size_t sweeps[SWEEPS] = {1, 2, 4, 8};
static const float scales[SCALES] = {256, 1};
static const char *const decoder_names[1 + SCALES] = {"SC", "v/256", "v"};

static code c;
static sending what = DRAWN;

// What is counted of one decoder. A block is right if all its payload bits are; with an undecided bit none is.
typedef struct {
    unsigned long block_errors, bit_errors;
    unsigned long undecided;    // blocks with an undecided bit
    unsigned long wrong_passed; // wrong blocks with frozen check 1
    unsigned long right_failed; // right blocks with frozen check 0
} tally;

typedef struct {
    tally tallies[CURVES]; // SC, then by scale and sweeps
    unsigned long frames, compared;
    double ebn0_db;
} point;

static void count(tally *t, const frame *f, const uint8_t *payload, int frozen_check, unsigned undecided) {
    unsigned long wrong = wrong_bits(&c, f, payload);
    int in_error = undecided || wrong > 0;
    t->bit_errors += wrong;
    t->block_errors += in_error;
    t->undecided += undecided > 0;
    t->wrong_passed += in_error && frozen_check;
    t->right_failed += !in_error && !frozen_check;
}

static int same_soft(int32_t whole, double value) {
    return whole == RUZNAVO_CERTAIN ? isinf(value) && value > 0 : value == whole;
}

static void compare(const point *p, int scale, size_t sweep_count, const decoded *d, const scan_result *s) {
    int same = d->frozen_check == s->frozen_check && d->undecided == s->undecided &&
               !memcmp(d->hard, s->hard, c.n) && !memcmp(d->payload, s->payload, c.k);
    for (size_t i = 0; i < c.n; i++) same &= same_soft(d->soft[i], s->soft[i]);
    if (same) return;
    fprintf(stderr, "\n(%zu,%zu) %.2f dB, frame %lu, %s, %zu sweeps", c.n, c.k, p->ebn0_db, p->frames,
            decoder_names[1 + scale], sweep_count);
    fail("the library differs from SCAN on the same LLRs");
}

static void start_scan(scan *s, const int16_t *llrs) {
    double values[MAX_N];
    for (size_t i = 0; i < c.n; i++) values[i] = llrs[i];
    scan_start(s, c.mask, c.n, values);
}

// Decodes a frame by the library at each number of sweeps, counts, and compares where that is wanted.
static void decode_at_scale(point *p, const frame *f, int scale, int comparing) {
    static scan walk;
    static scan_result result;
    static decoded d;
    int16_t llrs[MAX_N];
    make_llrs(&c, f, scales[scale], llrs);
    if (comparing) start_scan(&walk, llrs);
    size_t done = 0;
    for (int s = 0; s < SWEEPS; s++) {
        decode(&c, llrs, sweeps[s], &d);
        count(&p->tallies[1 + scale * SWEEPS + s], f, d.payload, d.frozen_check, d.undecided);
        if (!comparing) continue;
        for (; done < sweeps[s]; done++) scan_sweep(&walk);
        scan_read(&walk, &result);
        compare(p, scale, sweeps[s], &d, &result);
    }
}

// The decided frozen bits of SC are 0, so its blocks pass the frozen check. It leaves no bit undecided.
static void decode_by_sc(point *p, const frame *f) {
    float llrs[MAX_N];
    uint8_t payload[MAX_N];
    for (size_t i = 0; i < c.n; i++) llrs[i] = 2 * f->samples[i] / f->variance;
    sc_decode(c.mask, c.n, llrs, payload);
    count(&p->tallies[SC], f, payload, 1, 0);
}

static void show_progress(const point *p, int last) {
    static double shown;
    struct timespec t;
    clock_gettime(CLOCK_MONOTONIC, &t);
    double time = (double)t.tv_sec + (double)t.tv_nsec / 1e9;
    if (!last && time < shown + 0.5) return;
    shown = time;
    fprintf(stderr, "\r%s %.2f dB: %lu frames, block errors", c.name, p->ebn0_db, p->frames);
    for (int i = 0; i < CURVES; i++) fprintf(stderr, " %lu", p->tallies[i].block_errors);
    fputs(last ? "\n" : "  ", stderr);
}

static int has_errors(const point *p, unsigned long wanted) {
    for (int i = 0; i < CURVES; i++)
        if (p->tallies[i].block_errors < wanted) return 0;
    return 1;
}

static int is_done(const point *p, const settings *s) {
    return p->frames >= s->most_frames || (p->frames >= s->least_frames && has_errors(p, s->block_errors));
}

// Simulates the least frames, and on until each curve has the block errors wanted or the frames are used up.
static void simulate(point *p, const settings *s) {
    static frame f;
    struct random r = frames_at(p->ebn0_db, s->seed);
    while (!is_done(p, s)) {
        int comparing = p->frames++ % s->compare_every == 0;
        p->compared += comparing;
        make_frame(&c, &r, p->ebn0_db, what, &f);
        decode_by_sc(p, &f);
        for (int scale = 0; scale < SCALES; scale++) decode_at_scale(p, &f, scale, comparing);
        show_progress(p, 0);
    }
    show_progress(p, 1);
}

static void write_row(FILE *csv, const point *p, const char *decoder, size_t sweep_count, const tally *t) {
    double low, high, errors = (double)t->block_errors, frames = (double)p->frames;
    wilson(errors, frames, &low, &high);
    fprintf(csv, "%s,%zu,%zu,%.2f,%s,%zu,%lu,%lu,%lu,%lu,%lu,%lu,%lu,%lu,%.6g,%.6g,%.6g\n", c.name, c.n, c.k,
            p->ebn0_db, decoder, sweep_count, p->frames, p->compared, t->block_errors, t->undecided, t->wrong_passed,
            t->right_failed, t->bit_errors, p->frames * c.k, errors / frames, low, high);
}

static void write_rows(FILE *csv, const point *p) {
    write_row(csv, p, decoder_names[0], 0, &p->tallies[SC]);
    for (int scale = 0; scale < SCALES; scale++)
        for (int s = 0; s < SWEEPS; s++)
            write_row(csv, p, decoder_names[1 + scale], sweeps[s], &p->tallies[1 + scale * SWEEPS + s]);
    fflush(csv);
}

static void print_row(const point *p) {
    printf("(%4zu,%3zu) %6.2f %8lu", c.n, c.k, p->ebn0_db, p->frames);
    for (int i = 0; i < CURVES; i++) printf(" %8.2e", (double)p->tallies[i].block_errors / (double)p->frames);
    printf("\n");
    fflush(stdout);
}

// The table's last row, of all points.
static void print_undecided(unsigned long frames, const unsigned long *undecided) {
    printf("%-17s %8lu", "undecided blocks", frames);
    for (int i = 0; i < CURVES; i++) printf(" %8lu", undecided[i]);
    printf("\n");
}

static void print_heading(void) {
    printf("%s: block error rates, SC and the library by scale and sweeps\n", c.name);
    printf("code        Eb/N0   frames       SC");
    for (int scale = 0; scale < SCALES; scale++)
        for (int s = 0; s < SWEEPS; s++) printf(" %6s %zu", decoder_names[1 + scale], sweeps[s]);
    printf("\n");
}

static int usage(void) {
    fputs("usage: simulate MASK-FILE FROM:STEP:TO LEAST:MOST BLOCK-ERRORS COMPARE-EVERY SEED CSV-FILE [zero]\n"
          "Eb/N0 in dB; frames of a point; every so many frames the library is compared with SCAN: 1 for all\n"
          "zero: the zero payload only, with the noise negated where a drawn word has a 1\n",
          stderr);
    return 2;
}

static const char columns[] = "mask,n,k,ebn0_db,decoder,sweeps,frames,compared,block_errors,undecided,wrong_passed,"
                              "right_failed,bit_errors,bits,block_error_rate,low_95,high_95\n";

int main(int word_count, char **words) {
    double points[MAX_POINTS];
    settings s;
    if (word_count == 9 && !strcmp(words[8], "zero")) what = ZERO;
    int counted = word_count == (what == ZERO ? 9 : 8);
    int point_count = counted && read_settings(words + 3, &s) ? read_range(words[2], points) : 0;
    if (point_count == 0) return usage();
    read_code(&c, words[1]);
    FILE *csv = fopen(words[7], "w");
    if (!csv) return perror(words[7]), 2;
    fputs(columns, csv);
    print_heading();
    unsigned long frames = 0, compared = 0, undecided[CURVES] = {0};
    for (int i = 0; i < point_count; i++) {
        point p = {.ebn0_db = points[i]};
        simulate(&p, &s);
        frames += p.frames;
        compared += p.compared;
        for (int k = 0; k < CURVES; k++) undecided[k] += p.tallies[k].undecided;
        write_rows(csv, &p);
        print_row(&p);
    }
    print_undecided(frames, undecided);
    printf("compared with SCAN on the same LLRs in %lu of %lu frames: no difference\n", compared, frames);
    return fclose(csv) ? 1 : 0;
}
