// Block errors by the scale of the LLRs, at one sweep and one Eb/N0, all on the same frames: the front end works with
// the noise variance v divided by the scale. Beside them floating-point SCAN on 2y/v, not rounded to whole numbers, as
// scale 0. How many of the block errors are blocks with an undecided bit. Of the LLRs of each scale: how many are
// clamped to +-32767, and the largest size.
#include "frames.h"
#include "ruznavo.h"
#include "scan.h"

#include <math.h>
#include <stdio.h>
#include <stdlib.h>

enum { SCALES = 8 };
static const float scales[SCALES] = {1, 4, 16, 64, 256, 1024, 4096, 16384};

static code c;

typedef struct {
    unsigned long block_errors, undecided, clamped;
    int largest;
} tally;

static void count_llrs(tally *t, const int16_t *llrs) {
    for (size_t i = 0; i < c.n; i++) {
        int size = abs(llrs[i]);
        t->clamped += size == RUZNAVO_MAX_LLR;
        if (size > t->largest) t->largest = size;
    }
}

// A block with an undecided bit is in error.
static void count_block(tally *t, const frame *f, const uint8_t *payload, unsigned undecided) {
    t->block_errors += undecided || wrong_bits(&c, f, payload) > 0;
    t->undecided += undecided > 0;
}

static void decode_at_scale(tally *t, const frame *f, float scale) {
    static decoded d;
    int16_t llrs[MAX_N];
    make_llrs(&c, f, scale, llrs);
    count_llrs(t, llrs);
    decode(&c, llrs, 1, &d);
    count_block(t, f, d.payload, d.undecided);
}

// What double precision adds up without rounding, so that what cancels is a tie: multiples of 2 to the power of -24.
static double exact(double llr) { return ldexp(rint(ldexp(llr, 24)), -24); }

static void decode_unrounded(tally *t, const frame *f) {
    static scan walk;
    static scan_result result;
    double llrs[MAX_N];
    for (size_t i = 0; i < c.n; i++) llrs[i] = exact(2 * (double)f->samples[i] / f->variance);
    scan_start(&walk, c.mask, c.n, llrs);
    scan_sweep(&walk);
    scan_read(&walk, &result);
    count_block(t, f, result.payload, result.undecided);
}

static void print_row(double ebn0_db, float scale, unsigned long frames, const tally *t) {
    printf("%s,%zu,%zu,%.2f,%.0f,%lu,%lu,%lu,%lu,%lu,%d\n", c.name, c.n, c.k, ebn0_db, scale, frames, t->block_errors,
           t->undecided, frames * c.n, t->clamped, t->largest);
}

int main(int word_count, char **words) {
    if (word_count != 5) return fputs("usage: scale MASK-FILE EBN0-IN-DB FRAMES SEED, prints CSV\n", stderr), 2;
    static frame f;
    tally tallies[SCALES] = {{0}}, unrounded = {0};
    double ebn0_db = strtod(words[2], NULL);
    unsigned long frames = strtoul(words[3], NULL, 10);
    read_code(&c, words[1]);
    struct random r = frames_at(ebn0_db, strtoull(words[4], NULL, 10));
    for (unsigned long i = 0; i < frames; i++) {
        make_frame(&c, &r, ebn0_db, DRAWN, &f);
        for (int s = 0; s < SCALES; s++) decode_at_scale(&tallies[s], &f, scales[s]);
        decode_unrounded(&unrounded, &f);
    }
    puts("mask,n,k,ebn0_db,scale,frames,block_errors,undecided,llrs,clamped,largest");
    print_row(ebn0_db, 0, frames, &unrounded);
    for (int s = 0; s < SCALES; s++) print_row(ebn0_db, scales[s], frames, &tallies[s]);
    return 0;
}
