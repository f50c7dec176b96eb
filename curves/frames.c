#include "frames.h"

#include "reference.h"
#include "ruznavo.h"

#include <math.h>
#include <stdio.h>
#include <stdlib.h>
#include <string.h>

void fail(const char *what) {
    fprintf(stderr, "\n%s\n", what);
    exit(1);
}

static void set_name(code *c, const char *path) {
    const char *folder = strrchr(path, '/'), *name = folder ? folder + 1 : path;
    snprintf(c->name, sizeof c->name, "%.*s", (int)strcspn(name, ".,"), name);
}

void read_code(code *c, const char *path) {
    FILE *file = fopen(path, "r");
    if (!file) fail("the mask file can't be read");
    set_name(c, path);
    int digit;
    c->n = 0;
    while ((digit = getc(file)) == '0' || digit == '1') {
        if (c->n == MAX_N) fail("the mask is too long");
        c->mask[c->n++] = (uint8_t)(digit - '0');
    }
    if (digit != '\n') fail("the mask is not one line of digits 0 and 1");
    fclose(file);
    c->k = ref_unfrozen(c->mask, c->n);
    uint32_t counts[RUZNAVO_KINDS];
    if (ruznavo_number(ruznavo_plan(c->mask, c->n, c->plan, 2 * c->n, counts))) fail("the mask is turned down");
    if (c->k == 0) fail("the mask has no unfrozen position");
}

struct random frames_at(double ebn0_db, uint64_t seed) { return random_case(seed, (uint64_t)llround(1000 * ebn0_db)); }

static void encode(const code *c, const uint8_t *payload, uint8_t *word) {
    if (ruznavo_encode(c->mask, c->n, payload, c->k, word, c->n)) fail("the encoder turned a payload down");
}

void draw_bits(struct random *r, uint8_t *bits, size_t count) {
    for (size_t i = 0; i < count; i++) bits[i] = random_bits(r) >> 63;
}

// Sends the frame's payload, with the noise negated where `negated` has a 1.
static void send(const code *c, struct random *r, const uint8_t *negated, double variance, frame *f) {
    uint8_t word[MAX_N];
    encode(c, f->payload, word);
    f->variance = (float)variance;
    transmit(r, word, negated, c->n, f->variance, f->samples);
}

void send_payload(const code *c, struct random *r, double variance, frame *f) {
    static const uint8_t as_drawn[MAX_N] = {0};
    send(c, r, as_drawn, variance, f);
}

void make_frame(const code *c, struct random *r, double ebn0_db, sending what, frame *f) {
    uint8_t negated[MAX_N] = {0};
    draw_bits(r, f->payload, c->k);
    if (what == ZERO) {
        encode(c, f->payload, negated);
        memset(f->payload, 0, c->k);
    }
    send(c, r, negated, noise_variance(c->n, c->k, ebn0_db), f);
}

void make_llrs(const code *c, const frame *f, float scale, int16_t *llrs) {
    static const uint8_t sent[MAX_N] = {0};
    if (ruznavo_samples(f->samples, c->n, sent, c->n, f->variance / scale, llrs, c->n))
        fail("the front end turned samples down");
}

void decode(const code *c, const int16_t *llrs, size_t sweeps, decoded *d) {
    static int32_t work[RUZNAVO_MAX_WORK_WORDS];
    uint64_t answer = ruznavo_decode(c->mask, c->n, c->plan, 2 * c->n, sweeps, llrs, c->n, d->soft, c->n, d->hard, c->n,
                                     d->payload, c->k, work, RUZNAVO_MAX_WORK_WORDS);
    if (ruznavo_number(answer)) fail("the decoder turned a frame down");
    d->frozen_check = (int)ruznavo_check(answer);
    d->undecided = ruznavo_undecided(answer);
}

unsigned long wrong_bits(const code *c, const frame *f, const uint8_t *payload) {
    unsigned long wrong = 0;
    for (size_t i = 0; i < c->k; i++) wrong += f->payload[i] != payload[i];
    return wrong;
}
