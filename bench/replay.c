// See replay.h.
#define _POSIX_C_SOURCE 200809L
#include "replay.h"
#include "captures.h"
#include "ruznavo.h"

#include <stdio.h>
#include <stdlib.h>
#include <string.h>
#include <time.h>

enum { MAX_N = RUZNAVO_MAX_N, DRAINS = 64 };

typedef struct {
    const uint8_t *mask;
    size_t n, stride, different, frames;
    unsigned sweeps;
    const int16_t *llrs;
    uint8_t plan[2 * MAX_N];
} replay_case;

typedef struct {
    uint64_t frames, checks, differ, cycles;
} totals;

static struct capture capture;
static uint8_t text[RUZNAVO_MAX_REPLAY + 1], hard[MAX_N], payload[MAX_N];
static int32_t soft[MAX_N], work[RUZNAVO_MAX_WORK_WORDS];

double now(void) {
    struct timespec t;
    clock_gettime(CLOCK_MONOTONIC, &t);
    return (double)t.tv_sec * 1e9 + (double)t.tv_nsec;
}

static const int16_t *llrs_of(const replay_case *c, size_t f) { return c->llrs + f % c->different * c->stride; }

static uint64_t decode(const replay_case *c, size_t f) {
    return ruznavo_decode(c->mask, c->n, c->plan, 2 * c->n, c->sweeps, llrs_of(c, f), c->n, soft, c->n, hard, c->n,
                          payload, c->n, work, RUZNAVO_MAX_WORK_WORDS);
}

static uint64_t replay(void) { return ruznavo_replay(capture.bytes, capture.length, text, RUZNAVO_MAX_REPLAY); }

// The totals of each drain; an undecided bit, 2, differs from every LLR's sign.
static void by_decodes(const replay_case *c, totals *all) {
    for (size_t f = 0; f < c->frames; f++) {
        uint64_t answer = decode(c, f);
        totals *t = all + f % DRAINS;
        t->frames++;
        t->checks += ruznavo_check(answer);
        t->cycles += ruznavo_cycles(answer);
        for (size_t k = 0; k < c->n; k++) t->differ += hard[k] != (llrs_of(c, f)[k] < 0);
    }
}

static void by_replay(totals *all) {
    text[ruznavo_text_length(replay())] = 0;
    char *at = (char *)text;
    while (*at) {
        totals *t = all + strtoull(at, &at, 10);
        t->frames = strtoull(at, &at, 10);
        t->checks = strtoull(at, &at, 10);
        t->differ = strtoull(at, &at, 10);
        t->cycles = strtoull(at, &at, 10);
        at++;
    }
}

static void make_capture(replay_case *c) {
    uint32_t counts[RUZNAVO_KINDS];
    c->frames = (RUZNAVO_MAX_CAPTURE - CAPTURE_TRAILER - c->n) / capture_frame_size(c->n);
    capture.frames = capture.length = 0;
    for (size_t f = 0; f < c->frames; f++) capture_frame(&capture, f % DRAINS, c->sweeps, llrs_of(c, f), c->n);
    capture_end(&capture, c->mask, c->n);
    ruznavo_plan(c->mask, c->n, c->plan, 2 * c->n, counts);
    totals a[DRAINS] = {0}, b[DRAINS] = {0};
    by_replay(a);
    by_decodes(c, b);
    if (memcmp(a, b, sizeof a) == 0) return;
    fprintf(stderr, "bench: replay and decodes differ at N = %zu\n", c->n);
    exit(1);
}

static double least(double a, double b) { return a < b ? a : b; }

static replay_case current;

void compare_replay(const uint8_t *mask, size_t n, unsigned sweeps, const int16_t *llrs, size_t stride,
                    size_t different) {
    current =
        (replay_case){.mask = mask, .n = n, .stride = stride, .different = different, .sweeps = sweeps, .llrs = llrs};
    make_capture(&current);
}

replay_times time_replay(const uint8_t *mask, size_t n, unsigned sweeps, const int16_t *llrs, size_t stride,
                         size_t different) {
    compare_replay(mask, n, sweeps, llrs, stride, different);
    size_t frames = current.frames;
    replay_times t = {frames, 1e18, 1e18};
    double end = now() + 1e9;
    for (int round = 0; round < 20 || now() < end; round++) {
        double start = now();
        replay();
        double middle = now();
        for (size_t f = 0; f < frames; f++) decode(&current, f);
        t.replay = least(t.replay, (middle - start) / (double)frames);
        t.decodes = least(t.decodes, (now() - middle) / (double)frames);
    }
    return t;
}
