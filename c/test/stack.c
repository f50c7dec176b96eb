/*
 * Measures the stack that each call uses at N = 1024: the call runs on a stack of its own that was filled with a
 * pattern, and the bytes that no longer hold it are counted. Masks and plans are those that go deepest, and the LLRs
 * leave no bit undecided, so that there is a payload to be read off, but for one decode. Exit status 1 if a call uses
 * more than ruznavo.h says, is refused, or leaves bits undecided where it should not.
 */
#define _DEFAULT_SOURCE
#include "captures.h"
#include "codes.h"
#include "random.h"
#include "ruznavo.h"

#include <stdio.h>
#include <string.h>
#include <ucontext.h>

enum { N = RUZNAVO_MAX_N, STACK = 256 * 1024, PATTERN = 0xA5 };

static uint8_t stack[STACK];
static ucontext_t back, there;

static uint8_t mask[N], plan[2 * N], payload[N], bits[N], marks[N];
static float samples[N];
static int16_t llrs[N];
static int32_t soft[N], work[RUZNAVO_MAX_WORK_WORDS];
static uint32_t counts[RUZNAVO_KINDS];
static struct capture capture;
static uint8_t text[RUZNAVO_MAX_REPLAY];
static uint64_t answer;

static void none(void) { answer = 0; }
static void call_samples(void) { answer = ruznavo_samples(samples, N, marks, N, 1.0f, llrs, N); }
static void call_encode(void) { answer = ruznavo_encode(mask, N, payload, N / 2, bits, N); }
static void call_transform(void) { answer = ruznavo_transform(bits, N); }
static void call_plan(void) { answer = ruznavo_plan(mask, N, plan, 2 * N, counts); }
static void call_check_plan(void) { answer = ruznavo_check_plan(mask, N, plan, 2 * N); }
static void call_decode(void) {
    answer = ruznavo_decode(mask, N, plan, 2 * N, RUZNAVO_MAX_SWEEPS, llrs, N, soft, N, bits, N, payload, N, work,
                            RUZNAVO_MAX_WORK_WORDS);
}
static void call_flip(void) {
    answer = ruznavo_flip(mask, N, RUZNAVO_MAX_SWEEPS, RUZNAVO_MAX_ATTEMPTS, llrs, N, payload, N, work,
                          RUZNAVO_MAX_WORK_WORDS);
}
static void call_mask_by_weight(void) { answer = ruznavo_mask_by_weight(N, N / 2, mask, N); }
static void call_mask_for_distance(void) { answer = ruznavo_mask_for_distance(N, N / 2, 2, mask, N); }
static void call_mask_by_erasure(void) { answer = ruznavo_mask_by_erasure(N, N / 2, 0.5, mask, N); }
static void call_replay(void) { answer = ruznavo_replay(capture.bytes, capture.length, text, sizeof text); }

static size_t bytes_used(void (*call)(void)) {
    memset(stack, PATTERN, STACK);
    getcontext(&there);
    there.uc_stack.ss_sp = stack;
    there.uc_stack.ss_size = STACK;
    there.uc_link = &back;
    makecontext(&there, call, 0);
    swapcontext(&back, &there);
    size_t free_bytes = 0;
    while (free_bytes < STACK && stack[free_bytes] == PATTERN) free_bytes++;
    return STACK - free_bytes;
}

/* 0 if the call is accepted and uses less than the limit. */
static int measure(const char *name, void (*call)(void), size_t limit) {
    size_t switching = bytes_used(none), used = bytes_used(call) - switching;
    printf("stack of %s: %zu bytes, less than %zu expected\n", name, used, limit);
    return ruznavo_number(answer) != RUZNAVO_OK || used >= limit;
}

/* All LLRs become this. Where it is above 0 they speak for the zero word, which is a word of the code: no tie. */
static void set_llrs(int16_t llr) {
    for (size_t i = 0; i < N; i++) llrs[i] = llr;
}

/* Encoder and decoder with every other frozen position frozen to 1. The LLRs speak for the word of the zero payload. */
static int measure_ones(void) {
    for (size_t i = 0; i < N; i++)
        if (mask[i] && i / 2 % 2) mask[i] = RUZNAVO_FROZEN_ONE;
    memset(payload, 0, sizeof payload);
    int failed = measure("encode, positions frozen to 1", call_encode, 200);
    for (size_t i = 0; i < N; i++) llrs[i] = bits[i] ? -1 : 1;
    failed += measure("decode, positions frozen to 1", call_decode, 5000) || ruznavo_undecided(answer) != 0;
    return failed;
}

/* Flip attempts that are all made: the zero payload but for one bit of its CRC, so that the first pass does not match,
 * and with these LLRs none of the attempts does by chance. */
static int measure_flips(void) {
    memset(payload, 0, sizeof payload);
    payload[N / 2 - 1] = 1;
    call_encode();
    for (size_t i = 0; i < N; i++) llrs[i] = (int16_t)(bits[i] ? -1 - (int)i % 11 : 1 + (int)i % 11);
    int failed = measure("flip", call_flip, 7500);
    return failed || ruznavo_matched(answer) || ruznavo_attempts(answer) != RUZNAVO_MAX_ATTEMPTS;
}

/* Decodes with no bit undecided, and with some. */
static int measure_decodes(void) {
    set_llrs(1);
    int failed = measure("decode", call_decode, 5000) || ruznavo_undecided(answer) != 0;
    set_llrs(0);
    failed += measure("decode, bits undecided", call_decode, 5000) || ruznavo_undecided(answer) == 0;
    return failed;
}

int main(void) {
    struct random r = {7};
    /* Every other pair is unfrozen, frozen, which is of no kind: the planner goes down to the leaves. */
    for (size_t i = 0; i < N; i++) {
        mask[i] = (uint8_t)(i % 2 == 0 ? i / 2 % 2 : 1 - i / 2 % 2);
        samples[i] = (float)random_gauss(&r);
    }
    int failed = measure("samples", call_samples, 200);
    marks[0] = RUZNAVO_PUNCTURED;
    failed += measure("samples, one not sent", call_samples, 200) + measure("encode", call_encode, 200) +
                 measure("transform", call_transform, 200) + measure("plan", call_plan, 2000);
    leaf_plan(plan, N);
    failed += measure("check_plan", call_check_plan, 2000) + measure_flips() + measure_decodes() + measure_ones();
    capture_frame(&capture, 63, RUZNAVO_MAX_SWEEPS, llrs, N);
    capture_end(&capture, mask, N);
    failed += measure("replay", call_replay, 80000) + measure("mask_by_weight", call_mask_by_weight, 2500) +
              measure("mask_for_distance", call_mask_for_distance, 4500) +
              measure("mask_by_erasure", call_mask_by_erasure, 18000);
    return failed != 0;
}
