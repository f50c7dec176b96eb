/*
 * Measures the stack that ruznavo_square uses at N = 32: the call runs on a stack of its own that was filled with a
 * pattern, and the bytes that no longer hold it are counted. The most of several masks: one that goes down to the
 * leaves, and drawn ones, which have nodes of every kind and positions frozen to 1. Exit status 1 if a call uses LIMIT
 * bytes, which ruznavo_square.h names, or more, or is refused.
 */
#define _DEFAULT_SOURCE
#include "codes.h"
#include "random.h"
#include "ruznavo_square.h"
#include "square.h"

#include <stdio.h>
#include <string.h>
#include <ucontext.h>

enum { N = RUZNAVO_SQUARE_MAX_N, BYTES = 2 * N * N, MASKS = 200, STACK = 256 * 1024, PATTERN = 0xA5 };
enum { LIMIT = 20000 };

static uint8_t stack[STACK];
static ucontext_t back, there;

static uint8_t mask[N], llrs[BYTES], out[BYTES];
static uint64_t answer;

static void none(void) { answer = 0; }
static void call_square(void) {
    answer = ruznavo_square(mask, N, RUZNAVO_SQUARE_MAX_HALF_ITERATIONS, llrs, BYTES, out, BYTES);
}

static size_t bytes_used(void (*call)(void)) {
    memset(stack, PATTERN, STACK);
    getcontext(&there);
    there.uc_stack.ss_sp = stack;
    there.uc_stack.ss_size = STACK;
    there.uc_link = &back;
    makecontext(&there, call, 0);
    swapcontext(&back, &there);
    size_t free_bytes = 0;
    while (free_bytes < STACK && stack[free_bytes] == PATTERN) free_bytes++;
    return STACK - free_bytes;
}

/* The bytes that a call with the mask uses; STACK if it is refused. */
static size_t measure(void) {
    size_t switching = bytes_used(none), used = bytes_used(call_square) - switching;
    return ruznavo_square_number(answer) ? STACK : used;
}

int main(void) {
    struct random r = {7};
    for (size_t p = 0; p < N * N; p++) ref_put_llr(llrs, p, (int16_t)lround(300 * random_gauss(&r)));
    /* Every other pair is unfrozen, frozen, which is of no kind: the planner goes down to the leaves. */
    for (size_t i = 0; i < N; i++) mask[i] = (uint8_t)(i % 2 == 0 ? i / 2 % 2 : 1 - i / 2 % 2);
    size_t most = measure();
    for (int i = 0; i < MASKS; i++) {
        random_mask(&r, mask, N);
        size_t used = measure();
        if (used > most) most = used;
    }
    printf("stack of square: %zu bytes, less than %d expected\n", most, LIMIT);
    return most >= LIMIT;
}
