/* See codes.h. */
#include "codes.h"

#include "reference.h"

#include <math.h>
#include <string.h>

/* Freezes the N - K worst positions; of equally bad ones, the lower index is frozen first. */
static void freeze_worst(uint8_t *mask, size_t N, size_t K, const double *badness) {
    memset(mask, 0, N);
    for (size_t count = K; count < N; count++) {
        size_t worst = N;
        for (size_t i = 0; i < N; i++)
            if (!mask[i] && (worst == N || badness[i] > badness[worst])) worst = i;
        mask[worst] = 1;
    }
}

void code_for_erasures(uint8_t *mask, size_t N, size_t K, double rate) {
    double z[REF_MAX_N];
    z[0] = rate;
    for (size_t m = 1; m < N; m *= 2)
        for (size_t i = m; i-- > 0;) {
            double a = z[i];
            z[2 * i] = 2 * a - a * a;
            z[2 * i + 1] = a * a;
        }
    freeze_worst(mask, N, K, z);
}

void code_by_polarization(uint8_t *mask, size_t N, size_t K) {
    double less[REF_MAX_N]; /* 0 less the weight */
    for (size_t i = 0; i < N; i++) {
        less[i] = 0;
        for (int b = 0; i >> b; b++) less[i] -= (i >> b & 1) ? pow(2, b / 4.0) : 0;
    }
    freeze_worst(mask, N, K, less);
}

/* One kind's pattern, from a size at which it exists. */
static void kind_pattern(uint8_t *mask, size_t m, int kind) {
    size_t run[REF_KINDS] = {m, 0, 1, m - 1, 2, m - 2, m - 3, 3};
    for (size_t i = 0; i < m; i++) mask[i] = i < run[kind];
}

/* A node of a random kind. */
static void kind_mask(struct random *r, uint8_t *mask, size_t m) {
    kind_pattern(mask, m, (int)random_below(r, m < 2 ? 2 : m < 4 ? 4 : m < 8 ? 6 : 8));
}

/* Nodes of kinds side by side: a node is either of a random kind or two such nodes. */
static void mixed_mask(struct random *r, uint8_t *mask, size_t m) {
    if (m == 1 || random_chance(r, 0.3)) {
        kind_mask(r, mask, m);
        return;
    }
    mixed_mask(r, mask, m / 2);
    mixed_mask(r, mask + m / 2, m / 2);
}

/* Frozen positions are frozen to 1: none, all, or with a random chance. */
static void random_ones(struct random *r, uint8_t *mask, size_t N) {
    double chances[] = {0, 1, random_uniform(r), random_uniform(r)};
    double chance = chances[random_below(r, 4)];
    for (size_t i = 0; i < N; i++)
        if (mask[i] && random_chance(r, chance)) mask[i] = REF_ONE;
}

static void random_shape(struct random *r, uint8_t *mask, size_t N) {
    double density = random_uniform(r);
    switch (random_below(r, 7)) {
    case 0:
    case 1: kind_mask(r, mask, N); break;
    case 2: code_for_erasures(mask, N, random_below(r, N + 1), random_uniform(r)); break;
    case 3: {
        size_t run = random_below(r, N + 1);
        for (size_t i = 0; i < N; i++) mask[i] = i < run;
        break;
    }
    case 4:
    case 5: mixed_mask(r, mask, N); break;
    default:
        for (size_t i = 0; i < N; i++) mask[i] = (uint8_t)random_chance(r, density);
    }
}

void random_mask(struct random *r, uint8_t *mask, size_t N) {
    random_shape(r, mask, N);
    random_ones(r, mask, N);
}

void leaf_plan(uint8_t *plan, size_t N) {
    memset(plan, 0, N);
    memset(plan + N, 1, N);
}

static void random_cuts(struct random *r, const uint8_t *mask, size_t N, uint8_t *plan, size_t p, double chance) {
    if (p >= N || (ref_node_kind(mask, N, p) >= 0 && random_chance(r, chance))) {
        plan[p] = 1;
        return;
    }
    random_cuts(r, mask, N, plan, 2 * p, chance);
    random_cuts(r, mask, N, plan, 2 * p + 1, chance);
}

void random_plan(struct random *r, const uint8_t *mask, size_t N, uint8_t *plan) {
    memset(plan, 0, 2 * N);
    random_cuts(r, mask, N, plan, 1, random_uniform(r));
}
