// cycles: the codes of document 001's Table I, with its cycles beside those of our masks, as a table in Markdown. The
// columns for one rule of masks (c/common/codes.h): the planner's plan, and the plan that cuts nodes of the six kinds
// that 001 counts, so no types II and IV.
#include "channel.h"
#include "codes.h"
#include "reference.h"
#include "ruznavo.h"

#include <stdio.h>
#include <stdlib.h>
#include <string.h>

// Table I: N, K, and the cycles of fast-SCAN.
static const struct {
    size_t n, k;
    unsigned fast;
} rows[] = {{128, 16, 50},   {128, 64, 146},   {128, 96, 142},   {128, 112, 50},
            {256, 32, 142},  {256, 128, 258},  {256, 192, 194},  {256, 224, 186},
            {512, 64, 270},  {512, 256, 442},  {512, 384, 354},  {512, 448, 302},
            {1024, 128, 406}, {1024, 512, 738}, {1024, 768, 694}, {1024, 896, 338}};

static uint32_t cycles_of(uint64_t answer) {
    if (ruznavo_number(answer)) {
        fputs("the library turned a mask or a plan down\n", stderr);
        exit(1);
    }
    return ruznavo_cycles(answer);
}

static uint32_t planner_cycles(const uint8_t *mask, size_t n) {
    uint8_t plan[2 * MAX_N];
    uint32_t counts[RUZNAVO_KINDS];
    return cycles_of(ruznavo_plan(mask, n, plan, 2 * n, counts));
}

// Cuts the uppermost nodes of 001's kinds, from node p down.
static void cut(const uint8_t *mask, size_t n, uint8_t *plan, size_t p) {
    int kind = ref_node_kind(mask, n, p);
    if (kind >= 0 && kind != RUZNAVO_TYPE_II && kind != RUZNAVO_TYPE_IV) {
        plan[p] = 1;
        return;
    }
    cut(mask, n, plan, 2 * p);
    cut(mask, n, plan, 2 * p + 1);
}

static uint32_t six_kinds_cycles(const uint8_t *mask, size_t n) {
    uint8_t plan[2 * MAX_N];
    memset(plan, 0, 2 * n);
    cut(mask, n, plan, 1);
    return cycles_of(ruznavo_check_plan(mask, n, plan, 2 * n));
}

static uint32_t leaf_cycles(const uint8_t *mask, size_t n) {
    uint8_t plan[2 * MAX_N];
    leaf_plan(plan, n);
    return cycles_of(ruznavo_check_plan(mask, n, plan, 2 * n));
}

int main(void) {
    puts("| code | 001: SCAN | 001: fast-SCAN | leaf-only plan | erasure: six kinds | erasure: planner | "
         "polarization: six kinds | polarization: planner |");
    puts("|---|---|---|---|---|---|---|---|");
    for (size_t i = 0; i < sizeof rows / sizeof *rows; i++) {
        size_t n = rows[i].n, k = rows[i].k;
        uint8_t erasure[MAX_N], polarization[MAX_N];
        make_mask(erasure, n, k);
        code_by_polarization(polarization, n, k);
        printf("| (%zu, %zu) | %zu | %u | %u | %u | %u | %u | %u |\n", n, k, 6 * n - 6, rows[i].fast,
               leaf_cycles(erasure, n), six_kinds_cycles(erasure, n), planner_cycles(erasure, n),
               six_kinds_cycles(polarization, n), planner_cycles(polarization, n));
    }
    return 0;
}
