// Min-sum SCAN on floating-point LLRs, walked to the last leaf: it knows no plan and shares no code with the library.
#ifndef SCAN_H
#define SCAN_H

#include "channel.h"

typedef struct {
    const uint8_t *mask;
    size_t n, stage;
    double lists[2 * MAX_N];                  // incoming lists, each behind its parent's
    double messages[(MAX_STAGE + 1) * MAX_N]; // a row for each depth, the root's first
} scan;

// What is read off after a sweep.
typedef struct {
    double soft[MAX_N]; // infinity is "certain"
    uint8_t hard[MAX_N], payload[MAX_N];
    int frozen_check;
    unsigned undecided; // bits of the hard word
} scan_result;

// The state before the first sweep.
void scan_start(scan *s, const uint8_t *mask, size_t n, const double *llrs);
void scan_sweep(scan *s);
void scan_read(const scan *s, scan_result *result);

#endif
