#include "scan.h"

#include <math.h>
#include <string.h>

void scan_start(scan *s, const uint8_t *mask, size_t n, const double *llrs) {
    s->mask = mask;
    s->n = n;
    s->stage = 0;
    while ((size_t)1 << s->stage < n) s->stage++;
    for (size_t i = 0; i < n; i++) s->lists[i] = llrs[i];
    for (size_t i = 0; i < n * s->stage; i++) s->messages[i] = 0;
    for (size_t i = 0; i < n; i++) s->messages[n * s->stage + i] = mask[i] ? INFINITY : 0;
}

// The smaller size, with the product of the signs.
static double box(double a, double b) {
    double x = fabs(a), y = fabs(b), least = x < y ? x : y;
    return (a < 0) != (b < 0) ? -least : least;
}

// Visits a node of `size` positions, with its incoming list and its message.
static void visit(const scan *s, double *list, double *message, size_t size) {
    if (size == 1) return;
    size_t h = size / 2;
    double *child_list = list + size, *left = message + s->n, *right = left + h;
    for (size_t k = 0; k < h; k++) child_list[k] = box(list[k], list[k + h] + right[k]);
    visit(s, child_list, left, h);
    for (size_t k = 0; k < h; k++) child_list[k] = box(list[k], left[k]) + list[k + h];
    visit(s, child_list, right, h);
    for (size_t k = 0; k < h; k++) {
        message[k] = box(left[k], list[k + h] + right[k]);
        message[k + h] = right[k] + box(list[k], left[k]);
    }
}

void scan_sweep(scan *s) { visit(s, s->lists, s->messages, s->n); }

// Payload and frozen check of the hard word: undecided and 0 where one of its bits is.
static void read_off(const scan *s, scan_result *result) {
    uint8_t u[MAX_N];
    memcpy(u, result->hard, s->n);
    for (size_t h = 1; h < s->n; h *= 2)
        for (size_t i = 0; i < s->n; i++)
            if (!(i & h)) u[i] ^= u[i + h];
    size_t k = 0;
    result->frozen_check = result->undecided == 0;
    for (size_t i = 0; i < s->n; i++)
        if (!s->mask[i]) result->payload[k++] = result->undecided ? 2 : u[i];
        else if (u[i]) result->frozen_check = 0;
}

void scan_read(const scan *s, scan_result *result) {
    result->undecided = 0;
    for (size_t i = 0; i < s->n; i++) {
        double sum = s->lists[i] + s->messages[i];
        result->soft[i] = s->messages[i];
        result->hard[i] = sum < 0 ? 1 : sum > 0 ? 0 : 2;
        result->undecided += result->hard[i] == 2;
    }
    read_off(s, result);
}
