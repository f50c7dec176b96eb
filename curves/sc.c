#include "sc.h"

#include "channel.h"

#include <math.h>
#include <string.h>

// The smaller size, with the product of the signs.
static float box(float a, float b) {
    float x = fabsf(a), y = fabsf(b), least = x < y ? x : y;
    return (a < 0) != (b < 0) ? -least : least;
}

// Decides the positions of a node from its LLRs: u gets the decisions, word the node's code word. The LLRs of the
// children stand behind the node's own.
static void visit(const uint8_t *mask, size_t size, float *llrs, uint8_t *u, uint8_t *word) {
    if (size == 1) {
        *u = *word = !*mask && *llrs < 0;
        return;
    }
    size_t h = size / 2;
    float *child = llrs + size;
    for (size_t k = 0; k < h; k++) child[k] = box(llrs[k], llrs[k + h]);
    visit(mask, h, child, u, word);
    for (size_t k = 0; k < h; k++) child[k] = llrs[k + h] + (word[k] ? -llrs[k] : llrs[k]);
    visit(mask + h, h, child, u + h, word + h);
    for (size_t k = 0; k < h; k++) word[k] ^= word[k + h];
}

void sc_decode(const uint8_t *mask, size_t n, const float *llrs, uint8_t *payload) {
    float lists[2 * MAX_N];
    uint8_t u[MAX_N], word[MAX_N];
    memcpy(lists, llrs, n * sizeof *llrs);
    visit(mask, n, lists, u, word);
    for (size_t i = 0; i < n; i++)
        if (!mask[i]) *payload++ = u[i];
}
