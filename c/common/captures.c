/* See captures.h. */
#include "captures.h"

#include <string.h>

/* A number of some bytes, the low one first. */
static void put(struct capture *c, uint64_t number, int bytes) {
    for (int k = 0; k < bytes; k++) c->bytes[c->length++] = (uint8_t)(number >> 8 * k);
}

void capture_frame(struct capture *c, unsigned drain, unsigned sweeps, const int16_t *llrs, size_t N) {
    put(c, drain, 2);
    put(c, sweeps, 2);
    for (size_t k = 0; k < N; k++) put(c, (uint16_t)llrs[k], 2);
    c->frames++;
}

void capture_end(struct capture *c, const uint8_t *mask, size_t N) {
    size_t mask_at = c->length;
    memcpy(c->bytes + mask_at, mask, N);
    c->length += N;
    memcpy(c->bytes + c->length, "DRN1", 4);
    c->length += 4;
    put(c, mask_at, 4);
    put(c, 0, 4);
    put(c, c->frames, 4);
}
