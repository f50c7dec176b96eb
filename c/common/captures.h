/* Captures, for tests and the benchmark: frames one after the other, then the mask and the trailer. */
#ifndef CAPTURES_H
#define CAPTURES_H

#include <stddef.h>
#include <stdint.h>

enum { CAPTURE_TRAILER = 16, CAPTURE_ROOM = 65536 + 4096 };

/* Starts empty, with frames and length 0. */
struct capture {
    size_t frames, length;
    uint8_t bytes[CAPTURE_ROOM];
};

/* The bytes of a frame of N positions. */
static inline size_t capture_frame_size(size_t N) { return 4 + 2 * N; }

void capture_frame(struct capture *c, unsigned drain, unsigned sweeps, const int16_t *llrs, size_t N);

/* Mask and trailer. */
void capture_end(struct capture *c, const uint8_t *mask, size_t N);

#endif
