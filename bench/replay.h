#ifndef REPLAY_H
#define REPLAY_H

#include <stddef.h>
#include <stdint.h>

// Nanoseconds a frame, from the fastest of many passes, side by side: of the replay of a capture with as many frames as it
// can hold, and of their decodes alone, one after the other along the planner's plan.
typedef struct {
    size_t frames;
    double replay, decodes;
} replay_times;

// The LLRs of some different frames, each `stride` after the one before; they are taken again from the first on. Both
// exit if replay and decodes have other totals.
void compare_replay(const uint8_t *mask, size_t n, unsigned sweeps, const int16_t *llrs, size_t stride,
                    size_t different);
replay_times time_replay(const uint8_t *mask, size_t n, unsigned sweeps, const int16_t *llrs, size_t stride,
                         size_t different);

// A clock in nanoseconds that never goes back.
double now(void);

#endif
