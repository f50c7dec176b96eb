// What the simulations share: the points of a curve, and how sure a measured rate is.
#ifndef POINTS_H
#define POINTS_H

#include <stdint.h>

enum { MAX_POINTS = 64 };

// What is asked of a simulation, beside the code and Eb/N0: frames of a point, the block errors that are enough, every
// how many frames it compares, and the seed.
typedef struct {
    unsigned long least_frames, most_frames, block_errors, compare_every;
    uint64_t seed;
} settings;

// From four words, the first LEAST:MOST; 0 where they do not fit.
int read_settings(char **words, settings *s);

// FROM:STEP:TO, in dB; the number of points, 0 where the text is none.
int read_range(const char *text, double *points);

// The ends of the 95% confidence range of a rate (Wilson).
void wilson(double errors, double frames, double *low, double *high);

#endif
