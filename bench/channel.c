#include "channel.h"

#include "codes.h"

#include <math.h>

void make_mask(uint8_t *mask, size_t n, size_t k) { code_for_erasures(mask, n, k, 0.5); }

double noise_variance(size_t n, size_t k, double ebn0_db) {
    return (double)n / (2.0 * (double)k * pow(10, ebn0_db / 10));
}

void transmit(struct random *r, const uint8_t *word, const uint8_t *negated, size_t n, double variance,
              float *samples) {
    double deviation = sqrt(variance);
    for (size_t i = 0; i < n; i++) {
        double noise = deviation * random_gauss(r);
        samples[i] = (float)((word[i] ? -1 : 1) + (negated[i] ? -noise : noise));
    }
}
