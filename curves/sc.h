// Min-sum successive cancellation on floating-point LLRs, for comparison: it shares no code with the library or SCAN.
#ifndef SC_H
#define SC_H

#include <stddef.h>
#include <stdint.h>

// Decides the positions in rising order, a frozen one as 0, and gives the unfrozen ones.
void sc_decode(const uint8_t *mask, size_t n, const float *llrs, uint8_t *payload);

#endif
