// The kinds of nodes, which both C decoders read off the mask.
#ifndef KINDS_H
#define KINDS_H

#include <stddef.h>
#include <stdint.h>

enum { RATE_0, RATE_1, SPC, REP, TYPE_III, TYPE_I, TYPE_II, TYPE_IV, KINDS };
enum { UNCUT = KINDS, NO_KIND };

// The kind of a node of some positions, of which `frozen` are frozen.
static inline int kind_of_part(const uint8_t *mask, size_t size, size_t frozen) {
    if (frozen == size) return RATE_0;
    if (frozen == 0) return RATE_1;
    if (frozen == 1 && mask[0]) return SPC;
    if (frozen == size - 1 && !mask[size - 1]) return REP;
    if (size < 4) return NO_KIND;
    if (frozen == 2 && mask[0] && mask[1]) return TYPE_III;
    if (frozen == size - 2 && !mask[size - 1] && !mask[size - 2]) return TYPE_I;
    if (size < 8) return NO_KIND;
    if (frozen == size - 3 && !mask[size - 1] && !mask[size - 2] && !mask[size - 3]) return TYPE_II;
    if (frozen == 3 && mask[0] && mask[1] && mask[2]) return TYPE_IV;
    return NO_KIND;
}

// The own cycles of a cut node.
static inline uint32_t cut_cycles(int kind) { return kind <= RATE_1 ? 0 : kind < TYPE_II ? 2 : 4; }

#endif
