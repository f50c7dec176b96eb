// Document 01's "Slips a reviewer should try", and those of request No. 8. curves/slips builds bench/plain.c with
// -DSLIP=.. and one of these names; anywhere else there is none, and the compiler leaves it out.
#ifndef SLIPS_H
#define SLIPS_H

enum {
    NO_SLIP,
    START_CERTAIN, // a larger rate-0 node's message is infinity before the first sweep, not 0
    EVEN_PARITY,   // SPC by 001's equation 11, which forces even parity
    OWN_VALUE,     // a node's own value is added into a REP sum
    LEAST_PLACE,   // the least value's own place in SPC is treated like the others
    SOFT_ALONE,    // bits are decided from the soft value alone
    TIE_ZERO,      // a tie gives 0
    READ_ANYWAY,   // payload and frozen check are read off a word with an undecided bit
    ONES_COUNTED   // the ones of the hard word are counted, not its undecided bits
};

#ifndef SLIP
#define SLIP NO_SLIP
#endif

#endif
