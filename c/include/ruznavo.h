/*
 * Ruznavo from C: min-sum SCAN decoding of polar codes with shortcut nodes.
 *
 * The library is x86-64 code with the System V calling convention. `tools/static_libraries` writes it as
 * target/staticlib/libruznavo.a; `make -C c install` installs that archive, a shared object, this header and a file for
 * pkg-config. It needs memcpy and memset of the C library and nothing else. It has no writable static data, allocates
 * nothing, makes no system call and always returns, so calls may run on several threads at once as long as they do not
 * share a buffer that one of them writes.
 *
 * Buffers. A buffer is a pointer and its length in elements, bytes or words as the type says.
 *   - Samples, LLRs and words are in the machine's own representation, with the natural alignment of their type:
 *     4 for float, int32_t and uint32_t, 2 for int16_t. Byte buffers need none.
 *   - No pointer may be NULL, also where the length is 0: the proofs take every buffer, also an empty one, to have a
 *     place in memory.
 *   - An output or workspace must not overlap any other buffer of the same call. Inputs may overlap each other;
 *     they are only read.
 *   - A buffer may be longer than what a call writes: the tail stays as it was. Inputs must have the exact length.
 *   - Nothing outside a buffer is read or written. A length that is wrong for the memory behind the pointer cannot be
 *     noticed.
 *
 * Sizes, for a code of N = 2^n positions, n from 1 to 10, of which K are unfrozen:
 *   mask       N bytes: 0 unfrozen, 1 frozen to zero, 2 frozen to one
 *   plan       2N bytes; byte p belongs to node p of the tree: 1 is the root, 2p and 2p + 1 are the children of p,
 *              N to 2N - 1 the leaves. 1 cuts a node, 0 does not. Byte 0 is 0.
 *   payload    K bytes, one a bit; a decode with an undecided bit writes RUZNAVO_UNDECIDED to each of them; the
 *              payload of flip attempts ends with 8 bits of CRC
 *   word       N bytes, one a bit
 *   hard       N bytes, one a bit, RUZNAVO_UNDECIDED where the bit is undecided
 *   llrs       N values from -32767 to 32767; bit 0 is sent as +1, so a positive LLR speaks for bit 0
 *   soft       N values, each finite, within +-32767 * 1024, or RUZNAVO_CERTAIN, or RUZNAVO_CERTAIN_ONE
 *   work       RUZNAVO_WORK_WORDS(N) words
 *
 * Soft values. soft[k] is what the code adds to llrs[k]: bit k of the word is decided by the sign of llrs[k] + soft[k].
 * It is 1 if that sum is negative and 0 if it is positive; if it is 0, a tie, the bit is undecided. RUZNAVO_CERTAIN
 * stands where the frozen positions fix the bit to 0, and the bit is 0 whatever the LLR; RUZNAVO_CERTAIN_ONE, which is
 * minus the other, where they fix it to 1. Test for both before adding: the sum of either with an LLR can leave 32
 * bits. The sum of a finite soft value and an LLR never does.
 *
 * Positions frozen to one. Sender and receiver know which positions are frozen, and to what: ruznavo_encode puts the
 * known ones in, and the frozen check of a decode compares with them. Compared with a mask that has 1 in the place of
 * each 2, the same bits of every word are flipped: those where the word of the frozen values, ruznavo_transform of a
 * row that has 1 for each mask byte 2 and 0 elsewhere, has a 1. A decode equals this: flip the signs of the LLRs there,
 * decode with that other mask, flip soft values and decided hard bits back there. So kinds of nodes, plans, cycles and
 * the distance between words are the same, and on a channel that treats both bits alike errors are as frequent. How
 * well two stations are told apart depends on where their ones stand: a one at position 0 alone flips a single bit,
 * which a decode corrects like a wrong one. RUZNAVO_SHORTENED speaks for bit 0; where frozen positions fix an unsent
 * bit to 1, its LLR is to be -32767.
 *
 * Undecided bits. An undecided bit is 2 in the hard word (RUZNAVO_UNDECIDED). One such bit leaves the whole payload
 * open: all K payload bytes are 2 then, and the frozen check is 0. ruznavo_undecided has the number of undecided bits
 * of the word, from 0 to N; there is a payload only where it is 0. The word's other bits are decided all the same. A
 * byte 2 is no bit: ruznavo_encode refuses it in a payload, and ruznavo_transform takes it as 0. Ties come of LLRs of
 * 0, as punctured positions have them, of LLRs so small that they cancel, and of SCAN itself where LLRs contradict each
 * other. There are none where no LLR is 0 and the signs of the LLRs are those of a word of the code.
 *
 * Scale. The scale of the LLRs is the caller's choice: for every whole number c above 0, c times the LLRs give c times
 * the finite soft values, the same certain ones, and the same hard bits, undecided ones among them, payload, frozen
 * check and cycles. But ruznavo_samples rounds to whole numbers, and on a larger scale that loses less, and fewer bits
 * are undecided: v / 256 handed in the place of the noise variance v makes what is rounded 256 times as large, which
 * keeps eight more bits of each LLR. On every scale LLRs are clamped to +-32767, and a shortened position gives 32767:
 * keep the largest |LLR| well below that. Block errors of 20000 frames, blocks with an undecided bit among them, at v,
 * v / 4, v / 16, v / 256 and without rounding, for (1024, 64) at 2 dB and 1 sweep: 8714, 4631, 3544, 3091, 3054
 * (docs/CURVES.md, which has other codes and says how to choose).
 *
 * Floating point. ruznavo_samples and ruznavo_mask_by_erasure alone compute with floating-point numbers. They need the
 * processor's default settings (MXCSR): rounding to nearest, subnormal numbers kept as they are (neither flush-to-zero
 * nor denormals-are-zero), exceptions masked. A program or a shared object linked with -ffast-math can change them at
 * its start. The calls may leave exception flags set.
 *
 * Answers. Each call answers one number; the functions below take it apart. The refusal number is 0 if the call was
 * accepted. A refused call answers its number with every other result 0 and leaves every buffer as it was, the
 * workspace too. If several causes apply, the lowest number of those that the call tests is answered; the calls for
 * masks, replay and flip attempts test in the order that is given with them.
 *
 * Stack. At N = 1024 a replay used less than 80 KB, since it holds a decode's buffers, the mask by erasure less than
 * 18 KB, flip attempts less than 7.5 KB, the decoder less than 5 KB, the mask for a distance less than 4.5 KB, the mask
 * by weight less than 2.5 KB, planner and plan check less than 2 KB each, the others less than 200 bytes. `make -C c`
 * measures this (c/test/stack.c), and fails where a call uses more.
 */
#ifndef RUZNAVO_H
#define RUZNAVO_H

#include <stddef.h>
#include <stdint.h>

#ifdef __cplusplus
extern "C" {
#endif

/* The version of this header and of the library that it belongs to. The shared object's name has the first number. */
#define RUZNAVO_VERSION_MAJOR 1
#define RUZNAVO_VERSION_MINOR 12
#define RUZNAVO_VERSION_PATCH 0
#define RUZNAVO_VERSION "1.12.0"

#define RUZNAVO_MIN_N 2
#define RUZNAVO_MAX_N 1024
#define RUZNAVO_MAX_SWEEPS 8
#define RUZNAVO_MAX_LLR 32767

/* Of flip attempts: the most attempts, and the bits of the CRC at the end of the payload. */
#define RUZNAVO_MAX_ATTEMPTS 31
#define RUZNAVO_CRC_BITS 8

/* Bytes of the longest capture; and so many that every text of a replay has room. */
#define RUZNAVO_MAX_CAPTURE 65536
#define RUZNAVO_MAX_REPLAY 6720

/* The soft values "certain": of a bit 0, and of a bit 1. */
#define RUZNAVO_CERTAIN INT32_MAX
#define RUZNAVO_CERTAIN_ONE (-INT32_MAX)

/* The byte of an undecided bit in a hard word, and of each payload bit of such a word. */
#define RUZNAVO_UNDECIDED 2

/* n, for N = 2^n from 2 to 1024. The argument is evaluated more than once, here and below. */
#define RUZNAVO_EXPONENT(N)                                                                                            \
    (1 + ((N) >= 4) + ((N) >= 8) + ((N) >= 16) + ((N) >= 32) + ((N) >= 64) + ((N) >= 128) + ((N) >= 256) +             \
     ((N) >= 512) + ((N) >= 1024))

/* Words of a decode's workspace, N(n + 3): a constant expression if N is one, so an array may have this size. */
#define RUZNAVO_WORK_WORDS(N) ((size_t)(N) * (size_t)(RUZNAVO_EXPONENT(N) + 3))
#define RUZNAVO_MAX_WORK_WORDS RUZNAVO_WORK_WORDS(RUZNAVO_MAX_N)

/* Mask bytes. */
enum { RUZNAVO_UNFROZEN = 0, RUZNAVO_FROZEN_ZERO = 1, RUZNAVO_FROZEN_ONE = 2 };

/* Marks of received positions. */
enum { RUZNAVO_SENT = 0, RUZNAVO_PUNCTURED = 1, RUZNAVO_SHORTENED = 2 };

/* Places of the planner's counts. A node that two kinds fit counts as the upper one: of 2 positions SPC, of 4 type III.
 * Frozen is frozen, to zero or to one. */
enum {
    RUZNAVO_RATE_0,   /* all frozen */
    RUZNAVO_RATE_1,   /* none frozen */
    RUZNAVO_SPC,      /* only the first frozen */
    RUZNAVO_REP,      /* all frozen but the last */
    RUZNAVO_TYPE_III, /* only the first two frozen */
    RUZNAVO_TYPE_I,   /* all frozen but the last two */
    RUZNAVO_TYPE_II,  /* all frozen but the last three */
    RUZNAVO_TYPE_IV,  /* only the first three frozen */
    RUZNAVO_KINDS
};

/* Refusal numbers. 13 stands in the line program's text alone; no call answers it. */
enum {
    RUZNAVO_OK = 0,
    RUZNAVO_BAD_LENGTH = 1,     /* N, given or as a length, is not a power of two from 2 to 1024 */
    RUZNAVO_BAD_MASK = 2,       /* a mask byte above 2 */
    RUZNAVO_BAD_COUNT = 3,      /* LLRs or position marks are not N, or the payload is not K */
    RUZNAVO_BAD_SWEEPS = 4,     /* sweeps outside 1 to RUZNAVO_MAX_SWEEPS */
    RUZNAVO_BAD_PLAN = 5,       /* plan is not 2N bytes, a plan byte above 1, or byte 0 not 0 */
    RUZNAVO_BAD_CUTS = 6,       /* a path from root to leaf without exactly one cut, or a cut node of no kind */
    RUZNAVO_BAD_LLR = 7,        /* an LLR of -32768 */
    RUZNAVO_BAD_VARIANCE = 8,   /* the noise variance is not finite or not above 0 */
    RUZNAVO_BAD_SAMPLE = 9,     /* a position mark above 2, or a sent sample that is not finite */
    RUZNAVO_BAD_PAYLOAD = 10,   /* a payload byte above 1 */
    RUZNAVO_SHORT_OUTPUT = 11,  /* an output is too short */
    RUZNAVO_SHORT_WORK = 12,    /* the workspace is too short */
    RUZNAVO_BAD_LINE = 13,      /* the line is malformed */
    RUZNAVO_BAD_CAPTURE = 14,   /* a capture's trailer or lengths do not fit, or it has more than 65536 bytes */
    RUZNAVO_BAD_DRAIN = 15,     /* a drain number above 63 */
    RUZNAVO_BAD_UNFROZEN = 16,  /* K above N */
    RUZNAVO_NOTHING_WANTED = 17, /* K or the wanted distance is 0 */
    RUZNAVO_FEW_UNFROZEN = 18,   /* K below 9: no payload bit beside the CRC */
    RUZNAVO_BAD_ATTEMPTS = 19,   /* more than RUZNAVO_MAX_ATTEMPTS attempts */
    RUZNAVO_BAD_RATE = 20        /* the erasure rate is not strictly between 0 and 1 */
};

/* A refusal number's cause in words, for messages. */
static inline const char *ruznavo_number_name(unsigned number) {
    switch (number) {
    case RUZNAVO_OK: return "accepted";
    case RUZNAVO_BAD_LENGTH: return "N, given or as a length, not a power of two from 2 to 1024";
    case RUZNAVO_BAD_MASK: return "mask byte above 2";
    case RUZNAVO_BAD_COUNT: return "LLRs or position marks not N, or payload not K";
    case RUZNAVO_BAD_SWEEPS: return "sweeps outside 1 to 8";
    case RUZNAVO_BAD_PLAN: return "plan not 2N bytes, a plan byte above 1, or byte 0 not 0";
    case RUZNAVO_BAD_CUTS: return "a path without exactly one cut, or a cut node of no kind";
    case RUZNAVO_BAD_LLR: return "LLR outside -32767 to 32767";
    case RUZNAVO_BAD_VARIANCE: return "noise variance not finite or not above 0";
    case RUZNAVO_BAD_SAMPLE: return "position mark above 2, or sent sample not finite";
    case RUZNAVO_BAD_PAYLOAD: return "payload byte above 1";
    case RUZNAVO_SHORT_OUTPUT: return "output too short";
    case RUZNAVO_SHORT_WORK: return "workspace too short";
    case RUZNAVO_BAD_LINE: return "line malformed";
    case RUZNAVO_BAD_CAPTURE: return "capture's trailer or lengths do not fit, or more than 65536 bytes";
    case RUZNAVO_BAD_DRAIN: return "drain number above 63";
    case RUZNAVO_BAD_UNFROZEN: return "K above N";
    case RUZNAVO_NOTHING_WANTED: return "K or the wanted distance is 0";
    case RUZNAVO_FEW_UNFROZEN: return "K below 9";
    case RUZNAVO_BAD_ATTEMPTS: return "more than 31 attempts";
    case RUZNAVO_BAD_RATE: return "erasure rate not strictly between 0 and 1";
    default: return "unknown number";
    }
}

/* The refusal number of an answer. */
static inline unsigned ruznavo_number(uint64_t answer) { return (unsigned)(answer & 255); }

/*
 * The cycles of a plan, a plan check (one sweep) or a decode (all its sweeps). They are those of a hardware decoder's
 * latency model, and not this processor's.
 */
static inline uint32_t ruznavo_cycles(uint64_t answer) { return (uint32_t)(answer >> 8); }

/* The length of the text that a replay has written. */
static inline size_t ruznavo_text_length(uint64_t answer) { return (size_t)(answer >> 8); }

/* Whether a mask for a wanted distance was written: 1, or 0 for none and for a refused call. */
static inline unsigned ruznavo_found(uint64_t answer) { return (unsigned)(answer >> 8 & 1); }

/*
 * The frozen check of a decode: 1 exactly if no bit is undecided and each decoded frozen bit is what its position is
 * frozen to, that is, if the hard word is a word of the code. It is no error detection: a wrong payload can have check
 * 1, and a right one check 0. At 8 sweeps, 55 of 200 wrong blocks had check 1 for (1024, 512), mask by polarization
 * weight, at 2.5 dB, and 186 of 216 for (1024, 896), mask by erasure rates, at 5.5 dB (docs/CURVES.md). A host that
 * must know puts a CRC into the payload.
 */
static inline unsigned ruznavo_check(uint64_t answer) { return (unsigned)(answer >> 40 & 1); }

/* The number of undecided bits of a decode's hard word. If it is not 0, there is no payload: its K bytes are 2. */
static inline unsigned ruznavo_undecided(uint64_t answer) { return (unsigned)(answer >> 41); }

/* Whether a payload of flip attempts matched its CRC: 1, or 0 for none and for a refused call. */
static inline unsigned ruznavo_matched(uint64_t answer) { return (unsigned)(answer >> 40 & 1); }

/* The attempt that matched, 0 for the first pass; where none matched, the number of attempts made. */
static inline unsigned ruznavo_attempts(uint64_t answer) { return (unsigned)(answer >> 8 & 255); }

/*
 * Received samples to LLRs: 2y / v, rounded to the nearest whole number, halves away from zero, within +-32767.
 *   samples  N received values; one at a punctured or shortened position has no influence and may be anything, also a
 *            NaN
 *   marks    N position marks; punctured gives LLR 0, shortened gives 32767
 *   llrs     the first N are written
 * Answers the number: 0, 1, 3, 8, 9 or 11.
 */
uint64_t ruznavo_samples(const float *samples, size_t samples_length, const uint8_t *marks, size_t marks_length,
                         float variance, int16_t *llrs, size_t llrs_length);

/*
 * Encodes a payload: its bits go to the unfrozen positions in rising order, zeros and ones to the others as the mask
 * says, and the first N bytes of word become that row times the polar matrix, in natural order.
 * Answers the number: 0, 1, 2, 3, 10 or 11.
 */
uint64_t ruznavo_encode(const uint8_t *mask, size_t mask_length, const uint8_t *payload, size_t payload_length,
                        uint8_t *word, size_t word_length);

/*
 * The transform in place: the row of bits is multiplied by the polar matrix, in natural order. A second transform gives
 * the bits again, so the transform of a hard word with no undecided bit is the decoded row of frozen bits and payload.
 *   bits     exactly N bytes, each taken modulo 2; all are written
 * Answers the number: 0 or 1.
 */
uint64_t ruznavo_transform(uint8_t *bits, size_t bits_length);

/*
 * Makes the plan with the fewest cycles and cuts. A plan depends on the mask only: make it once for each mask.
 *   plan     the first 2N bytes are written; hand exactly these 2N bytes to the decoder
 *   counts   exactly RUZNAVO_KINDS words: the number of cut nodes of each kind
 * Answers the number, 0, 1, 2 or 11, and the cycles of one sweep.
 */
uint64_t ruznavo_plan(const uint8_t *mask, size_t mask_length, uint8_t *plan, size_t plan_length,
                      uint32_t counts[RUZNAVO_KINDS]);

/*
 * Checks a plan for a mask, as a decode does.
 * Answers the number, 0, 1, 2, 5 or 6, and the cycles of one sweep.
 */
uint64_t ruznavo_check_plan(const uint8_t *mask, size_t mask_length, const uint8_t *plan, size_t plan_length);

/*
 * Decodes. Every allowed plan gives the same results; plans differ in cycles and time.
 *   soft     the first N words are written
 *   hard     the first N bytes are written: the decided word, with RUZNAVO_UNDECIDED where a bit is undecided
 *   payload  the first K bytes are written: the decided payload, or RUZNAVO_UNDECIDED in all K if a bit of the word is
 *            undecided
 *   work     the first N(n + 3) words; what they held has no influence, and they are 0 afterwards
 * Answers the number, 0 to 7, 11 or 12, the cycles of all sweeps, the frozen check, and the number of undecided bits.
 */
uint64_t ruznavo_decode(const uint8_t *mask, size_t mask_length, const uint8_t *plan, size_t plan_length, size_t sweeps,
                        const int16_t *llrs, size_t llrs_length, int32_t *soft, size_t soft_length, uint8_t *hard,
                        size_t hard_length, uint8_t *payload, size_t payload_length, int32_t *work, size_t work_length);

/*
 * Decodes with flip attempts (SCAN-Flip), for payloads that end with a CRC: all K bits, the first one as the highest
 * power, are over bits a multiple of D^8 + D^7 + D^6 + D^4 + D^2 + 1. So the sender divides the first K - 8 bits,
 * followed by eight zeros, by that polynomial, its register zero at the start, and the remainder's bits, highest power
 * first, are the last 8. K is 9 or more.
 *   A pass is a SCAN decode walked to the leaves. Its bits are decided at the leaves, by the value that each is visited
 * with in the last sweep: 1 if it is negative, else 0; frozen ones as known. So no bit is undecided, and a pass is not
 * the decode of ruznavo_decode, which decides the bits of the word. If the first pass does not match its CRC, the
 * unfrozen leaves are ranked by the size of that value, smallest first, lower index among equals. Attempt t is a pass
 * in which every leaf before the t-th ranked one is frozen to its bit of the first pass, that leaf to the opposite bit,
 * and the leaves after it are as in the mask. The first match ends the call.
 *   sweeps    1 to RUZNAVO_MAX_SWEEPS, of each pass
 *   attempts  the most attempts after the first pass, 0 to RUZNAVO_MAX_ATTEMPTS; fewer are made where K is smaller
 *   payload   the first K bytes are written, the CRC's with them: those of the match, or those of the first pass where
 *             none matched
 *   work      the first N(n + 3) words; what they held has no influence, and they are 0 afterwards
 * Answers the number, 0 or the first of 1, 2, 3, 4, 18, 19, 7, 11 and 12; whether a payload matched (ruznavo_matched);
 * and t or the attempts made (ruznavo_attempts). Of wrong payloads about one in 256 matches an 8-bit CRC, and each
 * attempt is another chance for that: a host that must know uses a longer CRC of its own inside the payload. A leaf
 * value of 0 decides 0, and the zero payload matches: link tests of this call draw their payloads.
 */
uint64_t ruznavo_flip(const uint8_t *mask, size_t mask_length, size_t sweeps, size_t attempts, const int16_t *llrs,
                      size_t llrs_length, uint8_t *payload, size_t payload_length, int32_t *work, size_t work_length);

/*
 * The mask of N and K by row weight: positions are ranked by the number of ones in the binary index, most ones first,
 * larger index first among equals, and the first K are unfrozen. Row i of the polar matrix has 2 to the power of the
 * ones of i ones, so the rule looks at the distance between words alone, and not at how reliable a position is in SCAN.
 * Such a mask is good at high rates with several sweeps and at low error rates: for (1024, 896) it is level with a mask
 * by polarization weight at a block error rate of 0.001 and 8 sweeps. Elsewhere it needs 0.3 to 4.3 dB more: least at
 * that rate and at N = 128, most at rate 1/16 (docs/CURVES.md).
 *   n     N itself, not its exponent
 *   k     K
 *   mask  N bytes or more; the first N are written, a frozen position as 1
 * Answers the number: 0, or the first of 1, 16 and 11.
 */
uint64_t ruznavo_mask_by_weight(size_t n, size_t k, uint8_t *mask, size_t mask_length);

/*
 * The same mask where every non-zero word has d ones or more, so that any two words differ in d bits or more. If that
 * mask does not have this property, no mask of that N and K has it: then the answer is none, and the buffer stays as it
 * was. The distance bounds what the best decoder can do; SCAN can do worse (see above).
 *   n, k, mask  as above
 *   d           the wanted distance, any number from 1 on
 * Answers the number, 0 or the first of 1, 16, 17 and 11, and whether a mask was written (ruznavo_found). None is an
 * accepted answer: number 0.
 */
uint64_t ruznavo_mask_for_distance(size_t n, size_t k, size_t d, uint8_t *mask, size_t mask_length);

/*
 * The mask of N and K for a measured erasure rate z. Each position has a rate, worked out from the index's top bit down:
 * bit 0 turns z into 2z - z * z, bit 1 into z * z, each operation rounded once to double. The N - K positions with the
 * largest rates are frozen, lower index first among equals. Each rate is within 2 to the power -40 of the same rule in
 * exact fractions.
 *   n, k, mask  as above
 *   z           strictly between 0 and 1; docs/CURVES.md has curves of the masks of 0.5, and of better ones for Gaussian
 *               noise
 * Answers the number: 0, or the first of 1, 16, 20 and 11.
 */
uint64_t ruznavo_mask_by_erasure(size_t n, size_t k, double z, uint8_t *mask, size_t mask_length);

/*
 * Replays a capture with the planner's plan of its mask, and writes the totals of its drains as text: a line for each
 * drain that occurs, in rising order, with drain, frames, frames whose frozen check is 1, hard bits that differ from the
 * LLR's sign (an LLR of 0 counts as bit 0, and an undecided hard bit always differs) and cycles, in decimal, separated
 * by single spaces and ended by a line feed.
 *   capture  at most RUZNAVO_MAX_CAPTURE bytes: frames, one after the other; then the mask, N bytes; then 16 bytes:
 *            44 52 4E 31 (hexadecimal), the mask's offset, the first frame's offset, which is 0, and the number of
 *            frames, each of 32 bits, low byte first. A frame is a drain number below 64, a sweep count and N LLRs,
 *            each of 16 bits, low byte first, the LLRs in two's complement
 *   out      RUZNAVO_MAX_REPLAY bytes or more; the text goes to its front, without a 0 at the end
 * Answers the number, 0 or the first of 14, 1 and 2, frame by frame 15, 4 and 7, and last 11; and the text's length.
 */
uint64_t ruznavo_replay(const uint8_t *capture, size_t capture_length, uint8_t *out, size_t out_length);

#ifdef __cplusplus
}
#endif

#endif
