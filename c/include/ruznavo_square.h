/*
 * Square frames from C: words of a product code, whose rows and columns are words of one polar code, decoded by min-sum
 * SCAN of the rows and of the columns in turn.
 *
 * The library is x86-64 code with the System V calling convention. `tools/static_libraries` writes it as
 * target/staticlib/libruznavo_square.a; `make -C c install` installs that archive and this header beside those of
 * ruznavo.h. Neither header nor library needs the other, and a program may have both. The archive defines
 * ruznavo_square and no other name. It needs memcpy and memset of the C library and nothing else. It has no writable
 * static data, allocates nothing, makes no system call and always returns, so calls may run on several threads at once
 * as long as they do not share a buffer that one of them writes.
 *
 * Buffers. A buffer is a pointer and its length in bytes. It needs no alignment.
 *   - No pointer may be NULL, also where the length is 0: the proofs take every buffer, also an empty one, to have a
 *     place in memory.
 *   - The output must not overlap an input. Inputs may overlap each other; they are only read.
 *   - The output may be longer than what is written: the tail stays as it was. Inputs must have the exact length.
 *   - Nothing outside a buffer is read or written. A length that is wrong for the memory behind the pointer cannot be
 *     noticed. No workspace is lent.
 *
 * Sizes, for lines of N positions, N = 2, 4, 8, 16 or 32, of which K are unfrozen:
 *   mask       N bytes, one mask for rows and columns: 0 unfrozen, 1 frozen to zero, 2 frozen to one
 *   llrs, out  RUZNAVO_SQUARE_BYTES(N), that is 2 * N * N bytes: N times N values by rows, each of 16 bits in two's
 *              complement, low byte first. Row i and column k stand in bytes 2 * (i * N + k) and the one after it. LLRs
 *              are from -32767 to 32767; bit 0 is sent as +1, so a positive LLR speaks for bit 0
 *
 * Words. A word is a square of N times N bits, each row and each column of which is a word of the mask in natural order
 * (ruznavo.h, order 2). It has K * K payload bits. To make one, put these where row and column are unfrozen and zeros
 * elsewhere, and transform each row, then each column (ruznavo_transform does one line). A mask with positions frozen
 * to one is to have its last position unfrozen: then a 1 stands at each such position of the last row and of the last
 * column. The transform of rows and columns gives the bits again.
 *
 * The decode. A half-iteration decodes all rows or all columns: the first one the rows, the next one the columns, and
 * so on. The input at a place is its LLR plus the soft value that the place has from the other direction's last
 * half-iteration, 0 before the first. The soft values of a line are those of one sweep of SCAN, which starts anew for
 * each line, along the planner's plan: ruznavo_decode gives the same. What is written is the sum of input and soft
 * value, of the last half-iteration. Inputs and sums are clamped to +-32767. Where the frozen positions fix a line's
 * bit, its soft value is certain, and what it is added to becomes 32767 for bit 0 and -32767 for bit 1. The order of
 * the lines within a half-iteration has no effect.
 *
 * Bits. A bit is 1 if its sum is negative and 0 if it is positive; if the sum is 0, a tie, the bit is undecided. There is
 * no check that the bits are a word.
 *
 * Scale. A larger scale of the LLRs loses less by rounding (ruznavo_samples in ruznavo.h) and more by clamping, since
 * soft values add up from one half-iteration to the next: other than with ruznavo_decode, the bits of c times the LLRs
 * can be others. docs/CURVES.md has curves with v / 256 in the place of the noise variance v.
 *
 * Answers. The call answers one number; the functions below take it apart. The refusal number is 0 if the call was
 * accepted. A refused call answers its number with 0 cycles and leaves every buffer as it was.
 *
 * Stack. A call with N = 32 used less than 20 KB. `make -C c` measures this (c/test/square_stack.c), and fails where it
 * uses more.
 */
#ifndef RUZNAVO_SQUARE_H
#define RUZNAVO_SQUARE_H

#include <stddef.h>
#include <stdint.h>

#ifdef __cplusplus
extern "C" {
#endif

/* The version of this header and of the library that it belongs to. */
#define RUZNAVO_SQUARE_VERSION_MAJOR 1
#define RUZNAVO_SQUARE_VERSION_MINOR 0
#define RUZNAVO_SQUARE_VERSION_PATCH 0
#define RUZNAVO_SQUARE_VERSION "1.0.0"

#define RUZNAVO_SQUARE_MIN_N 2
#define RUZNAVO_SQUARE_MAX_N 32
#define RUZNAVO_SQUARE_MAX_HALF_ITERATIONS 16

/* Bytes of a frame: a constant expression if n is one, so an array may have this size. n is N itself. */
#define RUZNAVO_SQUARE_BYTES(n) (2 * (size_t)(n) * (size_t)(n))

/* Refusal numbers of this library alone. The others have their names in ruznavo.h, where lengths are in elements:
 *   1   the mask's length is not a power of two from 2 to 1024
 *   2   a mask byte above 2
 *   3   the LLRs are not 2 * N * N bytes
 *   7   an LLR of -32768
 *   11  the output is shorter than 2 * N * N bytes */
enum {
    RUZNAVO_SQUARE_TOO_LARGE = 22,          /* N above RUZNAVO_SQUARE_MAX_N */
    RUZNAVO_SQUARE_BAD_HALF_ITERATIONS = 23 /* half-iterations outside 1 to RUZNAVO_SQUARE_MAX_HALF_ITERATIONS */
};

/* The refusal number of an answer. */
static inline unsigned ruznavo_square_number(uint64_t answer) { return (unsigned)(answer & 255); }

/*
 * The cycles of all lines of all half-iterations. They are those of a hardware decoder's latency model, and not this
 * processor's.
 */
static inline uint32_t ruznavo_square_cycles(uint64_t answer) { return (uint32_t)(answer >> 8); }

/*
 * Decodes a frame.
 *   half_iterations  1 to RUZNAVO_SQUARE_MAX_HALF_ITERATIONS
 *   llrs             exactly 2 * N * N bytes
 *   out              the first 2 * N * N bytes are written: the sums
 * Answers the number, 0 or the first of 1, 22, 2, 3, 23, 7 and 11, and the cycles.
 */
uint64_t ruznavo_square(const uint8_t *mask, size_t mask_length, size_t half_iterations, const uint8_t *llrs,
                        size_t llrs_length, uint8_t *out, size_t out_length);

#ifdef __cplusplus
}
#endif

#endif
