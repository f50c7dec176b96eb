// A code, the frames that are sent with it, and their way through the library's C interface: encoder, BPSK with
// Gaussian noise, front end, decoder.
#ifndef FRAMES_H
#define FRAMES_H

#include "channel.h"

typedef struct {
    char name[64]; // of the mask file, without folder and ending
    size_t n, k;
    uint8_t mask[MAX_N], plan[2 * MAX_N];
} code;

// What was sent, and what was received.
typedef struct {
    uint8_t payload[MAX_N];
    float samples[MAX_N], variance;
} frame;

// What the library decodes.
typedef struct {
    int32_t soft[MAX_N];
    uint8_t hard[MAX_N], payload[MAX_N];
    int frozen_check;
    unsigned undecided; // bits of the hard word
} decoded;

// Says what went wrong, and ends the program with exit status 1.
_Noreturn void fail(const char *what);

// The code of a mask file, one line of digits ended by a line feed, with the planner's plan.
void read_code(code *c, const char *path);

// Which payloads are sent: drawn ones, or the zero payload only, with the noise negated where the word of the drawn one
// has a 1. The library's decoder makes the same errors with both (`zero-suffices` in crates/model/proofs/Theorems.antt).
typedef enum { DRAWN, ZERO } sending;

// The frames of a code depend on the seed, on Eb/N0 and on what is sent only.
struct random frames_at(double ebn0_db, uint64_t seed);
void make_frame(const code *c, struct random *r, double ebn0_db, sending what, frame *f);

// Random bits; and the frame of a payload that is already there, at this noise variance.
void draw_bits(struct random *r, uint8_t *bits, size_t count);
void send_payload(const code *c, struct random *r, double variance, frame *f);

// The front end's LLRs, with the noise variance divided by `scale`: 2y / v times the scale, rounded.
void make_llrs(const code *c, const frame *f, float scale, int16_t *llrs);

void decode(const code *c, const int16_t *llrs, size_t sweeps, decoded *d);

// The number of wrong payload bits: all of them where a bit of the word is undecided, since the payload then is too.
unsigned long wrong_bits(const code *c, const frame *f, const uint8_t *payload);

#endif
