/*
 * Buffers for a test, each between two pages that may not be touched and with guard bytes around it, and a twin of
 * each. The test fills both alike, lets the library work on the buffer and a reference on the twin, and compares buffer
 * and guard bytes with the twin's.
 */
#ifndef GUARDED_H
#define GUARDED_H

#include "random.h"

#include <stddef.h>
#include <stdint.h>

enum { GUARDED_BYTES = 18 * 4096, GUARD_BYTES = 256 };

struct guarded {
    const char *name;
    uint8_t *area, *twin_area; /* GUARDED_BYTES each */
    size_t offset, bytes;      /* the buffer's place in both */
    size_t first, end;         /* buffer and guard bytes */
};

/* Maps the two areas. Exits if that fails. */
void guarded_map(struct guarded *g, const char *name);

/*
 * Places a buffer of some bytes: at the end of its area, at its start, or inside, aligned as told. Buffer and guard
 * bytes are random, or a copy of `content`.
 */
void guarded_place(struct guarded *g, struct random *r, size_t bytes, size_t align, const void *content);

void *guarded_buffer(const struct guarded *g);
void *guarded_twin(const struct guarded *g);

/* Whether the area may be written. */
void guarded_writable(const struct guarded *g, int writable);

/* 0 if buffer and guard bytes are the twin's; else says where they differ and is 1. */
int guarded_differs(const struct guarded *g);

#endif
