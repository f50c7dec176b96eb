/* See guarded.h. */
#define _DEFAULT_SOURCE
#include "guarded.h"

#include <stdio.h>
#include <stdlib.h>
#include <string.h>
#include <sys/mman.h>

enum { PAGE = 4096 };

static void must(int failed, const char *what) {
    if (!failed) return;
    perror(what);
    exit(2);
}

static uint8_t *map_area(void) {
    uint8_t *all = mmap(NULL, GUARDED_BYTES + 2 * PAGE, PROT_NONE, MAP_PRIVATE | MAP_ANONYMOUS, -1, 0);
    must(all == MAP_FAILED, "mmap");
    must(mprotect(all + PAGE, GUARDED_BYTES, PROT_READ | PROT_WRITE) != 0, "mprotect");
    return all + PAGE;
}

void guarded_map(struct guarded *g, const char *name) {
    g->name = name;
    g->area = map_area();
    g->twin_area = map_area();
}

void guarded_place(struct guarded *g, struct random *r, size_t bytes, size_t align, const void *content) {
    size_t slack = GUARDED_BYTES - bytes;
    switch (random_below(r, 3)) {
    case 0: g->offset = slack; break;
    case 1: g->offset = 0; break;
    default: g->offset = random_below(r, slack / align + 1) * align;
    }
    g->bytes = bytes;
    g->first = g->offset < GUARD_BYTES ? 0 : g->offset - GUARD_BYTES;
    g->end = g->offset + bytes + GUARD_BYTES;
    if (g->end > GUARDED_BYTES) g->end = GUARDED_BYTES;
    for (size_t i = g->first; i < g->end; i++) g->area[i] = (uint8_t)random_bits(r);
    if (content && bytes) memcpy(g->area + g->offset, content, bytes);
    memcpy(g->twin_area + g->first, g->area + g->first, g->end - g->first);
}

void *guarded_buffer(const struct guarded *g) { return g->area + g->offset; }

void *guarded_twin(const struct guarded *g) { return g->twin_area + g->offset; }

void guarded_writable(const struct guarded *g, int writable) {
    must(mprotect(g->area, GUARDED_BYTES, writable ? PROT_READ | PROT_WRITE : PROT_READ) != 0, "mprotect");
}

int guarded_differs(const struct guarded *g) {
    for (size_t i = g->first; i < g->end; i++)
        if (g->area[i] != g->twin_area[i]) {
            printf("%s of %zu bytes differs at byte %td: %u, and %u is expected\n", g->name, g->bytes,
                   (ptrdiff_t)i - (ptrdiff_t)g->offset, g->area[i], g->twin_area[i]);
            return 1;
        }
    return 0;
}
