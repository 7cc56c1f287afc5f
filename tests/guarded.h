/* guarded.h: memory whose first byte, or whose last one, stands against a page that may not be touched: a library without
 * sanitizers that reads or writes one byte too far dies there. Needs mmap. */
#ifndef MUTREE_GUARDED_H
#define MUTREE_GUARDED_H

#include <stddef.h>
#include <stdint.h>
#include <stdlib.h>
#include <sys/mman.h>
#include <unistd.h>

struct guarded {
    uint8_t *bytes; /* what is lent: `length` bytes */
    size_t length;
    void *mapped;
    size_t mapped_length;
};

/* Both neighbours of the pages are closed. The bytes end at the rear one, or begin at the front one. */
static inline struct guarded guarded_make(size_t length, int at_end)
{
    struct guarded g;
    size_t page = (size_t)sysconf(_SC_PAGESIZE), pages = (length + page - 1) / page;
    uint8_t *open;
    g.length = length;
    g.mapped_length = (pages + 2) * page;
    g.mapped = mmap(NULL, g.mapped_length, PROT_NONE, MAP_PRIVATE | MAP_ANONYMOUS, -1, 0);
    if (g.mapped == MAP_FAILED)
        abort();
    open = (uint8_t *)g.mapped + page;
    if (pages > 0 && mprotect(open, pages * page, PROT_READ | PROT_WRITE) != 0)
        abort();
    g.bytes = at_end ? open + (pages * page - length) : open;
    return g;
}

static inline void guarded_free(struct guarded *g)
{
    munmap(g->mapped, g->mapped_length);
    g->bytes = NULL;
}

#endif
