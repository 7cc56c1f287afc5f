/* listing.h: request 1's list, as the fuzz target calls it. */
#ifndef FUZZ_LISTING_H
#define FUZZ_LISTING_H

#include "../../c/mutree.h"
#include "../guarded.h"

/* Which list: low, high, and how many numbers are lent. */
struct wish {
    uint32_t low, high;
    size_t numbers;
};

/* The call, with its numbers against a guard page. Ends the run where they are not as the call says; returns the answer. */
uint32_t list_checked(uint32_t geometry, struct guarded image, struct wish wish, int at_end, struct guarded result);

#endif
