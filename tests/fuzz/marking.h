/* marking.h: inserts and deletes with request 7's words of live pages, as the fuzz target calls them. */
#ifndef FUZZ_MARKING_H
#define FUZZ_MARKING_H

#include "../../c/mutree.h"
#include "../guarded.h"

/* An insert of the key with its complement for an address, or a delete. */
struct change {
    int adds;
    uint32_t key, allowance;
    size_t words; /* how many are lent */
};

/* The call, with its words against a guard page. Ends the run where they are not as the call says; returns the answer. */
uint32_t update_checked(uint32_t geometry, struct guarded image, struct change change, int at_end, struct guarded result);

#endif
