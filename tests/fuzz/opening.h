/* opening.h: request 8's opening and the calls with a record, as the fuzz target calls them. */
#ifndef FUZZ_OPENING_H
#define FUZZ_OPENING_H

#include "../../c/mutree.h"
#include "../guarded.h"

enum opened_call { OPEN, LOOKUP_OPENED, LIST_OPENED, INSERT_OPENED, DELETE_OPENED };

/* Which record: what opening gives, the same with two bytes changed, any bytes, or any bytes that name a page as it is programmed. */
enum record_kind { RIGHT, NEARLY_RIGHT, ANY_BYTES, STANDING };

struct trial {
    enum opened_call which;
    enum record_kind kind;
    uint8_t bytes[MUTREE_RECORD_BYTES];
    size_t record_length, words, numbers;
    uint32_t key, high, allowance;
};

/* The call, with all its buffers against guard pages. Ends the run where they are not as the call says; returns the answer. */
uint32_t opened_checked(uint32_t geometry, struct guarded image, struct trial trial, int at_end, struct guarded result);

#endif
