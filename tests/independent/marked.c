#define _DEFAULT_SOURCE
#include "marked.h"
#include "demands.h"

#include <string.h>

static uint8_t mark(size_t i)
{
    return (uint8_t)(2654435769u * (uint32_t)(i + 1) >> 24);
}

struct guarded marked(size_t length)
{
    struct guarded lent = guarded_make(length, (int)pick(2));
    size_t i;
    for (i = 0; i < length; i++)
        lent.bytes[i] = mark(i);
    return lent;
}

struct guarded guarded_copy(const uint8_t *bytes, size_t length)
{
    struct guarded copy = guarded_make(length, (int)pick(2));
    if (length)
        memcpy(copy.bytes, bytes, length);
    return copy;
}

uint32_t *numbers_of(const struct guarded *lent)
{
    return (uint32_t *)(void *)lent->bytes;
}

void stay_from(const struct guarded *lent, size_t from, const char *what)
{
    size_t i;
    for (i = from; i < lent->length; i++)
        if (lent->bytes[i] != mark(i))
            fail(what);
}
