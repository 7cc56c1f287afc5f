/* marked.h: lent memory against a guard page, behind it or before it, with something in every byte beforehand, so that one that changes
 * is seen. */
#ifndef MARKED_H
#define MARKED_H

#include "../guarded.h"

/* The caller frees it (guarded_free). */
struct guarded marked(size_t length);

/* The same with these bytes in it. */
struct guarded guarded_copy(const uint8_t *bytes, size_t length);

/* The same as numbers of 32 bits. */
uint32_t *numbers_of(const struct guarded *lent);

/* Fails with `what` where a byte from `from` on is not as it was. */
void stay_from(const struct guarded *lent, size_t from, const char *what);

#endif
