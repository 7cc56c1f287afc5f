/* wiping.h: a new index in a file, by format or import: its chip, its blocks, and what stands there and must not be wiped by mistake. */
#ifndef MUTREE_WIPING_H
#define MUTREE_WIPING_H

#include "arguments.h"
#include "file.h"

/* --small or --large; small pages where nothing is said. */
const struct mutree_geometry *geometry_asked(const struct arguments *arguments);

/* How many blocks. Returns 0, or an exit status after a line. */
int read_blocks(const char *word, uint32_t *blocks);

/* Nonzero, an exit status after a line, where something stands in the file that a new index of `wanted` bytes would wipe. */
int wiping_refused(const struct file *file, size_t wanted);

#endif
