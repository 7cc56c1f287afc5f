/* replace.h: new content for a file: written beside it, then renamed, so that a crash leaves the old file or the new one. */
#ifndef MUTREE_REPLACE_H
#define MUTREE_REPLACE_H

#include "file.h"

/* The file keeps its owner and mode. Returns 0, or an exit status after a line; the file is then as it was. */
int file_replace(struct file *file, const uint8_t *bytes, size_t length);

#endif
