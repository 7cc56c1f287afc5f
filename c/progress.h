/* progress.h: a line on the terminal for what takes over a second. */
#ifndef MUTREE_PROGRESS_H
#define MUTREE_PROGRESS_H

#include <stddef.h>

/* Without it progress_show shows nothing. */
void progress_begin(void);

/* How far it is; a total of 0 is not told. Shows nothing in the first second, nor where standard error is no terminal. */
void progress_show(const char *what, size_t done, size_t total);

/* Takes the line away. */
void progress_end(void);

#endif
