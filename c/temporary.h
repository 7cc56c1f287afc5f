/* temporary.h: files that must not stay behind: the new file while it is written, and an empty one that was made to be
 * replaced. A signal that ends the process removes both first. */
#ifndef MUTREE_TEMPORARY_H
#define MUTREE_TEMPORARY_H

/* From now on SIGINT, SIGTERM, SIGHUP and SIGQUIT clean up, say whether the file is changed, and end the process. */
void temporary_catch_signals(void);

/* Makes a file beside `path` under a name of its own. Returns its descriptor, or -1. */
int temporary_make(const char *path);

/* Gives the temporary file the name `path`. Returns nonzero where that fails. */
int temporary_become(const char *path);

/* Removes the temporary file. */
void temporary_remove(void);

/* The file at `path` was made by this process: it goes too, unless a temporary file takes its place. */
void temporary_watch_made(const char *path);
void temporary_remove_made(void);

#endif
