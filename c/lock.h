/* lock.h: the lock that a change holds from before the file is read until it is replaced. */
#ifndef MUTREE_LOCK_H
#define MUTREE_LOCK_H

/* Takes the lock of an open file, and waits for it unless `no_wait`. Returns 0, or an exit status after a line. */
int lock_file(int descriptor, const char *name, int no_wait);

#endif
