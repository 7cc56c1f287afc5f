/* posix.h: read before all other headers in the files that use more than C99: POSIX.1-2008, flock, files over 2 GB on 32 bits. */
#ifndef MUTREE_POSIX_H
#define MUTREE_POSIX_H

#define _XOPEN_SOURCE 700
#define _DEFAULT_SOURCE
#define _FILE_OFFSET_BITS 64

#endif
