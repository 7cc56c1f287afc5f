/* status.h: exit statuses beside the answer numbers 0 to 7 and 9. */
#ifndef MUTREE_STATUS_H
#define MUTREE_STATUS_H

enum {
    BAD_USAGE = 64,  /* the command can't be understood, or needs --force */
    FLIPPED = 65,    /* patrol: there are flipped bits, and not all of them are mended in the file */
    BAD_FILE = 66,   /* a file can't be read, written or replaced */
    NO_MEMORY = 71,
    BAD_OUTPUT = 74, /* what the tool prints can't be written */
    BUSY = 75        /* another process is changing the file, and --no-wait was given */
};

#endif
