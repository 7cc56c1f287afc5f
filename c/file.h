/* file.h: an index file, opened, locked for a change, and read. Only regular files are taken; links are followed. */
#ifndef MUTREE_FILE_H
#define MUTREE_FILE_H

#include "image.h"

#include <sys/stat.h>

struct file {
    const char *name;  /* as the user wrote it */
    char *path;        /* where links lead; NULL in a file opened to read */
    int descriptor;
    int made;          /* this process made the file, and it is empty */
    struct stat state; /* as it was when it was opened, and locked */
};

/* Both return 0, or an exit status after a line that says what is wrong. A reader takes no lock: a file is never changed
 * in place, so it reads the old one or the new one. A change holds the lock until file_close; with `no_wait` it is
 * refused where another process holds it. With `may_make` a missing file is made, empty. */
int file_open_to_read(const char *name, struct file *file);
int file_open_to_change(const char *name, int may_make, int no_wait, struct file *file);

/* Reads the whole file, which is no longer than the largest index. Returns 0, or an exit status after a line. */
int file_read(const struct file *file, struct image *image);

/* The same where the length is an index's; another length is not read and gets its line. `geometry` is the chip that the user
 * names; with NULL it is told from the file, and a file that could be of either chip is refused with a line. */
int file_load(const struct file *file, const struct mutree_geometry *geometry, struct image *image);

/* Opens, loads and closes; the second one gives the file's state as well. */
int file_load_named(const char *name, const struct mutree_geometry *geometry, struct image *image);
int file_load_with_state(const char *name, const struct mutree_geometry *geometry, struct image *image, struct stat *state);

/* Closes the file. One that this process made and that is still empty is removed. */
void file_close(struct file *file);

int same_file(const struct stat *a, const struct stat *b);

#endif
