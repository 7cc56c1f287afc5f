#include "posix.h"

#include "file.h"
#include "geometry.h"
#include "lock.h"
#include "say.h"
#include "status.h"
#include "temporary.h"

#include <errno.h>
#include <fcntl.h>
#include <stdlib.h>
#include <string.h>
#include <unistd.h>

int same_file(const struct stat *a, const struct stat *b)
{
    return a->st_dev == b->st_dev && a->st_ino == b->st_ino;
}

/* Nonzero, after a line, for what is no regular file. */
static int refused_kind(const char *name, mode_t mode)
{
    const char *kind = S_ISDIR(mode) ? "a directory" : S_ISFIFO(mode) ? "a pipe" : S_ISSOCK(mode) ? "a socket" : "a device";
    if (S_ISREG(mode))
        return 0;
    complain("%s is %s, not a regular file; %s", name, kind,
             S_ISCHR(mode) || S_ISBLK(mode) ? "dump the chip to a file first, with nanddump --oob"
                                            : "name a file that holds a raw dump");
    return BAD_FILE;
}

int file_open_to_read(const char *name, struct file *file)
{
    memset(file, 0, sizeof *file);
    file->name = name;
    if (stat(name, &file->state) != 0) {
        complain_of(name, "cannot open");
        return BAD_FILE;
    }
    if (refused_kind(name, file->state.st_mode))
        return BAD_FILE;
    file->descriptor = open(name, O_RDONLY | O_NONBLOCK | O_CLOEXEC);
    if (file->descriptor < 0 || fstat(file->descriptor, &file->state) != 0) {
        complain_of(name, "cannot open");
        return BAD_FILE;
    }
    return refused_kind(name, file->state.st_mode);
}

/* Nonzero, after a line, for a file that must not be replaced by a new one. */
static int refused_change(const char *name, const struct stat *state)
{
    if (refused_kind(name, state->st_mode))
        return BAD_FILE;
    if ((state->st_mode & (S_IWUSR | S_IWGRP | S_IWOTH)) == 0) {
        complain("%s is read-only; if it is to be changed, chmod u+w it first", name);
        return BAD_FILE;
    }
    if (state->st_nlink > 1) {
        complain("%s has %lu names (hard links), and a change would part it from the others; copy it with cp, change the copy",
                 name, (unsigned long)state->st_nlink);
        return BAD_FILE;
    }
    return 0;
}

/* Opens the file for a change, and makes it where it is missing and may be made. */
static int open_once(struct file *file, int may_make)
{
    struct stat before;
    int missing = stat(file->name, &before) != 0;
    if (missing && (errno != ENOENT || !may_make)) {
        complain_of(file->name, "cannot open");
        return BAD_FILE;
    }
    if (!missing && refused_change(file->name, &before))
        return BAD_FILE;
    file->descriptor = open(file->name, O_RDWR | O_NONBLOCK | O_CLOEXEC | (missing ? O_CREAT : 0), 0666);
    if (file->descriptor < 0) {
        complain_of(file->name, missing ? "cannot make it" : "cannot open it for a change");
        return BAD_FILE;
    }
    file->made = missing;
    return 0;
}

/* With the lock held: whether the name still leads to the locked file. 1 yes, 0 it was replaced meanwhile, -1 refused. */
static int still_named(struct file *file)
{
    struct stat now;
    if (fstat(file->descriptor, &file->state) != 0) {
        complain_of(file->name, "cannot open");
        return -1;
    }
    if (stat(file->name, &now) != 0 || !same_file(&now, &file->state))
        return 0;
    if (refused_change(file->name, &file->state))
        return -1;
    file->path = realpath(file->name, NULL);
    if (file->path == NULL || lstat(file->path, &now) != 0 || !same_file(&now, &file->state)) {
        complain("%s does not lead to a file that could be replaced; name the file itself", file->name);
        return -1;
    }
    return 1;
}

int file_open_to_change(const char *name, int may_make, int no_wait, struct file *file)
{
    int status, named = 0;
    memset(file, 0, sizeof *file);
    file->name = name;
    temporary_catch_signals();
    while (named == 0) {
        status = open_once(file, may_make);
        if (status != 0)
            return status;
        status = lock_file(file->descriptor, name, no_wait);
        named = status != 0 ? -1 : still_named(file);
        if (named != 1) {
            close(file->descriptor);
            free(file->path);
        }
    }
    file->made = file->made && file->state.st_size == 0;
    if (named == 1 && file->made)
        temporary_watch_made(file->path);
    return named == 1 ? 0 : status != 0 ? status : BAD_FILE;
}

/* Reads so many bytes. Returns how many came before the end of the file, or -1. */
static ssize_t read_all(int descriptor, uint8_t *bytes, size_t length)
{
    size_t done = 0;
    while (done < length) {
        ssize_t got = read(descriptor, bytes + done, length - done);
        if (got < 0 && errno == EINTR)
            continue;
        if (got < 0)
            return -1;
        if (got == 0)
            break;
        done += (size_t)got;
    }
    return (ssize_t)done;
}

int file_read(const struct file *file, struct image *image)
{
    ssize_t got;
    image->name = file->name;
    image->geometry = NULL;
    image->length = (size_t)file->state.st_size;
    image->bytes = need(malloc(image->length ? image->length : 1));
    got = read_all(file->descriptor, image->bytes, image->length);
    if (got == (ssize_t)image->length)
        return 0;
    if (got < 0)
        complain_of(file->name, "cannot read");
    else
        complain("%s grew shorter while it was read", file->name);
    image_free(image);
    return BAD_FILE;
}

int file_load(const struct file *file, const struct mutree_geometry *geometry, struct image *image)
{
    int status;
    if (!length_fits(geometry, (uintmax_t)file->state.st_size))
        return say_length(file->name, geometry, (uintmax_t)file->state.st_size);
    status = file_read(file, image);
    if (status != 0)
        return status;
    image->geometry = geometry != NULL ? geometry : geometry_of_image(image);
    if (image->geometry != NULL)
        return 0;
    image_free(image);
    return say_either(file->name);
}

int file_load_with_state(const char *name, const struct mutree_geometry *geometry, struct image *image, struct stat *state)
{
    struct file file;
    int status = file_open_to_read(name, &file);
    if (status != 0)
        return status;
    status = file_load(&file, geometry, image);
    *state = file.state;
    file_close(&file);
    return status;
}

int file_load_named(const char *name, const struct mutree_geometry *geometry, struct image *image)
{
    struct stat ignored;
    return file_load_with_state(name, geometry, image, &ignored);
}

void file_close(struct file *file)
{
    if (file->made)
        temporary_remove_made();
    close(file->descriptor);
    free(file->path);
    file->path = NULL;
}
