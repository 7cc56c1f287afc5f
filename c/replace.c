#include "posix.h"

#include "replace.h"
#include "say.h"
#include "status.h"
#include "temporary.h"

#include <errno.h>
#include <fcntl.h>
#include <stdlib.h>
#include <string.h>
#include <unistd.h>

static int write_all(int descriptor, const uint8_t *bytes, size_t length)
{
    while (length > 0) {
        ssize_t written = write(descriptor, bytes, length);
        if (written < 0 && errno == EINTR)
            continue;
        if (written < 0)
            return 1;
        bytes += written;
        length -= (size_t)written;
    }
    return 0;
}

/* Gives the new file the owner and the mode of the old one. */
static int keep_owner_and_mode(int descriptor, const struct file *file)
{
    struct stat new;
    if (fstat(descriptor, &new) != 0) {
        complain_of(file->name, "left as it was; the new file cannot be written");
        return 1;
    }
    if ((new.st_uid != file->state.st_uid || new.st_gid != file->state.st_gid)
        && fchown(descriptor, file->state.st_uid, file->state.st_gid) != 0) {
        complain_of(file->name, "left as it was; its owner and group cannot be kept, so run this as its owner");
        return 1;
    }
    if (fchmod(descriptor, file->state.st_mode & 07777) != 0) {
        complain_of(file->name, "left as it was; its mode cannot be kept");
        return 1;
    }
    return 0;
}

/* Writes the temporary file and closes it. */
static int fill(int descriptor, const struct file *file, const uint8_t *bytes, size_t length)
{
    int bad = keep_owner_and_mode(descriptor, file);
    if (!bad && (write_all(descriptor, bytes, length) || fsync(descriptor))) {
        complain_of(file->name, "left as it was; the new file cannot be written");
        bad = 1;
    }
    if (close(descriptor) != 0 && !bad) {
        complain_of(file->name, "left as it was; the new file cannot be written");
        bad = 1;
    }
    return bad;
}

/* After this the new name outlives a loss of power. A folder that can't be synced is no failure: the file is replaced. */
static void sync_folder(const char *path)
{
    char *folder = need(malloc(strlen(path) + 1));
    int descriptor;
    strcpy(folder, path);
    strrchr(folder, '/')[1] = '\0'; /* the path is absolute */
    descriptor = open(folder, O_RDONLY | O_CLOEXEC);
    if (descriptor >= 0) {
        (void)fsync(descriptor);
        close(descriptor);
    }
    free(folder);
}

int file_replace(struct file *file, const uint8_t *bytes, size_t length)
{
    int descriptor = temporary_make(file->path);
    if (descriptor < 0) {
        complain_of(file->name, "cannot make a new file beside it");
        return BAD_FILE;
    }
    if (fill(descriptor, file, bytes, length)) {
        temporary_remove();
        return BAD_FILE;
    }
    if (temporary_become(file->path)) {
        complain_of(file->name, "left as it was; the new file cannot take its place");
        temporary_remove();
        return BAD_FILE;
    }
    file->made = 0;
    sync_folder(file->path);
    return 0;
}
