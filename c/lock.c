#include "posix.h"

#include "lock.h"
#include "say.h"
#include "status.h"

#include <errno.h>
#include <sys/file.h>
#include <unistd.h>

/* flock, again where a signal came in between. */
static int flock_calmly(int descriptor, int operation)
{
    int got;
    do
        got = flock(descriptor, operation);
    while (got != 0 && errno == EINTR);
    return got;
}

int lock_file(int descriptor, const char *name, int no_wait)
{
    if (flock_calmly(descriptor, LOCK_EX | LOCK_NB) == 0)
        return 0;
    if (errno == EWOULDBLOCK && no_wait) {
        complain("%s is being changed by another process; try again, or leave out --no-wait to wait for it", name);
        return BUSY;
    }
    if (errno == EWOULDBLOCK) {
        if (isatty(STDERR_FILENO))
            complain("%s is being changed by another process; waiting", name);
        if (flock_calmly(descriptor, LOCK_EX) == 0)
            return 0;
    }
    complain_of(name, "it cannot be locked, so it is not changed; copy it to a disk that has locks");
    return BAD_FILE;
}
