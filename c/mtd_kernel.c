#include "posix.h"

#include "mtd_kernel.h"

#include <fcntl.h>
#include <sys/ioctl.h>
#include <unistd.h>

static int kernel_open(const char *path, int flags)
{
    return open(path, flags);
}

static int kernel_control(int descriptor, unsigned long request, void *argument)
{
    return ioctl(descriptor, request, argument);
}

const struct mtd_kernel mtd_kernel = { kernel_open, kernel_control, pread, close };
