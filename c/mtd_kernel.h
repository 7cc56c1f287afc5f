/* mtd_kernel.h: the calls of the system that a NAND chip under Linux's MTD needs, in one table. A test puts a stand-in in the place of
 * mtd_kernel.c (tests/mtd). */
#ifndef MUTREE_MTD_KERNEL_H
#define MUTREE_MTD_KERNEL_H

#include <stddef.h>
#include <sys/types.h>

struct mtd_kernel {
    int (*open)(const char *path, int flags);
    int (*control)(int descriptor, unsigned long request, void *argument); /* ioctl */
    ssize_t (*read_at)(int descriptor, void *bytes, size_t count, off_t at);
    int (*close)(int descriptor);
};

extern const struct mtd_kernel mtd_kernel;

#endif
