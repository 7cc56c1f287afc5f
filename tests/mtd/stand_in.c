/* stand_in.c: in the place of c/mtd_kernel.c. A device is a regular file with a chip's bytes, page after page with the spare bytes, that is
 * kept by the laws of a simulated chip. Every call is held to what Linux's MTD asks of it. The environment says:
 *
 *   MTD_CHIP    0 or 1, the geometry's number       MTD_TRACE   a file that gets a line for each store and each mode
 *   MTD_POWER   so many stores, then the process ends in the middle of the call, before the store
 *   MTD_FAULT   so many stores, then one fails with EIO     MTD_UNREAD  a page that can't be read
 *   MTD_BAD     a block that is marked bad          MTD_TYPE    another kind of device     MTD_OOB     other spare bytes
 */
#define _XOPEN_SOURCE 700
#define _DEFAULT_SOURCE
#define _FILE_OFFSET_BITS 64

#include "../../c/mtd_kernel.h"
#include "../../examples/simulated.h"

#include <errno.h>
#include <fcntl.h>
#include <mtd/mtd-user.h>
#include <stdio.h>
#include <stdlib.h>
#include <string.h>
#include <sys/ioctl.h>
#include <unistd.h>

enum { POWER_LOST = 99 };

static struct simulated chip;
static int raw; /* the file mode is MTD_FILE_MODE_RAW */

static uint32_t asked(const char *name, uint32_t otherwise)
{
    const char *value = getenv(name);
    return value != NULL ? (uint32_t)strtoul(value, NULL, 10) : otherwise;
}

static void trace(const char *what, unsigned long at)
{
    const char *name = getenv("MTD_TRACE");
    FILE *out = name != NULL ? fopen(name, "a") : NULL;
    if (out == NULL)
        return;
    fprintf(out, "%s %lu\n", what, at);
    fclose(out);
}

static int refuse(int why)
{
    errno = why;
    return -1;
}

static int stand_in_open(const char *path, int flags)
{
    const struct mutree_geometry *g = mutree_geometry_of(asked("MTD_CHIP", 0));
    int descriptor = open(path, flags);
    off_t length = descriptor >= 0 ? lseek(descriptor, 0, SEEK_END) : -1;
    if (length <= 0 || length % g->block_bytes != 0)
        return descriptor; /* no device: MEMGETINFO says so */
    if (simulated_make(&chip, g, (uint32_t)(length / g->block_bytes)) != 0 || pread(descriptor, chip.bytes, chip.length, 0) != length)
        exit(71);
    chip.power_after = asked("MTD_POWER", SIMULATED_NEVER);
    chip.fault_after = asked("MTD_FAULT", SIMULATED_NEVER);
    return descriptor;
}

static int stand_in_close(int descriptor)
{
    simulated_free(&chip);
    return close(descriptor);
}

static uint64_t main_length(void)
{
    return (uint64_t)chip.blocks * chip.geometry->pages * chip.geometry->main_bytes;
}

static int get_info(struct mtd_info_user *info)
{
    if (chip.bytes == NULL)
        return refuse(ENOTTY);
    memset(info, 0, sizeof *info);
    info->type = (unsigned char)asked("MTD_TYPE", MTD_NANDFLASH);
    info->flags = MTD_CAP_NANDFLASH;
    info->size = (uint32_t)main_length();
    info->erasesize = chip.geometry->pages * chip.geometry->main_bytes;
    info->writesize = chip.geometry->main_bytes;
    info->oobsize = asked("MTD_OOB", chip.geometry->spare_bytes);
    return 0;
}

/* Whether a place is the start of one of these units of the device. */
static int is_start(uint64_t at, uint64_t unit)
{
    return at % unit == 0 && at < main_length();
}

/* What the chip made of a store; the file becomes what the chip has. */
static int stored(int descriptor, int made, uint64_t from, uint64_t count)
{
    if (made == SIMULATED_NO_POWER)
        _exit(POWER_LOST);
    if (made != SIMULATED_MADE)
        return refuse(made == SIMULATED_FAULT ? EIO : EPERM);
    if (pwrite(descriptor, chip.bytes + from, count, (off_t)from) != (ssize_t)count)
        exit(74);
    return 0;
}

static int write_page(int descriptor, const struct mtd_write_req *request)
{
    const struct mutree_geometry *g = chip.geometry;
    static const uint8_t none[7];
    uint32_t page = (uint32_t)(request->start / g->main_bytes);
    if (!is_start(request->start, g->main_bytes) || request->len != g->main_bytes || request->ooblen != g->spare_bytes
        || request->mode != MTD_OPS_RAW || memcmp(request->padding, none, sizeof none) != 0)
        return refuse(EINVAL);
    trace("program", page);
    return stored(descriptor, simulated_program(&chip, page, (const uint8_t *)(uintptr_t)request->usr_data,
                                                (const uint8_t *)(uintptr_t)request->usr_oob),
                  (uint64_t)page * g->page_bytes, g->page_bytes);
}

static int erase_block(int descriptor, const struct erase_info_user64 *erase)
{
    const struct mutree_geometry *g = chip.geometry;
    uint64_t bytes = (uint64_t)g->pages * g->main_bytes;
    uint32_t block = (uint32_t)(erase->start / bytes);
    if (!is_start(erase->start, bytes) || erase->length != bytes)
        return refuse(EINVAL);
    trace("erase", block);
    return stored(descriptor, simulated_erase(&chip, block), (uint64_t)block * g->block_bytes, g->block_bytes);
}

static const uint8_t *page_at(uint64_t start)
{
    return chip.bytes + start / chip.geometry->main_bytes * chip.geometry->page_bytes;
}

static int read_spare(const struct mtd_oob_buf64 *spare)
{
    if (!raw || !is_start(spare->start, chip.geometry->main_bytes) || spare->length != chip.geometry->spare_bytes)
        return refuse(EINVAL);
    memcpy((void *)(uintptr_t)spare->usr_ptr, page_at(spare->start) + chip.geometry->main_bytes, spare->length);
    return 0;
}

static int is_bad(const __kernel_loff_t *start)
{
    uint64_t bytes = (uint64_t)chip.geometry->pages * chip.geometry->main_bytes;
    if (getenv("MTD_NO_MARKS") != NULL)
        return refuse(EOPNOTSUPP);
    return is_start((uint64_t)*start, bytes) ? (uint64_t)*start / bytes == asked("MTD_BAD", UINT32_MAX) : refuse(EINVAL);
}

static int stand_in_control(int descriptor, unsigned long request, void *argument)
{
    switch (request) {
    case MEMGETINFO: return get_info(argument);
    case MTDFILEMODE:
        raw = (uintptr_t)argument == MTD_FILE_MODE_RAW;
        trace("mode", (unsigned long)(uintptr_t)argument);
        return 0;
    case MEMGETBADBLOCK: return is_bad(argument);
    case MEMWRITE: return write_page(descriptor, argument);
    case MEMERASE64: return erase_block(descriptor, argument);
    case MEMREADOOB64: return read_spare(argument);
    default: return refuse(ENOTTY);
    }
}

static ssize_t stand_in_read(int descriptor, void *bytes, size_t count, off_t at)
{
    (void)descriptor;
    if (!raw || !is_start((uint64_t)at, chip.geometry->main_bytes) || count != chip.geometry->main_bytes)
        return refuse(EINVAL);
    if ((uint64_t)at / chip.geometry->main_bytes == asked("MTD_UNREAD", UINT32_MAX))
        return refuse(EIO);
    memcpy(bytes, page_at((uint64_t)at), count);
    return (ssize_t)count;
}

const struct mtd_kernel mtd_kernel = { stand_in_open, stand_in_control, stand_in_read, stand_in_close };
