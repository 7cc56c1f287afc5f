#include "posix.h"

#include "mtd.h"

#ifdef __linux__

#include "geometry.h"
#include "lock.h"
#include "mtd_kernel.h"
#include "say.h"
#include "status.h"

#include <errno.h>
#include <fcntl.h>
#include <inttypes.h>
#include <mtd/mtd-user.h>
#include <string.h>
#include <sys/ioctl.h> /* the numbers of the MTD calls */

/* The chip whose pages and blocks these are, or NULL. */
static const struct mutree_geometry *chip_of(const struct mtd_info_user *info)
{
    uint32_t number;
    for (number = 0; number < MUTREE_GEOMETRIES; number++) {
        const struct mutree_geometry *g = mutree_geometry_of(number);
        if (info->writesize == g->main_bytes && info->oobsize == g->spare_bytes && info->erasesize == g->main_bytes * g->pages)
            return g;
    }
    return NULL;
}

/* Which chip it is. Returns an exit status. */
static int learn_chip(struct mtd *mtd)
{
    struct mtd_info_user info;
    memset(&info, 0, sizeof info);
    if (mtd_kernel.control(mtd->descriptor, MEMGETINFO, &info) != 0) {
        complain_of(mtd->name, "no MTD device; name one, /dev/mtd0 for example");
        return BAD_FILE;
    }
    if (info.type != MTD_NANDFLASH) {
        complain("%s is no NAND chip with one bit a cell", mtd->name);
        return BAD_FILE;
    }
    mtd->geometry = chip_of(&info);
    if (mtd->geometry == NULL) {
        complain("%s has pages of %" PRIu32 " and %" PRIu32 " bytes and blocks of %" PRIu32 " main bytes; an index takes 512 and 16 with 16384, "
                 "or 2048 and 64 with 131072", mtd->name, (uint32_t)info.writesize, (uint32_t)info.oobsize, (uint32_t)info.erasesize);
        return BAD_FILE;
    }
    mtd->blocks = info.size / info.erasesize;
    if (mtd->blocks >= MUTREE_LEAST_BLOCKS && mtd->blocks <= MUTREE_MOST_BLOCKS)
        return 0;
    complain("LENGTH: %s has %" PRIu32 " blocks; an index has 3 to 1024, so make a partition of so many", mtd->name, mtd->blocks);
    return MUTREE_LENGTH;
}

static uint64_t block_start(const struct mtd *mtd, uint32_t block)
{
    return (uint64_t)block * mtd->geometry->pages * mtd->geometry->main_bytes;
}

/* Nonzero, after a line, where a block is marked bad. A device that keeps no marks has none. */
static int has_bad_block(const struct mtd *mtd)
{
    uint32_t block;
    for (block = 0; block < mtd->blocks; block++) {
        __kernel_loff_t start = (__kernel_loff_t)block_start(mtd, block);
        int bad = mtd_kernel.control(mtd->descriptor, MEMGETBADBLOCK, &start);
        if (bad < 0 && errno == EOPNOTSUPP)
            return 0;
        if (bad < 0) {
            complain_of(mtd->name, "cannot ask for bad blocks");
            return 1;
        }
        if (bad > 0) {
            complain("%s: block %" PRIu32 " is marked bad, and an index takes no such block; make a partition without it", mtd->name, block);
            return 1;
        }
    }
    return 0;
}

/* Pages are then read as they stand, without the driver's codes. */
static int set_raw(const struct mtd *mtd)
{
    if (mtd_kernel.control(mtd->descriptor, MTDFILEMODE, (void *)(uintptr_t)MTD_FILE_MODE_RAW) == 0)
        return 0;
    complain_of(mtd->name, "its pages cannot be read raw");
    return BAD_FILE;
}

int mtd_open(const char *name, int to_change, int no_wait, struct mtd *mtd)
{
    int status;
    memset(mtd, 0, sizeof *mtd);
    mtd->name = name;
    mtd->descriptor = mtd_kernel.open(name, (to_change ? O_RDWR : O_RDONLY) | O_CLOEXEC);
    if (mtd->descriptor < 0) {
        complain_of(name, "cannot open");
        return BAD_FILE;
    }
    status = learn_chip(mtd);
    if (status == 0 && to_change)
        status = lock_file(mtd->descriptor, name, no_wait);
    if (status == 0 && has_bad_block(mtd))
        status = BAD_FILE;
    if (status == 0)
        status = set_raw(mtd);
    if (status != 0)
        mtd_close(mtd);
    return status;
}

void mtd_close(struct mtd *mtd)
{
    mtd_kernel.close(mtd->descriptor);
}

/* What a callback returns: 0, or the system's number for the failure. */
static int failed(struct mtd *mtd, const char *doing, uint32_t at)
{
    mtd->doing = doing;
    mtd->at = at;
    return errno != 0 ? errno : EIO;
}

static int program_page(void *context, uint32_t page, const uint8_t *main_bytes, const uint8_t *spare_bytes)
{
    struct mtd *mtd = context;
    struct mtd_write_req request;
    memset(&request, 0, sizeof request);
    request.start = (uint64_t)page * mtd->geometry->main_bytes;
    request.len = mtd->geometry->main_bytes;
    request.ooblen = mtd->geometry->spare_bytes;
    request.usr_data = (uint64_t)(uintptr_t)main_bytes;
    request.usr_oob = (uint64_t)(uintptr_t)spare_bytes;
    request.mode = MTD_OPS_RAW;
    errno = 0;
    return mtd_kernel.control(mtd->descriptor, MEMWRITE, &request) == 0 ? 0 : failed(mtd, "program page", page);
}

static int erase_block(void *context, uint32_t block)
{
    struct mtd *mtd = context;
    struct erase_info_user64 erase;
    erase.start = block_start(mtd, block);
    erase.length = block_start(mtd, 1);
    errno = 0;
    return mtd_kernel.control(mtd->descriptor, MEMERASE64, &erase) == 0 ? 0 : failed(mtd, "erase block", block);
}

static int read_page(void *context, uint32_t page, uint8_t *main_bytes, uint8_t *spare_bytes)
{
    struct mtd *mtd = context;
    uint64_t start = (uint64_t)page * mtd->geometry->main_bytes;
    struct mtd_oob_buf64 spare;
    memset(&spare, 0, sizeof spare);
    spare.start = start;
    spare.length = mtd->geometry->spare_bytes;
    spare.usr_ptr = (uint64_t)(uintptr_t)spare_bytes;
    errno = 0;
    if (mtd_kernel.read_at(mtd->descriptor, main_bytes, mtd->geometry->main_bytes, (off_t)start) != (ssize_t)mtd->geometry->main_bytes
        || mtd_kernel.control(mtd->descriptor, MEMREADOOB64, &spare) != 0)
        return failed(mtd, "read page", page);
    return 0;
}

struct mutree_nand mtd_nand(struct mtd *mtd, struct image *image, struct image *copy)
{
    struct mutree_nand nand;
    memset(&nand, 0, sizeof nand);
    nand.geometry = mtd->geometry->number;
    nand.image = image->bytes;
    nand.copy = copy->bytes;
    nand.length = image->length;
    nand.context = mtd;
    nand.program = program_page;
    nand.erase = erase_block;
    nand.read = read_page;
    return nand;
}

int mtd_say_failed(const struct mtd *mtd, struct mutree_nand_result result)
{
    if (result.answer == MUTREE_NAND_FAILED)
        complain("%s: cannot %s %" PRIu32 ": %s", mtd->name, mtd->doing, mtd->at, strerror(result.failure));
    else
        complain("%s: the index in memory was changed while the update ran; begin again", mtd->name);
    return BAD_FILE;
}

#else

typedef int mtd_is_of_linux;

#endif
