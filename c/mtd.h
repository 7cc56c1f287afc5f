/* mtd.h: an index on a NAND chip under Linux's MTD, /dev/mtdN. All blocks of the device are the index's. Pages are read and written raw,
 * main and spare bytes as they stand, with no code of the driver's. */
#ifndef MUTREE_MTD_H
#define MUTREE_MTD_H

#include "image.h"
#include "nand.h"

struct mtd {
    const char *name; /* as the user wrote it */
    int descriptor;
    const struct mutree_geometry *geometry;
    uint32_t blocks;
    const char *doing; /* what the last callback that failed was to do, and on which page or block */
    uint32_t at;
};

/* Returns 0, or an exit status after a line that says what is wrong: no MTD device, another kind of chip, another number of blocks, a
 * block that is marked bad. With `to_change` it is locked until mtd_close, as file_open_to_change does. */
int mtd_open(const char *name, int to_change, int no_wait, struct mtd *mtd);
void mtd_close(struct mtd *mtd);

/* Image and copy, of the device's length both, connected with the device. */
struct mutree_nand mtd_nand(struct mtd *mtd, struct image *image, struct image *copy);

/* Prints why a callback failed. Returns BAD_FILE. */
int mtd_say_failed(const struct mtd *mtd, struct mutree_nand_result result);

#endif
