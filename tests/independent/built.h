/* built.h: images made by hand, for both chips. One leaf a page, on all pages of each block but the last; an inner node stands on
 * the page of its first child. Keys are even, from 2 on. The leaf of the smallest key is full and the others have one entry; where
 * the plan says so, all nodes of that path are full below the root. With LAST_PATH both hold of the largest key's path. */
#ifndef BUILT_H
#define BUILT_H

#include "judge.h"

enum path { NO_PATH, FIRST_PATH, LAST_PATH };

struct built {
    const struct chip *chip;
    uint32_t blocks, height;
    uint32_t root;                         /* entries of the root */
    enum path full_path;
    uint32_t leaves;                       /* at height 1 none but the root */
    uint32_t programmed;                   /* pages from 0 on; those without a leaf are dead */
};

/* The fewest leaves of a tree of this height whose path is full below a root with so many entries. */
uint32_t leaves_of_full_path(const struct chip *chip, uint32_t height, uint32_t root);

/* The caller frees it. Its largest sequence number, the root's, is the chip's WORN limit: updates of it are taken, and after
 * one that stores something they are WORN. */
uint8_t *build(struct built plan);

#endif
