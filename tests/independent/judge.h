/* judge.h: document 01's rules R1 to R7, request 4's codes, request 11's R8, request 5's page and the map of an image, for both
 * chips, written from the documents alone. */
#ifndef JUDGE_H
#define JUDGE_H

#include <stddef.h>
#include <stdint.h>

enum { CHIPS = 2, MOST_PAGES = 65536 };

/* A chip as the documents give it: document 01 the small one, request 9 the large one. */
struct chip {
    const char *name;
    uint32_t number;
    unsigned block_pages, main, page; /* pages of a block; main bytes and all bytes of a page */
    unsigned slots, top;              /* slots of a page, the greatest height */
    unsigned room;                    /* ROOM where T - L is below this and k together; R8 asks for one more */
    unsigned halves, code;            /* request 4: parts of 256 main bytes, the spare byte of the first one's code */
    uint32_t worn;
    uint32_t own_pages, all_pages, erases; /* demand 3's bounds */
};

extern const struct chip chips[CHIPS];

/* "Level l starts at slot 256 - 256/2^(l-1)"; the most entries of a node below the root, and of a stored root. */
unsigned first_slot(const struct chip *chip, unsigned level);
unsigned most_below(const struct chip *chip, unsigned level);
unsigned most_root(const struct chip *chip, unsigned level);
size_t length_of(const struct chip *chip, size_t blocks);

struct entry {
    uint32_t key, address;
};

struct tree {
    const struct chip *chip;
    size_t pages;
    unsigned char erased[MOST_PAGES];      /* 1: all bytes of the page are 255 */
    unsigned char levels[MOST_PAGES];      /* bit l - 1: a live node at level l; 0: not live */
    uint32_t root;
    unsigned height;
    size_t nodes, live, free_pages;        /* live nodes, live pages, erased pages */
    struct entry *map;                     /* rising keys */
    size_t entries, room;
    uint32_t broken;                       /* the page that request 5 names for the first broken rule, else 0 */
};

/* The first broken rule, or 0 for a sound image of a good length. Fills the tree; `tree` may be used again and again. */
int judge(struct tree *tree, const struct chip *chip, const uint8_t *image, size_t length);

/* k of an insert, "1 + splits + 1 if it grows", on a sound image where it is not HEIGHT. */
unsigned pages_needed(const struct tree *tree, const uint8_t *image, uint32_t key);

uint32_t number_at(const uint8_t *at);
int all_255(const uint8_t *at, size_t n);

#endif
