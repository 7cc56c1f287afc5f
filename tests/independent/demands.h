/* demands.h: one update held against the demands, for the tests of this folder. */
#ifndef DEMANDS_H
#define DEMANDS_H

#include "../../c/mutree.h"
#include "built.h"
#include "judge.h"

struct update {
    int adds;
    uint32_t key, address;
};

/* Bytes of the result (request 5). */
enum { RESULT = 24 };

/* The chip that is tested now. */
extern const struct chip *chip;

/* Ends the program with a line. */
void fail(const char *what);

/* A number below `below`, by chance. What is looked at between the updates of the days takes `pick`, so that it does not change the days. */
uint32_t some(uint32_t below);
uint32_t pick(size_t below);

/* Memory, or the end of the program. */
uint8_t *room_for(size_t length);
uint8_t *copy_of(const uint8_t *image, size_t length);

/* The map that the image must hold is from now on the tree's. */
void take_map(const struct tree *tree);

/* The update once. A delete that answers ROOM fails. */
struct mutree_result run(struct update u, uint8_t *image, size_t length, uint32_t allowance);

/* The update with every allowance from 0 on; leaves the image as the last one does. Returns the answer. */
uint32_t every_allowance(struct update u, uint8_t *image, size_t length);

/* The same on a copy, and whatever map the image holds. */
uint32_t tried(struct update u, const uint8_t *image, size_t length);

/* The largest height after an update so far. */
unsigned greatest_height(void);

/* Every call on a copy says what the judge says of the image: DAMAGED with its rule and page, and writes nothing; or not DAMAGED.
 * Returns the first broken rule (damage.c). */
int is_judged_alike(const uint8_t *image, size_t length, uint32_t key);

/* Request 5: damaged images for each rule and clause, and by chance (damage.c). */
void damage_is_named(void);

/* Request 7: the update by one call of the library, with as many words for live pages as the image needs, or a few more. Fails where a word
 * is not as it should be after the answer. Returns it (words.c). */
uint32_t update_with_words(struct update u, uint32_t number, uint8_t *image, size_t length, uint32_t allowance, uint8_t *result, size_t room);
void words_are_the_live_pages(void);

/* What was met on the chip; fails where something was not. */
void tell_words(void);

/* Request 4: the patrol of halves; of the differences that a code can have one in so many is tried (patrol.c). */
void halves_are_patrolled(uint32_t step);

/* Request 11 (room.c). */
void delete_is_never_short_of_room(void);

/* A built tree: a root with all entries it can store over a full path, so that the next key halves every node. The caller frees it
 * (growth.c). */
uint8_t *full_tree(unsigned height, enum path path, size_t *length);

/* Built trees of every height, full on the first path and on the last: looks at each, with its map, and fails with `wrote` where that changed
 * the image (growth.c). */
void on_full_trees(void (*look)(const uint8_t *image, size_t length, const struct entry *map, size_t entries), const char *wrote);

/* Roots that are full, at every height (growth.c). */
void roots_grow(void);

/* A call with this number for the chip, on an image that it leaves as it is; with a result buffer that is too short it is LENGTH, and the
 * buffer stays (numbers.c). */
typedef uint32_t any_call(uint32_t number, const uint8_t *image, size_t length, uint8_t *result, size_t room);
void short_results_stay(any_call *call, const uint8_t *image, size_t length, const char *what);

/* The geometry's number, and what c/mutree.h says of each chip (numbers.c). */
void numbers_are_the_documents(void);

#endif
