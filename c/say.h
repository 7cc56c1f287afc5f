/* say.h: what the tool prints of answers, and whether it could be printed. */
#ifndef MUTREE_SAY_H
#define MUTREE_SAY_H

#include "image.h"

#include <stddef.h>

/* DONE, LENGTH and so on. */
const char *answer_name(uint32_t answer);

/* What an answer other than DONE means. The words stay until the next call. */
const char *answer_meaning(struct mutree_result result);

/* The same for DAMAGED: "R5 is broken on page 65". */
const char *damage_words(struct mutree_result verdict);

/* "1 entry", "2 entries": the ending for a count. */
const char *entries_word(size_t count);

/* The same of "1 record", "2 records". */
const char *records_word(size_t count);

/* A line on standard error, after all that was printed before it: "mutree: " and what is wrong. */
void complain(const char *format, ...);

/* The same for a call on a file that failed, with the system's reason. */
void complain_of(const char *path, const char *what);

/* Where the answer is DAMAGED: which command says more of the image's file. */
void say_check(const struct image *image, struct mutree_result result);

/* Prints an answer that is not DONE. Returns it as an exit status. */
int say_refused(const struct image *image, struct mutree_result result);

/* Prints the answer of an insert or a delete. Returns it as an exit status. */
int say_result(const struct image *image, struct mutree_result result);

/* Prints LENGTH for a file of this length, which is not the chip's; with NULL no chip's. Returns it as an exit status. */
int say_length(const char *path, const struct mutree_geometry *geometry, uintmax_t length);

/* Prints that a file has the length of both chips and is sound on neither. Returns DAMAGED as an exit status. */
int say_either(const char *path);

/* Remembers that the file is changed, for a report that can't be printed. */
void say_changed(void);

/* Closes standard output. Returns the status, or BAD_OUTPUT with a line where something could not be printed. */
int say_finished(int status);

#endif
