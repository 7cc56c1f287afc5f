/* opened.h: request 8's calls with a record, for the tests of this folder. */
#ifndef OPENED_H
#define OPENED_H

#include "../guarded.h"
#include "demands.h"

/* Bytes of a record. */
enum { RECORD = 24, STALE = 8 };

/* ---- opened.c: on a sound image with the record that opening gives, a call with a record is the call without it */
/* An update with a record, made on copies of all buffers. */
struct twin {
    struct guarded image, record, result, words;
    uint32_t number, opening, answer;
    uint8_t given[RECORD]; /* the record before */
};

/* The update on copies of image and result, with so many words. */
struct twin update_opened(struct update u, uint32_t number, const uint8_t *image, size_t length, uint32_t allowance, const uint8_t *result,
                          size_t room, size_t words);

/* Fails where the same call without a record left something else; frees the copies. */
void is_alike(struct twin *twin, uint32_t answer, const uint8_t *image, const uint8_t *result, const struct guarded *words);

/* The lookup and the list with the record that opening gives: the same answer, the same bytes. */
void lookup_is_alike(uint32_t number, const uint8_t *image, size_t length, uint32_t key, uint32_t answer, const uint8_t *result);
void list_is_alike(uint32_t number, const uint8_t *image, size_t length, uint32_t low, uint32_t high, const struct guarded *pairs,
                   uint32_t answer, const uint8_t *result);

/* Logs with one opening; and what stale.c has. */
void opened_calls_are_the_calls(void);
void tell_opened(void);

/* Words that an image needs; a record against a guard page, with some bytes after it. */
size_t words_needed(const struct chip *on, size_t length);
struct guarded lent_record(const uint8_t *record);

/* Opens an image into 24 bytes; fails where a refused opening gives no zeros, or has other numbers than it should. Returns the answer. */
uint32_t opened_record(uint32_t number, const uint8_t *image, size_t length, uint8_t *record, uint8_t *result);

/* The update on the twin's own buffers. Returns the answer. */
uint32_t update_by_record(struct twin *twin, struct update u, uint32_t allowance);

/* ---- stale.c: LENGTH and STALE */
/* Any call with a record of zeros, on an image that it leaves as it is: 0 open, 1 lookup, 2 list, 3 insert, 4 delete. */
enum { OPENED_CALLS = 5 };
uint32_t any_opened(int which, uint32_t number, const uint8_t *image, size_t length, uint8_t *result, size_t room);

/* Buffers of every length, records that are STALE, openings that are refused. */
void stale_is_told(void);
void tell_stale(void);

/* ---- outdated.c: other pairs of image and record */
/* Whether the page that a record names is programmed with its number and height. */
int is_standing(const struct chip *on, const uint8_t *image, size_t length, const uint8_t *record);

/* Records of every kind on images of every kind: no byte outside the buffers, erased pages only are programmed, every call ends soon. */
void outdated_records_are_safe(int quick);
void tell_outdated(void);

#endif
