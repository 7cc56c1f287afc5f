/* shim.c: the library made wrong on purpose, so that the tests can be seen to fail. The real calls have been renamed to
 * real_format and so on. FAULT says what is wrong:
 * 1 an insert that says DONE and writes nothing   2 one page more reported than programmed
 * 3 an insert that also flips a bit of a dead page   4 a delete that pretends   5 a lookup one address off
 * 6 an insert that makes one store more than its allowance
 * 7 a lookup that reads one byte past the image   8 an insert that reads one byte past the result buffer
 * 9 a delete that is ROOM where an insert of the next key is
 * 10 every number but 0 is taken for the large chip   11 the large chip is taken for the small one
 * 12 a lookup that takes a result buffer of 16 bytes   13 a delete that says neither rule nor page
 * 14 R3 with the lower page of the pair   15 R2 with the last erased page in a row, not the first
 * 16 R5 with the root's page (damage.c has 14 to 16)
 * 17 a patrol that mends the bit beside   18 a patrol that takes two flips for one and turns bit 0 over
 * 19 a lookup that passes over codes that do not fit
 * 20 a list without the pair at its high key   21 one pair too many where a list is cut short at an odd length
 * 22 a list that passes over the root's subtree that low lies in (listing.c has 20 to 22)
 * 23 an import takes a key equal to the one before   24 the line that is refused is one off
 * 25 an image is formatted before its text is read to the end   26 a last line without byte 10 is taken
 * 27 an export writes what fits into too few bytes   28 a byte 0 after the text   29 an export needs one byte more than the text has
 * 30 a key with a leading zero is taken   31 an import that lacks room leaves the image as it was
 * 32 an import reads one byte past its text   33 an import does not count format's page (carrying.c has 23 to 33)
 * 34 pages that died keep their bits   35 pages that are new have none   36 a word past the image's is written
 * 37 the words stay as they were where an insert is ROOM   38 a stopped update leaves the words of the finished one
 * 39 DAMAGED changes a word   40 LENGTH changes a word   41 one word too few is taken   42 the two words of a large block are exchanged
 * 43 an update reads one word past those that are lent   44 too few words are told only where the image is sound
 * 45 a page without a leaf stays live when its inner node moves (marking.c has 34 to 45)
 * 46 the record's next page is not moved on   47 the old root's number is kept   48 STALE without the height
 * 49 a page that is not erased is programmed, under a record that is not the image's   50 the record is not written where an update is STOPPED
 * 51 a refused opening leaves the record   52 a record of 23 bytes is taken   53 STALE changes a word   54 one byte is read past the record
 * 55 the largest number is the root's   56 no next page is page 0   57 a call with a record judges the image   58 STALE before too few words
 * 59 an erased page too many after a collection   60 a list by the record counts one pair less   61 STALE writes zeros to the record
 * 62 an erased page stands   63 an update by the record leaves the words   64 a lookup by the record one address off (opening.c has 46 to 64) */
#include "../../c/mutree.h"
#include "../independent/code.h"
#include "carrying.h"
#include "damage.h"
#include "listing.h"
#include "marking.h"
#include "opening.h"

#include <stdlib.h>
#include <string.h>

uint32_t real_patrol(uint32_t geometry, uint8_t *image, size_t image_len, uint32_t page, uint32_t half, uint8_t *result, size_t result_len);

static volatile uint8_t seen; /* what faults 7 and 8 read */

static uint32_t chip_of(uint32_t geometry)
{
    return FAULT == 10 && geometry > 1 ? 1 : FAULT == 11 && geometry == 1 ? 0 : geometry;
}

uint32_t mutree_format(uint32_t geometry, uint8_t *image, size_t image_len, uint8_t *result, size_t result_len)
{
    return real_format(chip_of(geometry), image, image_len, result, result_len);
}

static uint8_t *copied(const uint8_t *image, size_t length)
{
    uint8_t *copy = malloc(length ? length : 1);
    if (copy == NULL)
        abort();
    memcpy(copy, image, length);
    return copy;
}

/* The same lookup on a copy whose codes fit. */
static uint32_t lookup_with_codes(uint32_t geometry, const uint8_t *image, size_t length, uint32_t key, uint8_t *result, size_t result_len)
{
    uint8_t *copy = copied(image, length);
    uint32_t answer;
    put_all_codes(&chips[geometry], copy, length);
    answer = real_lookup(geometry, copy, length, key, result, result_len);
    free(copy);
    return answer;
}

uint32_t mutree_lookup(uint32_t geometry, const uint8_t *image, size_t image_len, uint32_t key, uint8_t *result, size_t result_len)
{
    uint8_t longer[MUTREE_RESULT_BYTES];
    int takes = FAULT == 12 && result_len >= 16 && result_len < sizeof longer;
    uint32_t answer = real_lookup(chip_of(geometry), image, image_len, key, takes ? longer : result,
                                  takes ? sizeof longer : result_len);
    if (takes)
        memcpy(result, longer, result_len);
    tell_wrongly(FAULT, geometry, image, image_len, answer, result);
    if (FAULT == 19 && answer == MUTREE_DAMAGED && mutree_read_result(result).rule == 1)
        answer = lookup_with_codes(geometry, image, image_len, key, result, result_len);
    if (FAULT == 7)
        seen = image[image_len];
    if (FAULT == 5 && answer == MUTREE_DONE)
        result[4]++;
    return answer;
}

uint32_t mutree_list(uint32_t geometry, const uint8_t *image, size_t image_len, uint32_t low, uint32_t high, uint32_t *pairs,
                     size_t pairs_len, uint8_t *result, size_t result_len)
{
    uint32_t answer = list_wrongly(FAULT, chip_of(geometry), image, image_len, low, high, pairs, pairs_len, result, result_len);
    tell_wrongly(FAULT, geometry, image, image_len, answer, result);
    return answer;
}

uint32_t mutree_export(uint32_t geometry, const uint8_t *image, size_t image_len, uint8_t *text, size_t text_len, uint8_t *result,
                       size_t result_len)
{
    uint32_t answer = export_wrongly(FAULT, chip_of(geometry), image, image_len, text, text_len, result, result_len);
    tell_wrongly(FAULT, geometry, image, image_len, answer, result);
    return answer;
}

uint32_t mutree_import(uint32_t geometry, uint8_t *image, size_t image_len, const uint8_t *text, size_t text_len, uint8_t *result,
                       size_t result_len)
{
    return import_wrongly(FAULT, chip_of(geometry), image, image_len, text, text_len, result, result_len);
}

/* The image as it was, where the call pretends. */
static void undo(uint8_t *image, const uint8_t *before, size_t length)
{
    if (before != NULL)
        memcpy(image, before, length);
}

/* Faults 34 to 45 are of the words alone. */
static uint32_t update(struct update u)
{
    return FAULT >= 34 ? update_wrongly(FAULT, u) : update_rightly(u);
}

uint32_t mutree_insert(uint32_t geometry, uint8_t *image, size_t image_len, uint32_t *live, size_t live_len, uint32_t key,
                       uint32_t address, uint32_t allowance, uint8_t *result, size_t result_len)
{
    uint8_t *before = FAULT == 1 ? copied(image, image_len) : NULL;
    uint32_t more = FAULT == 6 && allowance < UINT32_MAX;
    struct update u = { 1, chip_of(geometry), image, image_len, live, live_len, key, address, allowance + more, result, result_len };
    uint32_t answer = update(u);
    undo(image, before, image_len);
    free(before);
    tell_wrongly(FAULT, geometry, image, image_len, answer, result);
    if (FAULT == 8)
        seen = result[result_len];
    if (FAULT == 2 && answer == MUTREE_DONE)
        result[8]++;
    if (FAULT == 3 && answer == MUTREE_DONE && image[mutree_geometry_of(geometry)->page_bytes - 1] == 255)
        image[0] ^= 1;
    return answer;
}

static int insert_lacks_room(uint32_t geometry, const uint8_t *image, size_t length, uint32_t key)
{
    static uint32_t live[MUTREE_MOST_LIVE_WORDS];
    uint8_t *copy = copied(image, length), result[MUTREE_RESULT_BYTES];
    uint32_t answer = real_insert(chip_of(geometry), copy, length, live, MUTREE_MOST_LIVE_WORDS, key + 1, 0, 0, result, sizeof result);
    free(copy);
    return answer == MUTREE_ROOM;
}

uint32_t mutree_delete(uint32_t geometry, uint8_t *image, size_t image_len, uint32_t *live, size_t live_len, uint32_t key,
                       uint32_t allowance, uint8_t *result, size_t result_len)
{
    uint8_t *before = FAULT == 4 || (FAULT == 9 && insert_lacks_room(geometry, image, image_len, key)) ? copied(image, image_len) : NULL;
    struct update u = { 0, chip_of(geometry), image, image_len, live, live_len, key, 0, allowance, result, result_len };
    uint32_t answer = update(u);
    undo(image, before, image_len);
    if (FAULT == 9 && before != NULL && (answer == MUTREE_DONE || answer == MUTREE_STOPPED)) {
        memset(result, 0, MUTREE_RESULT_BYTES);
        answer = result[0] = MUTREE_ROOM;
    }
    if (FAULT == 13 && answer == MUTREE_DAMAGED)
        memset(result + 16, 0, 8);
    tell_wrongly(FAULT, geometry, image, image_len, answer, result);
    free(before);
    return answer;
}

/* The half that a patrol was asked for. */
static uint8_t *half_at(uint32_t geometry, uint8_t *image, uint32_t page, uint32_t half)
{
    return image + (size_t)page * mutree_geometry_of(geometry)->page_bytes + MUTREE_HALF_BYTES * half;
}

uint32_t mutree_patrol(uint32_t geometry, uint8_t *image, size_t image_len, uint32_t page, uint32_t half, uint8_t *result, size_t result_len)
{
    uint32_t answer = real_patrol(chip_of(geometry), image, image_len, page, half, result, result_len);
    struct mutree_result r;
    if (answer != MUTREE_DONE || FAULT < 17 || FAULT > 18)
        return answer;
    r = mutree_read_result(result);
    if (FAULT == 17 && mutree_found(r) == MUTREE_DATA_MENDED)
        half_at(geometry, image, page, half)[mutree_bit(r) / 8] ^= (uint8_t)(mutree_bit(r) % 8 == 7 ? 192 : 3 << mutree_bit(r) % 8);
    if (FAULT == 18 && mutree_found(r) == MUTREE_BEYOND_REPAIR) {
        result[4] = MUTREE_DATA_MENDED;
        half_at(geometry, image, page, half)[0] ^= 1;
    }
    return answer;
}

/* ---- request 8: faults 46 to 64 */
uint32_t mutree_open(uint32_t geometry, const uint8_t *image, size_t image_len, uint8_t *record, size_t record_len, uint8_t *result,
                     size_t result_len)
{
    return open_wrongly(FAULT, geometry, image, image_len, record, record_len, result, result_len);
}

uint32_t mutree_lookup_opened(uint32_t geometry, const uint8_t *image, size_t image_len, const uint8_t *record, size_t record_len, uint32_t key,
                              uint8_t *result, size_t result_len)
{
    struct opened_call c = { A_LOOKUP, geometry, (uint8_t *)image, image_len, (uint8_t *)record, record_len, NULL, 0, key, 0, 0, result, result_len };
    uint32_t none = 0;
    c.lent = &none;
    return call_wrongly(FAULT, c);
}

uint32_t mutree_list_opened(uint32_t geometry, const uint8_t *image, size_t image_len, const uint8_t *record, size_t record_len, uint32_t low,
                            uint32_t high, uint32_t *pairs, size_t pairs_len, uint8_t *result, size_t result_len)
{
    struct opened_call c = { A_LIST, geometry, (uint8_t *)image, image_len, (uint8_t *)record, record_len, pairs, pairs_len, low, high, 0,
                             result, result_len };
    return call_wrongly(FAULT, c);
}

uint32_t mutree_insert_opened(uint32_t geometry, uint8_t *image, size_t image_len, uint8_t *record, size_t record_len, uint32_t *live,
                              size_t live_len, uint32_t key, uint32_t address, uint32_t allowance, uint8_t *result, size_t result_len)
{
    struct opened_call c = { AN_INSERT, geometry, image, image_len, record, record_len, live, live_len, key, address, allowance, result,
                             result_len };
    return call_wrongly(FAULT, c);
}

uint32_t mutree_delete_opened(uint32_t geometry, uint8_t *image, size_t image_len, uint8_t *record, size_t record_len, uint32_t *live,
                              size_t live_len, uint32_t key, uint32_t allowance, uint8_t *result, size_t result_len)
{
    struct opened_call c = { A_DELETE, geometry, image, image_len, record, record_len, live, live_len, key, 0, allowance, result, result_len };
    return call_wrongly(FAULT, c);
}
