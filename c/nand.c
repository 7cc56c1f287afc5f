#include "nand.h"

#include <string.h>

enum kind { INSERT, DELETE };

struct order {
    enum kind kind;
    uint32_t key, address;
};

/* One store: a page programmed or a block erased. */
struct store {
    enum { NONE, PROGRAM, ERASE } kind;
    uint32_t block, page;
};

/* An update under way: the record that its last run left, and that of the run before. */
struct runs {
    struct order order;
    uint8_t before[MUTREE_RECORD_BYTES], after[MUTREE_RECORD_BYTES];
};

/* Every update goes through here. What a caller keeps beside the image is to be handed on here. */
static struct mutree_result ask(struct mutree_nand *nand, uint8_t *image, uint8_t *record, struct order order, uint32_t allowance)
{
    uint8_t result[MUTREE_RESULT_BYTES];
    if (order.kind == INSERT)
        mutree_insert_opened(nand->geometry, image, nand->length, record, MUTREE_RECORD_BYTES, nand->kept.live, MUTREE_MOST_LIVE_WORDS,
                             order.key, order.address, allowance, result, sizeof result);
    else
        mutree_delete_opened(nand->geometry, image, nand->length, record, MUTREE_RECORD_BYTES, nand->kept.live, MUTREE_MOST_LIVE_WORDS,
                             order.key, allowance, result, sizeof result);
    return mutree_read_result(result);
}

static struct mutree_nand_result told(struct mutree_result from)
{
    struct mutree_nand_result result = { 0, 0, 0, 0, 0, 0 };
    result.answer = from.answer;
    result.rule = from.rule;
    result.page = from.page;
    return result;
}

/* The chip, or NULL where the length is no index's. */
static const struct mutree_geometry *chip_of(const struct mutree_nand *nand)
{
    return mutree_live_words(nand->geometry, nand->length) > 0 ? mutree_geometry_of(nand->geometry) : NULL;
}

static uint32_t blocks_of(const struct mutree_nand *nand, const struct mutree_geometry *chip)
{
    return (uint32_t)(nand->length / chip->block_bytes);
}

static size_t place_of(const struct mutree_geometry *chip, uint32_t page)
{
    return (size_t)page * chip->page_bytes;
}

static int is_erased(const struct mutree_geometry *chip, const uint8_t *image, uint32_t page)
{
    const uint8_t *at = image + place_of(chip, page);
    return at[0] == 255 && memcmp(at, at + 1, chip->page_bytes - 1) == 0;
}

/* The programmed pages of a block. In a sound image they come first (R2). */
static uint8_t filled_of(const struct mutree_geometry *chip, const uint8_t *image, uint32_t block)
{
    uint8_t count = 0;
    while (count < chip->pages && !is_erased(chip, image, block * chip->pages + count))
        count++;
    return count;
}

/* Opens the image, and writes what a call of mutree.h writes. */
static uint32_t open_image(struct mutree_nand *nand, uint8_t *result)
{
    const struct mutree_geometry *chip = chip_of(nand);
    uint32_t block, answer = mutree_open(nand->geometry, nand->image, nand->length, nand->kept.record, sizeof nand->kept.record, result,
                                         MUTREE_RESULT_BYTES);
    nand->kept.opened = answer == MUTREE_DONE;
    if (answer != MUTREE_DONE)
        return answer;
    memcpy(nand->copy, nand->image, nand->length);
    memset(nand->kept.stored, 0, sizeof nand->kept.stored);
    for (block = 0; block < blocks_of(nand, chip); block++)
        nand->kept.filled[block] = filled_of(chip, nand->image, block);
    return answer;
}

struct mutree_nand_result mutree_nand_open(struct mutree_nand *nand)
{
    uint8_t result[MUTREE_RESULT_BYTES];
    open_image(nand, result);
    return told(mutree_read_result(result));
}

/* ---- an update */
/* The block that is erased in the copy and was not. */
static struct store erased_one(const struct mutree_nand *nand, const struct mutree_geometry *chip)
{
    struct store store = { NONE, 0, 0 };
    for (; store.block < blocks_of(nand, chip); store.block++)
        if (nand->kept.filled[store.block] > 0 && is_erased(chip, nand->copy, store.block * chip->pages)) {
            store.kind = ERASE;
            break;
        }
    return store;
}

/* The spare bytes of a page begin with its sequence number. */
static int has_number(const struct mutree_geometry *chip, const uint8_t *page, uint32_t number)
{
    const uint8_t *at = page + chip->main_bytes;
    return at[0] == (uint8_t)number && at[1] == (uint8_t)(number >> 8) && at[2] == (uint8_t)(number >> 16) && at[3] == (uint8_t)(number >> 24);
}

/* The page that was the next one before the run. It was erased, and now has the largest number, one more than before. */
static struct store programmed_one(const struct mutree_nand *nand, const struct mutree_geometry *chip, const struct runs *runs)
{
    struct store store = { NONE, 0, 0 };
    struct mutree_record before = mutree_read_record(runs->before), after = mutree_read_record(runs->after);
    store.page = before.next;
    store.block = store.page / chip->pages;
    if (store.block < blocks_of(nand, chip) && store.page % chip->pages == nand->kept.filled[store.block] && after.most == before.most + 1
        && has_number(chip, nand->copy + place_of(chip, store.page), after.most))
        store.kind = PROGRAM;
    return store;
}

/* Whether the blocks that were stored to have as many programmed pages in the copy as on the chip, this store counted in. */
static int is_next(const struct mutree_nand *nand, const struct mutree_geometry *chip, struct store store)
{
    uint32_t block, pages;
    for (block = 0; block < blocks_of(nand, chip); block++) {
        pages = nand->kept.filled[block];
        if (block == store.block)
            pages = store.kind == ERASE ? 0 : pages + 1;
        else if (!nand->kept.stored[block])
            continue;
        if (filled_of(chip, nand->copy, block) != pages)
            return 0;
    }
    return 1;
}

/* Makes one store on the chip. Returns what the callback returned. */
static int make(struct mutree_nand *nand, const struct mutree_geometry *chip, struct store store)
{
    const uint8_t *page = nand->copy + place_of(chip, store.page);
    int failure;
    nand->kept.stored[store.block] = 1;
    failure = store.kind == ERASE ? nand->erase(nand->context, store.block)
                                  : nand->program(nand->context, store.page, page, page + chip->main_bytes);
    if (failure == 0)
        nand->kept.filled[store.block] = (uint8_t)(store.kind == ERASE ? 0 : nand->kept.filled[store.block] + 1);
    return failure;
}

/* Finds the store that a run has more than the one before, and makes it; `result` says how that went. */
static void make_next(struct mutree_nand *nand, const struct mutree_geometry *chip, const struct runs *runs, struct mutree_result run,
                      struct mutree_nand_result *result)
{
    struct store store = run.erased > result->erased ? erased_one(nand, chip) : programmed_one(nand, chip, runs);
    if (store.kind == NONE || !is_next(nand, chip, store)) {
        result->answer = MUTREE_NAND_CHANGED;
        return;
    }
    result->failure = make(nand, chip, store);
    if (result->failure != 0)
        result->answer = MUTREE_NAND_FAILED;
    else if (store.kind == PROGRAM)
        result->programmed++;
    else
        result->erased++;
}

/* The blocks that were stored to, from one buffer to the other. */
static void copy_stored(struct mutree_nand *nand, const struct mutree_geometry *chip, uint8_t *to, const uint8_t *from)
{
    uint32_t block;
    for (block = 0; block < blocks_of(nand, chip); block++)
        if (nand->kept.stored[block])
            memcpy(to + (size_t)block * chip->block_bytes, from + (size_t)block * chip->block_bytes, chip->block_bytes);
}

/* A run from the start with so many stores. Gives STALE where the record shows that it is not the image's. */
static struct mutree_result run_with(struct mutree_nand *nand, const struct mutree_geometry *chip, struct runs *runs, uint32_t allowance)
{
    struct mutree_result run;
    copy_stored(nand, chip, nand->copy, nand->image);
    memcpy(runs->before, runs->after, sizeof runs->before);
    memcpy(runs->after, nand->kept.record, sizeof runs->after);
    run = ask(nand, nand->copy, runs->after, runs->order, allowance);
    if (run.answer == MUTREE_STOPPED && run.programmed + run.erased < allowance)
        run.answer = MUTREE_STALE;
    return run;
}

/* The image becomes what the chip has after the update, or after so many of its stores. */
static void settle(struct mutree_nand *nand, const struct mutree_geometry *chip, const struct runs *runs, struct mutree_nand_result result)
{
    uint32_t made = result.programmed + result.erased;
    if (result.answer == MUTREE_DONE) {
        copy_stored(nand, chip, nand->image, nand->copy);
        memcpy(nand->kept.record, runs->after, sizeof nand->kept.record);
        memset(nand->kept.stored, 0, sizeof nand->kept.stored);
    } else if (result.answer == MUTREE_NAND_FAILED) {
        if (made > 0)
            ask(nand, nand->image, nand->kept.record, runs->order, made);
        mutree_nand_open(nand);
    } else {
        nand->kept.opened = 0;
    }
}

/* An update with allowances 1, 2, .. from the same start. The store by which two neighbours differ is made on the chip before the next
 * run. The image stays as it was until the end. STALE where nothing is stored and the record is not the image's. */
static struct mutree_nand_result carry(struct mutree_nand *nand, struct order order)
{
    const struct mutree_geometry *chip = chip_of(nand);
    struct mutree_nand_result result = { MUTREE_STALE, 0, 0, 0, 0, 0 };
    struct mutree_result run;
    struct runs runs;
    uint32_t made = 0;
    if (chip == NULL || !nand->kept.opened)
        return result;
    runs.order = order;
    memcpy(runs.after, nand->kept.record, sizeof runs.after);
    do {
        run = run_with(nand, chip, &runs, made + 1);
        result.answer = run.answer;
        if (run.answer == MUTREE_DONE || run.answer == MUTREE_STOPPED)
            make_next(nand, chip, &runs, run, &result);
        else if (made == 0)
            return told(run); /* refused, and nothing is stored */
        else
            result.answer = MUTREE_NAND_CHANGED;
        made = result.programmed + result.erased;
    } while (result.answer == MUTREE_STOPPED);
    settle(nand, chip, &runs, result);
    return result;
}

/* Where the record is not the image's, the image is opened and the update begun once more. */
static struct mutree_nand_result update(struct mutree_nand *nand, struct order order)
{
    struct mutree_nand_result result = carry(nand, order);
    if (result.answer != MUTREE_STALE)
        return result;
    result = mutree_nand_open(nand);
    if (result.answer == MUTREE_DONE)
        result = carry(nand, order);
    if (result.answer == MUTREE_STALE)
        result.answer = MUTREE_NAND_CHANGED;
    return result;
}

struct mutree_nand_result mutree_nand_insert(struct mutree_nand *nand, uint32_t key, uint32_t address)
{
    struct order order = { INSERT, 0, 0 };
    order.key = key;
    order.address = address;
    return update(nand, order);
}

struct mutree_nand_result mutree_nand_delete(struct mutree_nand *nand, uint32_t key)
{
    struct order order = { DELETE, 0, 0 };
    order.key = key;
    return update(nand, order);
}

/* ---- lookup and list */
static uint32_t look(const struct mutree_nand *nand, uint32_t key, uint8_t *result)
{
    if (!nand->kept.opened)
        return MUTREE_STALE;
    return mutree_lookup_opened(nand->geometry, nand->image, nand->length, nand->kept.record, MUTREE_RECORD_BYTES, key, result,
                                MUTREE_RESULT_BYTES);
}

struct mutree_result mutree_nand_lookup(struct mutree_nand *nand, uint32_t key)
{
    uint8_t result[MUTREE_RESULT_BYTES];
    if (look(nand, key, result) == MUTREE_STALE && open_image(nand, result) == MUTREE_DONE)
        look(nand, key, result);
    return mutree_read_result(result);
}

static uint32_t list(const struct mutree_nand *nand, uint32_t low, uint32_t high, uint32_t *pairs, size_t pairs_len, uint8_t *result)
{
    if (!nand->kept.opened)
        return MUTREE_STALE;
    return mutree_list_opened(nand->geometry, nand->image, nand->length, nand->kept.record, MUTREE_RECORD_BYTES, low, high, pairs, pairs_len,
                              result, MUTREE_RESULT_BYTES);
}

struct mutree_listed mutree_nand_list(struct mutree_nand *nand, uint32_t low, uint32_t high, uint32_t *pairs, size_t pairs_len)
{
    uint8_t result[MUTREE_RESULT_BYTES];
    if (list(nand, low, high, pairs, pairs_len, result) == MUTREE_STALE && open_image(nand, result) == MUTREE_DONE)
        list(nand, low, high, pairs, pairs_len, result);
    return mutree_read_listed(result);
}

/* ---- format, read and patrol */
/* Erases every block, on the chip and in the image. Returns what the last callback returned. */
static int erase_all(struct mutree_nand *nand, const struct mutree_geometry *chip, uint32_t *erased)
{
    int failure = 0;
    while (*erased < blocks_of(nand, chip) && (failure = nand->erase(nand->context, *erased)) == 0) {
        memset(nand->image + (size_t)*erased * chip->block_bytes, 255, chip->block_bytes);
        ++*erased;
    }
    return failure;
}

struct mutree_nand_result mutree_nand_format(struct mutree_nand *nand)
{
    const struct mutree_geometry *chip = chip_of(nand);
    struct mutree_nand_result result = { MUTREE_LENGTH, 0, 0, 0, 0, 0 };
    uint8_t written[MUTREE_RESULT_BYTES];
    nand->kept.opened = 0;
    if (chip == NULL)
        return result;
    mutree_format(nand->geometry, nand->copy, nand->length, written, sizeof written);
    result.failure = erase_all(nand, chip, &result.erased);
    if (result.failure == 0)
        result.failure = nand->program(nand->context, 0, nand->copy, nand->copy + chip->main_bytes);
    if (result.failure == 0) {
        memcpy(nand->image, nand->copy, nand->length);
        result.programmed = 1;
        result.answer = mutree_nand_open(nand).answer;
    } else {
        result.answer = MUTREE_NAND_FAILED;
    }
    return result;
}

struct mutree_nand_result mutree_nand_read(struct mutree_nand *nand)
{
    const struct mutree_geometry *chip = chip_of(nand);
    struct mutree_nand_result result = { MUTREE_LENGTH, 0, 0, 0, 0, 0 };
    uint32_t page;
    nand->kept.opened = 0;
    if (chip == NULL)
        return result;
    for (page = 0; page < blocks_of(nand, chip) * chip->pages && result.failure == 0; page++) {
        uint8_t *at = nand->image + place_of(chip, page);
        result.failure = nand->read(nand->context, page, at, at + chip->main_bytes);
    }
    if (result.failure == 0)
        return mutree_nand_open(nand);
    result.answer = MUTREE_NAND_FAILED;
    return result;
}

struct mutree_nand_result mutree_nand_patrol(struct mutree_nand *nand, uint32_t found[4])
{
    const struct mutree_geometry *chip = chip_of(nand);
    struct mutree_nand_result result = { MUTREE_LENGTH, 0, 0, 0, 0, 0 };
    uint8_t bytes[MUTREE_RESULT_BYTES];
    uint32_t half;
    memset(found, 0, 4 * sizeof *found);
    if (chip == NULL)
        return result;
    for (half = 0; half < blocks_of(nand, chip) * chip->pages * chip->halves; half++) {
        mutree_patrol(nand->geometry, nand->image, nand->length, half / chip->halves, half % chip->halves, bytes, sizeof bytes);
        found[mutree_found(mutree_read_result(bytes)) % 4]++;
    }
    if (found[MUTREE_DATA_MENDED] + found[MUTREE_CODE_MENDED] > 0)
        nand->kept.opened = 0;
    result.answer = MUTREE_DONE;
    return result;
}
