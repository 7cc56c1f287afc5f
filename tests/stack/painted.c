/* painted.c: how much stack each call takes. It stands between a test and the library (the linker's --wrap) and makes every call
 * on a stack of its own, painted beforehand. What is no longer painted was used. The most of each call is printed at the end. */
#define _XOPEN_SOURCE 600
#include "../../c/mutree.h"

#include <stdio.h>
#include <stdlib.h>
#include <string.h>
#include <ucontext.h>

uint32_t __real_mutree_format(uint32_t geometry, uint8_t *image, size_t image_len, uint8_t *result, size_t result_len);
uint32_t __real_mutree_lookup(uint32_t geometry, const uint8_t *image, size_t image_len, uint32_t key, uint8_t *result, size_t result_len);
uint32_t __real_mutree_insert(uint32_t geometry, uint8_t *image, size_t image_len, uint32_t *live, size_t live_len, uint32_t key,
                              uint32_t address, uint32_t allowance, uint8_t *result, size_t result_len);
uint32_t __real_mutree_delete(uint32_t geometry, uint8_t *image, size_t image_len, uint32_t *live, size_t live_len, uint32_t key,
                              uint32_t allowance, uint8_t *result, size_t result_len);
uint32_t __real_mutree_patrol(uint32_t geometry, uint8_t *image, size_t image_len, uint32_t page, uint32_t half, uint8_t *result,
                              size_t result_len);

uint32_t __real_mutree_list(uint32_t geometry, const uint8_t *image, size_t image_len, uint32_t low, uint32_t high, uint32_t *pairs,
                            size_t pairs_len, uint8_t *result, size_t result_len);

uint32_t __real_mutree_export(uint32_t geometry, const uint8_t *image, size_t image_len, uint8_t *text, size_t text_len, uint8_t *result,
                              size_t result_len);
uint32_t __real_mutree_import(uint32_t geometry, uint8_t *image, size_t image_len, const uint8_t *text, size_t text_len, uint8_t *result,
                              size_t result_len);

uint32_t __real_mutree_open(uint32_t geometry, const uint8_t *image, size_t image_len, uint8_t *record, size_t record_len, uint8_t *result,
                            size_t result_len);
uint32_t __real_mutree_lookup_opened(uint32_t geometry, const uint8_t *image, size_t image_len, const uint8_t *record, size_t record_len, uint32_t key,
                                     uint8_t *result, size_t result_len);
uint32_t __real_mutree_list_opened(uint32_t geometry, const uint8_t *image, size_t image_len, const uint8_t *record, size_t record_len, uint32_t low,
                                   uint32_t high, uint32_t *pairs, size_t pairs_len, uint8_t *result, size_t result_len);
uint32_t __real_mutree_insert_opened(uint32_t geometry, uint8_t *image, size_t image_len, uint8_t *record, size_t record_len, uint32_t *live,
                                     size_t live_len, uint32_t key, uint32_t address, uint32_t allowance, uint8_t *result, size_t result_len);
uint32_t __real_mutree_delete_opened(uint32_t geometry, uint8_t *image, size_t image_len, uint8_t *record, size_t record_len, uint32_t *live,
                                     size_t live_len, uint32_t key, uint32_t allowance, uint8_t *result, size_t result_len);

/* OTHER_PAIR is an insert or a delete with a record that is not what opening gives for the image. */
enum {
    FORMAT, LOOKUP, INSERT, DELETE, PATROL, LIST, EXPORT, IMPORT, OPEN, LOOKUP_OPENED, LIST_OPENED, INSERT_OPENED, DELETE_OPENED, OTHER_PAIR, NOTHING, CALLS
};
enum { ROOM = 1 << 20, MOST_ROOM = 4 << 20, LIMIT = 256 << 10, PAINT = 0xA5 };

static const char *const names[CALLS] = { "format", "lookup", "insert", "delete", "patrol", "list", "export", "import", "open", "lookup, opened",
                                          "list, opened", "insert, opened", "delete, opened", "update, another pair", "nothing" };
static unsigned long most[CALLS], made[CALLS];
static unsigned char *stack;
static ucontext_t caller, callee;

/* The call that is to be made on the painted stack. */
static struct {
    int which;
    uint8_t *image, *result;
    size_t image_len, result_len;
    uint32_t geometry, key, address, allowance, answer;
    uint32_t *live; /* insert's and delete's */
    size_t live_len;
    uint32_t *pairs; /* list's; its low and high are key and address */
    size_t pairs_len;
    uint8_t *text; /* of an export or an import */
    size_t text_len;
    uint8_t *record; /* of an opening, or a call with a record */
    size_t record_len;
    int adds; /* of another pair */
} now;

/* The calls with a record. */
static void make_opened_call(void)
{
    switch (now.which == OTHER_PAIR ? now.adds ? INSERT_OPENED : DELETE_OPENED : now.which) {
    case OPEN:
        now.answer = __real_mutree_open(now.geometry, now.image, now.image_len, now.record, now.record_len, now.result, now.result_len);
        break;
    case LOOKUP_OPENED:
        now.answer = __real_mutree_lookup_opened(now.geometry, now.image, now.image_len, now.record, now.record_len, now.key, now.result,
                                                 now.result_len);
        break;
    case LIST_OPENED:
        now.answer = __real_mutree_list_opened(now.geometry, now.image, now.image_len, now.record, now.record_len, now.key, now.address, now.pairs,
                                               now.pairs_len, now.result, now.result_len);
        break;
    case INSERT_OPENED:
        now.answer = __real_mutree_insert_opened(now.geometry, now.image, now.image_len, now.record, now.record_len, now.live, now.live_len, now.key,
                                                 now.address, now.allowance, now.result, now.result_len);
        break;
    case DELETE_OPENED:
        now.answer = __real_mutree_delete_opened(now.geometry, now.image, now.image_len, now.record, now.record_len, now.live, now.live_len, now.key,
                                                 now.allowance, now.result, now.result_len);
        break;
    }
}

static void make_call(void)
{
    switch (now.which) {
    case FORMAT:
        now.answer = __real_mutree_format(now.geometry, now.image, now.image_len, now.result, now.result_len);
        break;
    case LOOKUP:
        now.answer = __real_mutree_lookup(now.geometry, now.image, now.image_len, now.key, now.result, now.result_len);
        break;
    case INSERT:
        now.answer = __real_mutree_insert(now.geometry, now.image, now.image_len, now.live, now.live_len, now.key, now.address, now.allowance,
                                          now.result, now.result_len);
        break;
    case DELETE:
        now.answer = __real_mutree_delete(now.geometry, now.image, now.image_len, now.live, now.live_len, now.key, now.allowance, now.result,
                                          now.result_len);
        break;
    case PATROL: /* page and half stand for key and address */
        now.answer = __real_mutree_patrol(now.geometry, now.image, now.image_len, now.key, now.address, now.result, now.result_len);
        break;
    case LIST:
        now.answer = __real_mutree_list(now.geometry, now.image, now.image_len, now.key, now.address, now.pairs, now.pairs_len, now.result,
                                        now.result_len);
        break;
    case EXPORT:
        now.answer = __real_mutree_export(now.geometry, now.image, now.image_len, now.text, now.text_len, now.result, now.result_len);
        break;
    case IMPORT:
        now.answer = __real_mutree_import(now.geometry, now.image, now.image_len, now.text, now.text_len, now.result, now.result_len);
        break;
    default: make_opened_call();
    }
}

static unsigned long room_of(int which)
{
    return which == OTHER_PAIR ? MOST_ROOM : ROOM;
}

static unsigned long unpainted(unsigned long room)
{
    unsigned long i = 0;
    while (i < room && stack[i] == PAINT)
        i++;
    return room - i;
}

static uint32_t on_painted_stack(int which)
{
    unsigned long used;
    now.which = which;
    memset(stack, PAINT, room_of(which));
    getcontext(&callee);
    callee.uc_stack.ss_sp = stack;
    callee.uc_stack.ss_size = room_of(which);
    callee.uc_link = &caller;
    makecontext(&callee, make_call, 0);
    swapcontext(&caller, &callee);
    used = unpainted(room_of(which));
    made[which]++;
    if (used > most[which])
        most[which] = used;
    return now.answer;
}

/* The least is what a stack with no call on it shows: this program's own part. No call may take more than LIMIT, on other pairs neither. */
static void print_most(void)
{
    int i, long_ones = 0;
    for (i = 0; i < NOTHING; i++) {
        unsigned long used = made[i] ? most[i] - most[NOTHING] : 0;
        fprintf(stderr, "stack: %s: %lu bytes at most in %lu calls\n", names[i], used, made[i]);
        if (used > LIMIT) {
            fprintf(stderr, "stack: %s: that is more than %d bytes\n", names[i], LIMIT);
            long_ones++;
        }
    }
    if (long_ones) {
        fflush(NULL);
        _Exit(1);
    }
}

static void prepare(void)
{
    if (stack != NULL)
        return;
    stack = malloc(MOST_ROOM);
    if (stack == NULL)
        exit(71);
    on_painted_stack(NOTHING);
    atexit(print_most);
}

static void set_buffers(uint32_t geometry, const uint8_t *image, size_t image_len, uint8_t *result, size_t result_len)
{
    prepare();
    now.geometry = geometry;
    now.image = (uint8_t *)image;
    now.image_len = image_len;
    now.result = result;
    now.result_len = result_len;
}

uint32_t __wrap_mutree_format(uint32_t geometry, uint8_t *image, size_t image_len, uint8_t *result, size_t result_len)
{
    set_buffers(geometry, image, image_len, result, result_len);
    return on_painted_stack(FORMAT);
}

uint32_t __wrap_mutree_lookup(uint32_t geometry, const uint8_t *image, size_t image_len, uint32_t key, uint8_t *result, size_t result_len)
{
    set_buffers(geometry, image, image_len, result, result_len);
    now.key = key;
    return on_painted_stack(LOOKUP);
}

uint32_t __wrap_mutree_list(uint32_t geometry, const uint8_t *image, size_t image_len, uint32_t low, uint32_t high, uint32_t *pairs,
                            size_t pairs_len, uint8_t *result, size_t result_len)
{
    set_buffers(geometry, image, image_len, result, result_len);
    now.key = low;
    now.address = high;
    now.pairs = pairs;
    now.pairs_len = pairs_len;
    return on_painted_stack(LIST);
}

uint32_t __wrap_mutree_export(uint32_t geometry, const uint8_t *image, size_t image_len, uint8_t *text, size_t text_len, uint8_t *result,
                              size_t result_len)
{
    set_buffers(geometry, image, image_len, result, result_len);
    now.text = text;
    now.text_len = text_len;
    return on_painted_stack(EXPORT);
}

uint32_t __wrap_mutree_import(uint32_t geometry, uint8_t *image, size_t image_len, const uint8_t *text, size_t text_len, uint8_t *result,
                              size_t result_len)
{
    set_buffers(geometry, image, image_len, result, result_len);
    now.text = (uint8_t *)text;
    now.text_len = text_len;
    return on_painted_stack(IMPORT);
}

uint32_t __wrap_mutree_delete(uint32_t geometry, uint8_t *image, size_t image_len, uint32_t *live, size_t live_len, uint32_t key,
                              uint32_t allowance, uint8_t *result, size_t result_len)
{
    set_buffers(geometry, image, image_len, result, result_len);
    now.live = live;
    now.live_len = live_len;
    now.key = key;
    now.allowance = allowance;
    return on_painted_stack(DELETE);
}

/* Of the many patrols of the independent test every 1,000th is made on the painted stack. */
uint32_t __wrap_mutree_patrol(uint32_t geometry, uint8_t *image, size_t image_len, uint32_t page, uint32_t half, uint8_t *result,
                              size_t result_len)
{
    static unsigned long patrols;
    if (patrols++ % 1000 != 0)
        return __real_mutree_patrol(geometry, image, image_len, page, half, result, result_len);
    set_buffers(geometry, image, image_len, result, result_len);
    now.key = page;
    now.address = half;
    return on_painted_stack(PATROL);
}

/* A finished insert is also undone, on a copy, and its key looked up before, so that the other calls meet the trees on which insert
 * needs the most. */
static void undo_on_copy(uint32_t geometry, const uint8_t *image, size_t image_len, uint32_t key)
{
    static uint32_t live[MUTREE_MOST_LIVE_WORDS];
    uint8_t ignored[MUTREE_RESULT_BYTES], *copy = malloc(image_len);
    if (copy == NULL)
        exit(71);
    memcpy(copy, image, image_len);
    __wrap_mutree_delete(geometry, copy, image_len, live, MUTREE_MOST_LIVE_WORDS, key, UINT32_MAX, ignored, sizeof ignored);
    free(copy);
}

uint32_t __wrap_mutree_insert(uint32_t geometry, uint8_t *image, size_t image_len, uint32_t *live, size_t live_len, uint32_t key,
                              uint32_t address, uint32_t allowance, uint8_t *result, size_t result_len)
{
    uint8_t ignored[MUTREE_RESULT_BYTES];
    uint32_t answer;
    __wrap_mutree_lookup(geometry, image, image_len, key, ignored, sizeof ignored);
    set_buffers(geometry, image, image_len, result, result_len);
    now.live = live;
    now.live_len = live_len;
    now.key = key;
    now.address = address;
    now.allowance = allowance;
    answer = on_painted_stack(INSERT);
    if (answer == MUTREE_DONE)
        undo_on_copy(geometry, image, image_len, key);
    return answer;
}

/* ---- request 8: the calls with a record. The independent test makes each of its updates with one too, on the same trees. Of the many openings,
 * lookups and lists every 20th is made on the painted stack */
static int is_one_of_20(void)
{
    static unsigned long calls;
    return calls++ % 20 == 0;
}

static void set_record(const uint8_t *record, size_t record_len)
{
    now.record = (uint8_t *)record;
    now.record_len = record_len;
}

uint32_t __wrap_mutree_open(uint32_t geometry, const uint8_t *image, size_t image_len, uint8_t *record, size_t record_len, uint8_t *result,
                            size_t result_len)
{
    if (!is_one_of_20())
        return __real_mutree_open(geometry, image, image_len, record, record_len, result, result_len);
    set_buffers(geometry, image, image_len, result, result_len);
    set_record(record, record_len);
    return on_painted_stack(OPEN);
}

uint32_t __wrap_mutree_lookup_opened(uint32_t geometry, const uint8_t *image, size_t image_len, const uint8_t *record, size_t record_len, uint32_t key,
                                     uint8_t *result, size_t result_len)
{
    if (!is_one_of_20())
        return __real_mutree_lookup_opened(geometry, image, image_len, record, record_len, key, result, result_len);
    set_buffers(geometry, image, image_len, result, result_len);
    set_record(record, record_len);
    now.key = key;
    return on_painted_stack(LOOKUP_OPENED);
}

uint32_t __wrap_mutree_list_opened(uint32_t geometry, const uint8_t *image, size_t image_len, const uint8_t *record, size_t record_len, uint32_t low,
                                   uint32_t high, uint32_t *pairs, size_t pairs_len, uint8_t *result, size_t result_len)
{
    if (!is_one_of_20())
        return __real_mutree_list_opened(geometry, image, image_len, record, record_len, low, high, pairs, pairs_len, result, result_len);
    set_buffers(geometry, image, image_len, result, result_len);
    set_record(record, record_len);
    now.key = low;
    now.address = high;
    now.pairs = pairs;
    now.pairs_len = pairs_len;
    return on_painted_stack(LIST_OPENED);
}

/* Whether the record is another than opening gives. */
static int is_other(uint32_t geometry, const uint8_t *image, size_t image_len, const uint8_t *record, size_t record_len)
{
    uint8_t right[MUTREE_RECORD_BYTES], ignored[MUTREE_RESULT_BYTES];
    __real_mutree_open(geometry, image, image_len, right, sizeof right, ignored, sizeof ignored);
    return record_len >= sizeof right && memcmp(right, record, sizeof right) != 0;
}

static void set_update(uint32_t *live, size_t live_len, uint32_t key, uint32_t address, uint32_t allowance)
{
    now.live = live;
    now.live_len = live_len;
    now.key = key;
    now.address = address;
    now.allowance = allowance;
}

uint32_t __wrap_mutree_insert_opened(uint32_t geometry, uint8_t *image, size_t image_len, uint8_t *record, size_t record_len, uint32_t *live,
                                     size_t live_len, uint32_t key, uint32_t address, uint32_t allowance, uint8_t *result, size_t result_len)
{
    set_buffers(geometry, image, image_len, result, result_len);
    set_record(record, record_len);
    set_update(live, live_len, key, address, allowance);
    now.adds = 1;
    return on_painted_stack(is_other(geometry, image, image_len, record, record_len) ? OTHER_PAIR : INSERT_OPENED);
}

uint32_t __wrap_mutree_delete_opened(uint32_t geometry, uint8_t *image, size_t image_len, uint8_t *record, size_t record_len, uint32_t *live,
                                     size_t live_len, uint32_t key, uint32_t allowance, uint8_t *result, size_t result_len)
{
    set_buffers(geometry, image, image_len, result, result_len);
    set_record(record, record_len);
    set_update(live, live_len, key, 0, allowance);
    now.adds = 0;
    return on_painted_stack(is_other(geometry, image, image_len, record, record_len) ? OTHER_PAIR : DELETE_OPENED);
}
