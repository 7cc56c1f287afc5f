/* patrol.c: request 4 through the C call. Of some halves every single flip of the 256 bytes and of the code is put right; of one half
 * all pairs of flips are told as beyond repair; every difference that a code can have is told as the request's words say; several
 * flips by chance, on pages of any bytes; pages, halves, lengths and buffers that are none. */
#include "built.h"
#include "code.h"
#include "demands.h"

#include <stdio.h>
#include <stdlib.h>
#include <string.h>

/* The image that is patrolled, as it was, and the half. */
static uint8_t *image, *whole;
static size_t length;
static uint32_t page, half;

static unsigned long singles, pairs, differences, by_chance;

static uint8_t *page_at(uint32_t number)
{
    return image + (size_t)number * chip->page;
}

static uint8_t *data(void)
{
    return page_at(page) + HALF * half;
}

static uint8_t *code(void)
{
    return page_at(page) + code_place(chip, half);
}

/* Bit 0 to 2,047 of the half, and then 0 to 23 of its code. */
static void flip_any(unsigned bit)
{
    if (bit < HALF_BITS)
        flip(data(), bit);
    else
        flip(code(), bit - HALF_BITS);
}

/* Answer, two numbers, zeros; four bytes after the 24 as they were. */
static void wants(uint32_t answer, uint32_t found, uint32_t bit, const char *what)
{
    uint8_t result[RESULT + 4];
    uint32_t got;
    memset(result, 9, sizeof result);
    got = mutree_patrol(chip->number, image, length, page, half, result, sizeof result);
    if (got != answer || number_at(result) != answer || number_at(result + 4) != found || number_at(result + 8) != bit
        || number_at(result + 12) || number_at(result + 16) || number_at(result + 20) || number_at(result + 24) != 0x09090909u) {
        printf("independent: page %u, half %u: wanted %u %u %u, got %u %u %u\n", (unsigned)page, (unsigned)half, (unsigned)answer,
               (unsigned)found, (unsigned)bit, (unsigned)got, (unsigned)number_at(result + 4), (unsigned)number_at(result + 8));
        fail(what);
    }
}

static void is_whole(const char *what)
{
    if (memcmp(image, whole, length))
        fail(what);
}

/* ---- the request's words of the 24 bits that differ */
static unsigned ones(uint32_t d)
{
    unsigned n = 0;
    for (; d > 0; d >>= 1)
        n += d & 1;
    return n;
}

/* "If exactly one bit differs in each of the 11 pairs of E and G and none elsewhere." */
static int one_in_each_pair(uint32_t d)
{
    unsigned i;
    for (i = 0; i < 11; i++)
        if ((d >> i & 1) + (d >> (11 + i) & 1) != 1)
            return 0;
    return d >> 22 == 0;
}

/* What is found, and the bit. */
static uint32_t found_by(uint32_t d, uint32_t *bit)
{
    *bit = 0;
    if (d == 0)
        return MUTREE_CLEAN;
    if (one_in_each_pair(d)) {
        *bit = d & 2047;
        return MUTREE_DATA_MENDED;
    }
    if (ones(d) != 1)
        return MUTREE_BEYOND_REPAIR;
    while (d >> *bit != 1)
        ++*bit;
    return MUTREE_CODE_MENDED;
}

/* ---- flips */
static void every_single_flip(void)
{
    unsigned bit;
    wants(MUTREE_DONE, MUTREE_CLEAN, 0, "a half whose code fits is not clean");
    for (bit = 0; bit < HALF_BITS + CODE_BITS; bit++) {
        flip_any(bit);
        if (bit < HALF_BITS)
            wants(MUTREE_DONE, MUTREE_DATA_MENDED, bit, "a flipped data bit is not told");
        else
            wants(MUTREE_DONE, MUTREE_CODE_MENDED, bit - HALF_BITS, "a flipped code bit is not told");
        is_whole("a flipped bit is not put right, or another byte was changed");
        singles++;
    }
}

/* All pairs, of the data and of the code too. The bytes of the half and the code are looked at each time, all others at the end. */
static void every_pair(void)
{
    uint8_t data_then[HALF], code_then[CODE_BYTES];
    unsigned a, b;
    for (a = 0; a < HALF_BITS + CODE_BITS; a++)
        for (b = 0; b < a; b++) {
            flip_any(a);
            flip_any(b);
            memcpy(data_then, data(), HALF);
            memcpy(code_then, code(), CODE_BYTES);
            wants(MUTREE_DONE, MUTREE_BEYOND_REPAIR, 0, "two flips are not told as beyond repair");
            if (memcmp(data_then, data(), HALF) || memcmp(code_then, code(), CODE_BYTES))
                fail("what is beyond repair was changed");
            flip_any(a);
            flip_any(b);
            pairs += a < HALF_BITS;
        }
    is_whole("two flips beyond repair, and another byte was changed");
}

static void put_code(uint32_t number)
{
    int i;
    for (i = 0; i < CODE_BYTES; i++)
        code()[i] = (uint8_t)(number >> (8 * i));
}

/* What the patrol does to the bytes, after flips that are still in the image; then all is as it was. */
static void is_patrolled(const char *what)
{
    uint32_t bit, found = found_by(stored_code(code()) ^ code_of(data()), &bit);
    uint8_t *then = copy_of(page_at(page), chip->page);
    wants(MUTREE_DONE, found, bit, what);
    if (found == MUTREE_DATA_MENDED)
        flip(then + HALF * half, bit);
    if (found == MUTREE_CODE_MENDED)
        flip(then + code_place(chip, half), bit);
    if (memcmp(then, page_at(page), chip->page))
        fail(what);
    memcpy(page_at(page), whole + (size_t)page * chip->page, chip->page);
    is_whole(what);
    free(then);
}

/* Every difference of 24 bits, or every so many. The half stays, so the code is worked out once. */
static void every_difference(uint32_t step)
{
    uint32_t fresh = code_of(data()), d, bit;
    for (d = 0; d < (uint32_t)1 << CODE_BITS; d += step) {
        uint32_t found = found_by(d, &bit);
        put_code(fresh ^ d);
        wants(MUTREE_DONE, found, bit, "a difference is told in another way than the request's");
        if (found == MUTREE_DATA_MENDED)
            flip(data(), bit);
        if (stored_code(code()) != (found == MUTREE_CODE_MENDED ? fresh : fresh ^ d))
            fail("the code after a patrol is not what the request says");
        differences++;
    }
    put_code(fresh);
    is_whole("a patrol changed other bytes than it told");
}

static void some_flips(unsigned rounds)
{
    for (; rounds > 0; rounds--) {
        unsigned flips = 1 + some(6);
        page = some((uint32_t)(length / chip->page));
        half = some(chip->halves);
        for (; flips > 0; flips--)
            flip_any(some(3) ? some(HALF_BITS) : HALF_BITS + some(CODE_BITS));
        is_patrolled("several flips are told in another way than the request's");
        by_chance++;
    }
}

/* ---- images: a built tree, any bytes under fitting codes */
static void make_tree(void)
{
    struct built plan = { chip, 3, 3, 8, NO_PATH, 0, 0 };
    plan.leaves = chip->block_pages - 1;
    plan.programmed = chip->block_pages + 10;
    length = length_of(chip, 3);
    image = build(plan);
    whole = copy_of(image, length);
}

static void make_any_bytes(void)
{
    size_t i;
    length = length_of(chip, 3);
    image = room_for(length);
    for (i = 0; i < length; i++)
        image[i] = (uint8_t)some(256);
    put_all_codes(chip, image, length);
    whole = copy_of(image, length);
}

static void drop_image(void)
{
    free(image);
    free(whole);
}

/* Every half of every page, erased ones too. */
static void all_clean(void)
{
    for (page = 0; page < length / chip->page; page++)
        for (half = 0; half < chip->halves; half++)
            wants(MUTREE_DONE, MUTREE_CLEAN, 0, "a half whose code fits is not clean");
    is_whole("a patrol of clean halves wrote");
}

/* A bit of an erased page is put right: the page is erased again. */
static void erased_again(void)
{
    page = (uint32_t)(length / chip->page) - 1;
    half = chip->halves - 1;
    every_single_flip();
}

/* Number, height, counts and what stands behind the codes: no code speaks of them. */
static void other_spare_bytes_are_free(void)
{
    unsigned at;
    page = 1;
    for (at = 0; at < chip->page - chip->main; at++)
        if (at < chip->code || at >= chip->code + CODE_BYTES * chip->halves) {
            page_at(page)[chip->main + at] ^= 255;
            for (half = 0; half < chip->halves; half++)
                wants(MUTREE_DONE, MUTREE_CLEAN, 0, "a spare byte that no code is of is not clean");
            page_at(page)[chip->main + at] ^= 255;
        }
    is_whole("a patrol of clean halves wrote");
}

/* ---- what is no half */
static void is_length(uint32_t number, size_t long_, uint32_t of_page, uint32_t of_half)
{
    uint8_t result[RESULT + 4], untouched[RESULT + 4], written[RESULT + 4] = { MUTREE_LENGTH };
    memset(untouched, 9, sizeof untouched);
    memset(written + RESULT, 9, 4);
    memset(result, 9, sizeof result);
    if (mutree_patrol(number, image, long_, of_page, of_half, result, RESULT - 1) != MUTREE_LENGTH
        || memcmp(result, untouched, sizeof result))
        fail("a patrol of no half, with a short buffer, is LENGTH and writes nothing");
    if (mutree_patrol(number, image, long_, of_page, of_half, result, sizeof result) != MUTREE_LENGTH
        || memcmp(result, written, sizeof result))
        fail("a patrol of no half is LENGTH, and the result says so");
    is_whole("a patrol of no half wrote");
}

static void no_half(void)
{
    uint32_t pages = (uint32_t)(length / chip->page);
    uint8_t result[RESULT];
    is_length(chip->number, length, pages, 0);
    is_length(chip->number, length, UINT32_MAX, 0);
    is_length(chip->number, length, 0, chip->halves);
    is_length(chip->number, length, 0, UINT32_MAX);
    is_length(chip->number, length, pages, chip->halves);
    is_length(chip->number, length - 1, 0, 0);
    is_length(chip->number, length_of(chip, 2), 0, 0);
    is_length(chip->number, 0, 0, 0);
    is_length(2, length, 0, 0);
    is_length(UINT32_MAX, length, 0, 0);
    page = half = 0;
    flip_any(5);
    if (mutree_patrol(chip->number, image, length, 0, 0, result, RESULT - 1) != MUTREE_LENGTH)
        fail("a patrol with a short buffer is not LENGTH");
    flip_any(5);
    is_whole("a patrol with a short buffer mended");
}

/* The first half and the last one of some pages. */
static void flips_of(uint32_t of_page)
{
    page = of_page;
    for (half = 0; half < chip->halves; half += chip->halves - 1)
        every_single_flip();
}

void halves_are_patrolled(uint32_t step)
{
    singles = pairs = differences = by_chance = 0;
    make_tree();
    all_clean();
    flips_of(0);
    flips_of(chip->block_pages);
    erased_again();
    other_spare_bytes_are_free();
    no_half();
    page = 3;
    half = 1;
    every_difference(step);
    some_flips(2000);
    drop_image();
    make_any_bytes();
    all_clean();
    flips_of((uint32_t)(length / chip->page) - 1);
    half = chip->halves / 2;
    every_pair();
    some_flips(2000);
    drop_image();
    printf("independent: %s chip: %lu single flips put right, %lu pairs of data flips and those with the code beyond repair, %lu "
           "differences and %lu halves with flips by chance told as the request says\n", chip->name, singles, pairs, differences, by_chance);
}
