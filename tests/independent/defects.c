/* defects.c: request 13's texts that must be refused, each at a line that is known beforehand: every defect in every line, two of them, where
 * the lowest line counts, a last line without byte 10, a text cut anywhere, one line too many. And every text that is one byte away
 * from a good one. */
#include "demands.h"
#include "importing.h"
#include "text.h"

#include <stdlib.h>
#include <string.h>

/* Lines that are none. K and A stand for the key and the address of the line; W is the key and 2^32, V the key and 2^64; P is the key of the
 * line before, Q one less. A line with P or Q fits where it is the first. */
static const char *const defects[] = {
    "\n", "K\n", "KA\n", "K\t\n", "\tA\n", "\t\n", "K\tA\t\n", "K\tA\tA\n", "K\t\tA\n", "\tK\tA\n", "0K\tA\n", "00\tA\n", "K\t0A\n", "K\t00\n",
    " K\tA\n", "K \tA\n", "K\t A\n", "K\tA \n", "K A\n", "K  A\n", "K,A\n", "K;A\n", "K\vA\n", "K\tA\r\n", "K\tA\r", "\rK\tA\n", "K\r\tA\n",
    "+K\tA\n", "-K\tA\n", "K\t+A\n", "K\t-A\n", "-0\tA\n", "K:\tA\n", "/K\tA\n", "K\t:A\n", "K\tA/\n", "Kx\tA\n", "xK\tA\n", "0xK\tA\n",
    "K\tAe1\n", "K.0\tA\n", "K\tA.\n", "1'000\tA\n", "\262\tA\n", "K\t\377\n", "\357\273\277K\tA\n", "#K\tA\n", "K\tA#\n", "insert K A\n",
    "4294967296\tA\n", "K\t4294967296\n", "4294967300\tA\n", "K\t5000000000\n", "K\t10000000000\n", "42949672950\tA\n", "W\tA\n", "K\tW\n",
    "V\tA\n", "K\tV\n", "K\t18446744073709551615\n", "18446744073709551616\tA\n", "K\t99999999999999999999999999999999999999999999999999\n",
    "K\t0000000000000000000000000000000000000000000000000001\n", "P\tA\n", "Q\tA\n", "0\tA\n"
};

enum { DEFECTS = sizeof defects / sizeof *defects, LINES = 6, LONGEST = 200 };

static struct entry map[LINES];

/* Keys of one digit to ten. */
static void make_map(void)
{
    static const uint32_t keys[LINES] = { 3, 15, 777, 1000000, 987654321, 4294967290u };
    size_t i;
    for (i = 0; i < LINES; i++) {
        map[i].key = keys[i];
        map[i].address = pick(2) ? pick(10) : 4294967295u - pick(1000000);
    }
}

/* 2^64 and the key: the last ten digits of 18,446,744,073,709,551,616 have room for it. */
static size_t put_beyond(uint32_t key, uint8_t *at)
{
    memcpy(at, "1844674407", 10);
    return 10 + put_decimal(3709551616u + (uint64_t)key, at + 10);
}

static size_t put_line(const char *form, size_t line, uint8_t *at)
{
    size_t length = 0;
    uint32_t before = line ? map[line - 1].key : 0;
    for (; *form != '\0'; form++)
        switch (*form) {
        case 'K': length += put_decimal(map[line].key, at + length); break;
        case 'A': length += put_decimal(map[line].address, at + length); break;
        case 'W': length += put_decimal(map[line].key + 4294967296u, at + length); break;
        case 'V': length += put_beyond(map[line].key, at + length); break;
        case 'P': length += put_decimal(before, at + length); break;
        case 'Q': length += put_decimal(before - (before > 0), at + length); break;
        default: at[length++] = (uint8_t)*form; break;
        }
    return length;
}

/* The text with one line of another form, or two: NULL for none. Gives its length. */
static size_t put_text(uint8_t *text, size_t first, const char *form, size_t second, const char *other)
{
    size_t length = 0, i;
    for (i = 0; i < LINES; i++)
        length += put_line(form != NULL && i == first ? form : other != NULL && i == second ? other : "K\tA\n", i, text + length);
    return length;
}

/* Whether the line is none at this place: 0, and a key that is not above another, are good in the first. */
static int is_defect(const char *form, size_t line)
{
    return line > 0 || (form[0] != 'P' && form[0] != 'Q' && strcmp(form, "0\tA\n") != 0);
}

static void each_defect_in_each_line(void)
{
    uint8_t text[LINES * LONGEST];
    size_t line, d;
    for (line = 0; line < LINES; line++)
        for (d = 0; d < DEFECTS; d++) {
            size_t length = put_text(text, line, defects[d], 0, NULL);
            if (is_defect(defects[d], line))
                is_refused_at(text, length, line + 1);
            else if (is_imported(text, length, 3) != MUTREE_DONE)
                fail("a key of 0 in the first line is good");
        }
}

/* A line that does not fit ends the reading, so what its key would be does not count. */
static void two_defects(unsigned rounds)
{
    uint8_t text[LINES * LONGEST];
    for (; rounds > 0; rounds--) {
        size_t first = pick(LINES - 1), second = first + 1 + pick(LINES - 1 - first);
        const char *form = defects[pick(DEFECTS)], *other = defects[pick(DEFECTS)];
        if (is_defect(form, first))
            is_refused_at(text, put_text(text, first, form, second, other), first + 1);
    }
}

/* Every beginning of a text: it ends with a line, or is refused at the line that is cut. */
static void cut_anywhere(void)
{
    uint8_t text[LINES * LONGEST];
    size_t whole = put_text(text, 0, NULL, 0, NULL), length, lines = 0;
    for (length = 0; length <= whole; length++) {
        lines += length > 0 && text[length - 1] == '\n';
        if (length > 0 && text[length - 1] != '\n')
            is_refused_at(text, length, lines + 1);
        else if (is_imported(text, length, 3) != MUTREE_DONE)
            fail("a text cut behind a line is good");
    }
}

/* Each byte of a text given each value, taken out, or put in once more. */
static void one_byte_away(void)
{
    static const char good[] = "0\t7\n9\t4294967295\n10\t0\n4294967295\t1\n";
    uint8_t text[sizeof good + 1];
    size_t length = sizeof good - 1, at;
    for (at = 0; at < length; at++) {
        unsigned value;
        for (value = 0; value < 256; value++) {
            memcpy(text, good, length);
            text[at] = (uint8_t)value;
            is_imported(text, length, 3);
        }
        memcpy(text, good, length);
        memmove(text + at, text + at + 1, length - at - 1);
        is_imported(text, length - 1, 3);
        memcpy(text, good, at);
        memcpy(text + at, good + at, length - at);
        memmove(text + at + 1, text + at, length - at);
        is_imported(text, length + 1, 3);
    }
}

/* At most 4,096 records: line 4,097 is refused, whatever it is, unless one before it is. */
static void one_line_too_many(void)
{
    static const char *const last[] = { "4294967295\t1\n", "x", "\n", "4294967295\t1", "5\t5\n" };
    uint8_t *text = room_for(MOST_LINE * (MOST_RECORDS + 2));
    size_t length = some_text(MOST_RECORDS, text), i;
    text[length - 1] = 'x';
    is_refused_at(text, length, MOST_RECORDS);
    text[length - 1] = '\n';
    for (i = 0; i < sizeof last / sizeof *last; i++) {
        memcpy(text + length, last[i], strlen(last[i]));
        is_refused_at(text, length + strlen(last[i]), MOST_RECORDS + 1);
    }
    is_refused_at(text, length - 1, MOST_RECORDS);
    text[0] = 'x';
    is_refused_at(text, length + strlen(last[4]), 1);
    text[length - 2] = 'x';
    is_refused_at(text, length + strlen(last[4]), 1);
    free(text);
}

/* Long texts, of which the first line decides, or a line far in. */
static void long_texts(size_t bytes)
{
    uint8_t *text = room_for(bytes);
    static const char fill[] = "19\t\n\r ";
    size_t i, length;
    for (i = 0; i + 1 < sizeof fill; i++) {
        memset(text, fill[i], bytes);
        is_refused_at(text, bytes, 1);
        length = some_text(1 + pick(300), text);
        memset(text + length, fill[i], bytes - length);
        is_imported(text, bytes, 3);
    }
    free(text);
}

void bad_texts_are_refused(int quick)
{
    make_map();
    each_defect_in_each_line();
    two_defects(quick ? 200 : 2000);
    cut_anywhere();
    one_byte_away();
    one_line_too_many();
    long_texts(quick ? 100000 : 3000000);
}
