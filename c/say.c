#include "say.h"
#include "geometry.h"
#include "status.h"

#include <errno.h>
#include <inttypes.h>
#include <stdarg.h>
#include <stdio.h>
#include <string.h>

static int changed;

const char *answer_name(uint32_t answer)
{
    static const char *const names[] = { "DONE", "LENGTH", "DAMAGED", "WORN", "ABSENT", "HEIGHT", "ROOM", "STOPPED", "STALE", "TEXT" };
    return names[answer];
}

const char *damage_words(struct mutree_result verdict)
{
    static char words[64];
    if (mutree_rule_has_page(verdict.rule))
        snprintf(words, sizeof words, "R%" PRIu32 " is broken on page %" PRIu32, verdict.rule, verdict.page);
    else
        snprintf(words, sizeof words, "R%" PRIu32 " is broken", verdict.rule);
    return words;
}

const char *answer_meaning(struct mutree_result result)
{
    static const char *const meanings[] = {
        "",
        "the file's length is no index's",
        NULL, /* damage_words */
        "the sequence numbers are used up",
        "there is no such key",
        "the tree can grow no higher",
        "the insert needs two pages or more, and too few are free of live nodes",
        "the allowance was smaller than the stores needed; the old map is whole",
        "the record is not the image's",
        "a line of the text is refused"
    };
    return result.answer == MUTREE_DAMAGED ? damage_words(result) : meanings[result.answer];
}

const char *entries_word(size_t count)
{
    return count == 1 ? "entry" : "entries";
}

const char *records_word(size_t count)
{
    return count == 1 ? "record" : "records";
}

void complain(const char *format, ...)
{
    va_list rest;
    fflush(stdout);
    fputs("mutree: ", stderr);
    va_start(rest, format);
    vfprintf(stderr, format, rest);
    va_end(rest);
    fputc('\n', stderr);
}

void complain_of(const char *path, const char *what)
{
    const char *reason = strerror(errno);
    complain("%s: %s: %s", path, what, reason);
}

void say_check(const struct image *image, struct mutree_result result)
{
    if (result.answer == MUTREE_DAMAGED)
        complain("%s is not a sound index; 'mutree check %s %s' says what is broken and where", image->name, image->name,
                 geometry_option(image->geometry));
}

int say_refused(const struct image *image, struct mutree_result result)
{
    complain("%s: %s", answer_name(result.answer), answer_meaning(result));
    say_check(image, result);
    return (int)result.answer;
}

int say_result(const struct image *image, struct mutree_result result)
{
    if (result.answer == MUTREE_DONE || result.answer == MUTREE_STOPPED)
        printf("%s: %" PRIu32 " programmed, %" PRIu32 " erased\n", answer_name(result.answer), result.programmed, result.erased);
    return result.answer == MUTREE_DONE ? 0 : say_refused(image, result);
}

/* Whether this may be a dump of the chip without its spare bytes. */
static int looks_bare(const struct mutree_geometry *geometry, uintmax_t length)
{
    return length > 0 && length % geometry->main_bytes == 0 && length % geometry->page_bytes != 0;
}

int say_length(const char *path, const struct mutree_geometry *geometry, uintmax_t length)
{
    char sizes[MUTREE_GEOMETRIES * 64] = "";
    uint32_t number;
    int bare = 0;
    for (number = 0; number < MUTREE_GEOMETRIES; number++) {
        const struct mutree_geometry *g = mutree_geometry_of(number);
        size_t used = strlen(sizes);
        if (geometry != NULL && geometry->number != g->number)
            continue;
        bare |= looks_bare(g, length);
        snprintf(sizes + used, sizeof sizes - used, "%s%" PRIu32 " (%s)", used ? " or " : "", g->block_bytes, geometry_words(g));
    }
    complain("LENGTH: %s has %" PRIuMAX " bytes; an index has 3 to 1024 blocks of %s bytes%s", path, length, sizes,
             bare ? "; a dump without spare bytes? Read the chip with nanddump --oob" : "");
    return MUTREE_LENGTH;
}

int say_either(const char *path)
{
    complain("DAMAGED: %s has the length of a chip with small pages and of one with large pages, and is a sound index of neither; "
             "say --small or --large", path);
    return MUTREE_DAMAGED;
}

void say_changed(void)
{
    changed = 1;
}

int say_finished(int status)
{
    int bad = ferror(stdout);
    errno = 0;
    bad |= fclose(stdout);
    if (!bad)
        return status;
    fprintf(stderr, "mutree: cannot print: %s%s\n", errno ? strerror(errno) : "not all of it was written",
            changed ? "; the change to the file is made all the same" : "");
    return BAD_OUTPUT;
}
