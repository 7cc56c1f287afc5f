/* check.c: the commands that say what is broken, and print a page. */
#include "posix.h"

#include "commands.h"
#include "file.h"
#include "flips.h"
#include "geometry.h"
#include "page.h"
#include "print_page.h"
#include "say.h"
#include "status.h"
#include "summary.h"

#include <inttypes.h>
#include <stdio.h>

/* An image and what the library says of it. */
static int load(const struct arguments *arguments, struct image *image, struct survey *s)
{
    int status = file_load_named(arguments->word[0], arguments->geometry, image);
    if (status == 0)
        *s = survey_image(image, image_judge(image));
    return status;
}

static void unload(struct image *image, struct survey *s)
{
    survey_free(s);
    image_free(image);
}

/* The page that has the same sequence number as this one, which breaks R3. */
static uint32_t twin_of(const struct image *image, uint32_t page)
{
    uint32_t other = 0;
    while (is_erased(image, other) || sequence_of(image, other) != sequence_of(image, page))
        other++;
    return other;
}

/* Why this page is named. */
static void print_reason(const struct image *image, struct mutree_result verdict)
{
    switch (verdict.rule) {
    case 2:
        puts(is_erased(image, verdict.page) ? "It is the first erased page that stands before a programmed one of its block."
                                            : "It is the first programmed page of the second block that has both.");
        break;
    case 3:
        printf("It has the sequence number of page %" PRIu32 ", and no lower page has that of a page before it.\n",
               twin_of(image, verdict.page));
        break;
    case 5:
        puts("It holds the first node, each before its subtrees and those from left to right, whose own counts, keys or page\n"
             "numbers break the rule. A key must also lie within the bounds that the entries above its node set.");
        break;
    default: puts("It is the lowest page that breaks the rule.");
    }
}

/* All pages whose codes do not fit: other pages than the lowest may have flipped bits too. */
static void print_unfit(const struct image *image)
{
    if (flips_print_pages(image) > 0)
        printf("'mutree patrol %s %s' looks for flipped bits; with --mend it puts right what has one.\n", image->name,
               geometry_option(image->geometry));
}

static void print_damage(const struct survey *s, const struct image *image)
{
    printf("R%" PRIu32 " asks: %s.\n", s->verdict.rule, mutree_rule_words(s->verdict.rule));
    if (s->verdict.rule > 1)
        puts("The rules before it hold; those after it are not looked at.");
    if (!mutree_rule_has_page(s->verdict.rule)) {
        puts("It speaks of the whole image, so no page is named.");
        return;
    }
    printf("It is broken on page %" PRIu32 ".\n", s->verdict.page);
    print_reason(image, s->verdict);
    if (s->verdict.rule == 1)
        print_unfit(image);
    putchar('\n');
    print_page(s, image, s->verdict.page);
}

int check_command(const struct arguments *arguments)
{
    struct image image;
    struct survey s;
    int status = load(arguments, &image, &s);
    if (status != 0)
        return status;
    summary_print(&s);
    if (s.sound)
        printf("Every rule of a sound index holds, R1 to R%u.\n", (unsigned)MUTREE_RULES);
    else
        print_damage(&s, &image);
    status = (int)s.verdict.answer;
    unload(&image, &s);
    return status;
}

/* The word as a page number of the image. Nonzero, after a line, where it is none. */
static int read_page(const char *word, const struct survey *s, const char *name, uint32_t *page)
{
    const char *fault = number_fault(word, page);
    if (fault == NULL && *page < s->pages)
        return 0;
    complain("page '%s' %s; the pages of %s are 0 to %zu, name one of these", word, fault != NULL ? fault : "is not there", name,
             s->pages - 1);
    return BAD_USAGE;
}

int page_command(const struct arguments *arguments)
{
    struct image image;
    struct survey s;
    uint32_t page;
    int status = load(arguments, &image, &s);
    if (status != 0)
        return status;
    status = read_page(arguments->word[1], &s, image.name, &page);
    if (status == 0) {
        print_page(&s, &image, page);
        say_check(&image, s.verdict);
        status = (int)s.verdict.answer;
    }
    unload(&image, &s);
    return status;
}
