#include "picture.h"

#include <stdio.h>

enum { BLOCKS_A_LINE = 64, NINTHS = 9 };

static char page_mark(const struct survey *s, size_t page)
{
    if (s->page[page] == PAGE_ERASED)
        return '.';
    if (!s->sound)
        return '?';
    if (s->page[page] == PAGE_DEAD)
        return '-';
    return survey_is_root(s, page) ? 'R' : (char)('0' + s->page[page]);
}

void picture_of_pages(const struct survey *s)
{
    size_t page, row = s->geometry->pages;
    for (page = 0; page < s->pages; page++) {
        if (page % row == 0)
            printf("%5zu  ", page / row);
        putchar(page_mark(s, page));
        if (page % row == row - 1)
            putchar('\n');
    }
    if (s->sound)
        printf("       . erased   - dead   1 to %u lowest live level   R the root's page\n", (unsigned)s->geometry->top);
    else
        puts("       . erased   ? programmed");
}

/* The share of live pages in ninths, rounded up. */
static char block_mark(const struct survey *s, size_t block)
{
    unsigned live, erased, pages = s->geometry->pages;
    survey_block(s, block, &live, &erased);
    if (erased == pages)
        return '.';
    if (!s->sound)
        return '?';
    if (s->root / pages == block)
        return 'R';
    return live == 0 ? '-' : (char)('0' + (live * NINTHS + pages - 1) / pages);
}

void picture_of_blocks(const struct survey *s)
{
    size_t block;
    for (block = 0; block < s->blocks; block++) {
        if (block % BLOCKS_A_LINE == 0)
            printf("%5zu  ", block);
        putchar(block_mark(s, block));
        if (block % BLOCKS_A_LINE == BLOCKS_A_LINE - 1 || block + 1 == s->blocks)
            putchar('\n');
    }
    puts(s->sound ? "       a character a block: . erased   - no live page   1 to 9 ninths of its pages live   R the root's\n"
                    "       --pages shows every page"
                  : "       a character a block: . erased   ? programmed\n       --pages shows every page");
}
