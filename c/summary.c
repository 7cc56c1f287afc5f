#include "summary.h"
#include "geometry.h"
#include "say.h"

#include <inttypes.h>
#include <stdio.h>

static void print_sound(const struct survey *s)
{
    printf("%zu blocks, %s, sound; height %u, %zu %s, root on page %" PRIu32 "\n", s->blocks, geometry_words(s->geometry),
           s->height, s->entries, entries_word(s->entries), s->root);
    printf("pages: %zu live, %zu dead, %zu erased; largest sequence number %" PRIu32 "\n", s->live, s->dead, s->erased,
           s->largest);
}

static void print_damaged(const struct survey *s)
{
    printf("%zu blocks, %s, DAMAGED: %s, so live and dead pages can't be told apart\n", s->blocks, geometry_words(s->geometry),
           damage_words(s->verdict));
    printf("pages: %zu programmed, %zu erased; largest sequence number %" PRIu32 "\n", s->pages - s->erased, s->erased,
           s->largest);
}

void summary_print(const struct survey *s)
{
    if (s->sound)
        print_sound(s);
    else
        print_damaged(s);
}
