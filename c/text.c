#include "posix.h"

#include "text.h"
#include "image.h"
#include "mutree.h"
#include "say.h"
#include "status.h"

#include <errno.h>
#include <fcntl.h>
#include <stdlib.h>
#include <string.h>
#include <unistd.h>

/* One byte more than the longest text that an import takes. In so many bytes some line is refused, and no later byte changes which. */
enum { ENOUGH = MUTREE_MOST_RECORDS * MUTREE_LINE_BYTES + 1 };

/* Reads to the end, or until it is enough. */
static int read_some(int descriptor, struct text *text)
{
    while (text->length < ENOUGH) {
        ssize_t got = read(descriptor, text->bytes + text->length, ENOUGH - text->length);
        if (got < 0 && errno == EINTR)
            continue;
        if (got < 0)
            return 1;
        if (got == 0)
            return 0;
        text->length += (size_t)got;
    }
    text->cut = 1;
    return 0;
}

int text_read(const char *name, struct text *text)
{
    int is_input = strcmp(name, "-") == 0;
    int descriptor = is_input ? STDIN_FILENO : open(name, O_RDONLY | O_CLOEXEC), bad;
    memset(text, 0, sizeof *text);
    text->name = is_input ? "standard input" : name;
    if (descriptor < 0 || fstat(descriptor, &text->state) != 0) {
        complain_of(text->name, "cannot open");
        return BAD_FILE;
    }
    if (isatty(descriptor) && isatty(STDERR_FILENO))
        complain("type a line for each record: KEY, tab, ADDRESS; keys rise; end with Ctrl-D");
    text->bytes = need(malloc(ENOUGH));
    bad = read_some(descriptor, text);
    if (bad)
        complain_of(text->name, "cannot read");
    if (!is_input)
        close(descriptor);
    if (bad)
        text_free(text);
    return bad ? BAD_FILE : 0;
}

void text_free(struct text *text)
{
    free(text->bytes);
    text->bytes = NULL;
    text->length = 0;
}

size_t text_lines(const struct text *text)
{
    size_t i, lines = text->length > 0 && text->bytes[text->length - 1] != '\n';
    for (i = 0; i < text->length; i++)
        lines += text->bytes[i] == '\n';
    return lines;
}

void say_many(void)
{
    complain("one import takes %u records. To carry more, import the first %u lines and insert the others:\n"
             "  head -n %u TEXT | mutree import NEW - BLOCKS\n"
             "  tail -n +%u TEXT | sed 's/^/insert /' | mutree apply NEW",
             MUTREE_MOST_RECORDS, MUTREE_MOST_RECORDS, MUTREE_MOST_RECORDS, MUTREE_MOST_RECORDS + 1);
}
