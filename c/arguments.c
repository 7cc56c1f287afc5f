#include "arguments.h"
#include "geometry.h"
#include "say.h"

#include <stdio.h>
#include <string.h>

struct option {
    const char *name;
    unsigned bit;
    int has_value;
};

static const struct option options[] = {
    { "--allow", TAKES_ALLOW, 1 }, { "--force", TAKES_FORCE, 0 },     { "--no-wait", TAKES_NO_WAIT, 0 },
    { "--pages", TAKES_PAGES, 0 }, { "--svg", TAKES_SVG, 1 },         { "--small", TAKES_CHIP, 0 },
    { "--large", TAKES_CHIP, 0 },  { "--mend", TAKES_MEND, 0 },       { "--count", TAKES_COUNT, 0 },
};

enum { OPTIONS = sizeof options / sizeof *options };

const char *number_fault(const char *word, uint32_t *number)
{
    uint64_t value = 0;
    const char *c;
    for (c = word; *c >= '0' && *c <= '9' && value <= UINT32_MAX; c++)
        value = 10 * value + (uint64_t)(*c - '0');
    if (c == word || *c != '\0' || value > UINT32_MAX)
        return "is no number from 0 to 4294967295";
    if (word[0] == '0' && word[1] != '\0')
        return "has a leading zero; write it without";
    *number = (uint32_t)value;
    return NULL;
}

int read_number(const char *word, const char *what, uint32_t *number)
{
    const char *fault = number_fault(word, number);
    if (fault != NULL)
        complain("%s '%s' %s", what, word, fault);
    return fault != NULL;
}

/* What is wrong (a format with one word in it), and how the command is written. */
static int usage(const struct command *command, const char *wrong, const char *word)
{
    char line[256];
    snprintf(line, sizeof line, wrong, word);
    complain("%s; usage: mutree %s %s", line, command->name, command->words);
    return 1;
}

/* The option of this name among those that the command takes, or NULL. */
static const struct option *option_of(const struct command *command, const char *word)
{
    size_t i;
    for (i = 0; i < OPTIONS; i++)
        if (strcmp(options[i].name, word) == 0 && (command->takes & options[i].bit))
            return &options[i];
    return NULL;
}

static int take_chip(const struct command *command, const char *option, struct arguments *arguments)
{
    const struct mutree_geometry *geometry = geometry_of_option(option);
    if (arguments->geometry != NULL && arguments->geometry->number != geometry->number)
        return usage(command, "%s contradicts the option before it", option);
    arguments->geometry = geometry;
    return 0;
}

static int take(const struct command *command, const struct option *option, const char *value, struct arguments *arguments)
{
    if (option->has_value && value == NULL)
        return usage(command, "%s needs a word after it", option->name);
    switch (option->bit) {
    case TAKES_ALLOW: return read_number(value, "allowance", &arguments->allowance);
    case TAKES_FORCE: arguments->force = 1; return 0;
    case TAKES_NO_WAIT: arguments->no_wait = 1; return 0;
    case TAKES_PAGES: arguments->pages = 1; return 0;
    case TAKES_COUNT: arguments->count = 1; return 0;
    case TAKES_MEND: arguments->mend = 1; return 0;
    case TAKES_CHIP: return take_chip(command, option->name, arguments);
    default: arguments->svg = value; return 0;
    }
}

/* Whether so many words will do. */
static int enough(const struct command *command, int found)
{
    int fewer = command->word_count - found;
    return fewer == 0 || (fewer == 1 && (command->takes & TAKES_NAME)) || (fewer == 2 && (command->takes & TAKES_RANGE));
}

int arguments_read(const struct command *command, int count, char **words, struct arguments *arguments)
{
    int i, found = 0;
    memset(arguments, 0, sizeof *arguments);
    arguments->allowance = UINT32_MAX;
    for (i = 0; i < count; i++) {
        const struct option *option = option_of(command, words[i]);
        if (option != NULL) {
            if (take(command, option, i + 1 < count ? words[i + 1] : NULL, arguments))
                return 1;
            i += option->has_value;
        } else if (strncmp(words[i], "--", 2) == 0) {
            return usage(command, "there is no option '%s' here", words[i]);
        } else if (found == command->word_count) {
            return usage(command, "'%s' is one word too many", words[i]);
        } else {
            arguments->word[found++] = words[i];
        }
    }
    return enough(command, found) ? 0 : usage(command, "too few words after '%s'", command->name);
}
