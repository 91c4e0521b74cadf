/*
 * The words of a command line.
 */
#include "options.h"

#include <inttypes.h>
#include <stdio.h>
#include <string.h>

#include "tool.h"

static int usage_error(const char *what, const char *word)
{
    complain("%s '%s'; 'yordzepa %s --help' tells what can be given", what, word, command_name);
    return USAGE;
}

/* The choice of a word, and its value after '='. */
static const struct choice *choice_of(const struct choice *choices, char *word, char **value)
{
    char *equals = strchr(word, '=');
    size_t length = equals ? (size_t)(equals - word) : strlen(word);

    *value = equals ? equals + 1 : NULL;
    for (; choices->name; choices++) {
        if (word[1] == '-' && length - 2 == strlen(choices->name) &&
            strncmp(word + 2, choices->name, length - 2) == 0)
            return choices;
        if (word[1] != '-' && length == 2 && word[1] == choices->letter)
            return choices;
    }
    return NULL;
}

/* Takes one choice, and the word after it where that is its value. */
static int take_choice(const struct usage *usage, char **words, int count, int *place)
{
    char *value;
    const struct choice *choice = choice_of(usage->choices, words[*place], &value);

    if (!choice)
        return usage_error("unknown choice", words[*place]);
    if (choice->flag && value)
        return usage_error("no value goes with", words[*place]);
    if (choice->flag) {
        *choice->flag = 1;
        return GO_ON;
    }
    if (!value && *place + 1 < count)
        value = words[++*place];
    if (!value)
        return usage_error("a value is missing after", words[*place]);
    *choice->value = value;
    return GO_ON;
}

static int wants_help(const char *word)
{
    return strcmp(word, "--help") == 0 || strcmp(word, "-h") == 0;
}

static int check_count(const struct usage *usage, int kept, char **words)
{
    if (kept > usage->most)
        return usage_error("one word too many:", words[usage->most]);
    if (kept < usage->least) {
        complain("a file is missing; 'yordzepa %s --help' tells what to give", command_name);
        return USAGE;
    }
    return GO_ON;
}

int read_words(const struct usage *usage, int *count, char **words)
{
    int kept = 0, no_more_choices = 0;

    for (int place = 0; place < *count; place++) {
        char *word = words[place];
        int status = GO_ON;
        if (no_more_choices || word[0] != '-' || !word[1]) {
            words[kept++] = word;
        } else if (wants_help(word)) {
            fputs(usage->help, stdout);
            return end_output();
        } else if (strcmp(word, "--") == 0) {
            no_more_choices = 1;
        } else {
            status = take_choice(usage, words, *count, &place);
        }
        if (status != GO_ON)
            return status;
    }
    *count = kept;
    return check_count(usage, kept, words);
}

int read_choice(const char *name, const char *value, uint64_t least, uint64_t most,
                uint64_t *number)
{
    if (!value || (read_number(value, number) && *number >= least && *number <= most))
        return GO_ON;
    complain("--%s=%s: give a number from %" PRIu64 " to %" PRIu64, name, value, least, most);
    return USAGE;
}
