/*
 * The words of a command line: choices like --csv and --output=FILE, and the other words.
 */
#ifndef OPTIONS_H
#define OPTIONS_H

#include <stddef.h>
#include <stdint.h>

/* A choice is a flag, or has a value. */
struct choice {
    const char *name;
    char letter;
    int *flag;
    const char **value;
};

/* What a command takes. The choices end in a name that is NULL. */
struct usage {
    const char *help;
    const struct choice *choices;
    int least;
    int most;
};

/* Not a status: the command is to go on. */
enum { GO_ON = -1 };

/*
 * Reads the words; those that are no choices are moved to the front and counted. GO_ON, or the
 * status to end with: DONE after --help, USAGE after a message.
 */
int read_words(const struct usage *usage, int *count, char **words);

/* A choice's number within bounds. GO_ON, or USAGE with a message. */
int read_choice(const char *name, const char *value, uint64_t least, uint64_t most,
                uint64_t *number);

#endif
