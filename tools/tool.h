/*
 * What all parts of the operator's tool share: the statuses it ends with, its messages, memory.
 */
#ifndef TOOL_H
#define TOOL_H

#include <stddef.h>
#include <stdint.h>

/* The statuses; docs/TOOL.md says the same. A load ended by a signal has 128 plus its number. */
enum status {
    DONE = 0,
    /* audit: something differs. */
    DIFFERS = 1,
    /* The command line is wrong. */
    USAGE = 2,
    /* A line, a record or a number given is wrong. */
    BAD_INPUT = 3,
    /* Book and journal are damaged or do not belong together. */
    DAMAGED = 4,
    /* A file could not be read or written. */
    SYSTEM = 5,
    /* Another load holds the book. */
    IN_USE = 6,
    /* The last load did not end: the operator has to say where to go on. */
    INTERRUPTED = 7
};

/* The commands: the words after the command's name, and the status. */
int encode_command(int count, char **words);
int decode_command(int count, char **words);
int load_command(int count, char **words);
int show_command(int count, char **words);
int pairs_command(int count, char **words);
int audit_command(int count, char **words);

/* The name of the command that runs, for the messages. */
extern const char *command_name;

/* A line on standard error: what is wrong and what to do. */
void complain(const char *form, ...) __attribute__((format(printf, 1, 2)));

/* The same for the system's last error, with the file and what was tried. */
void complain_of_file(const char *tried, const char *path);

/* Memory, or the end of the program: nothing is half done that the next start does not mend. */
void *allocate(size_t size);
void *allocate_again(void *old, size_t size);
char *joined(const char *first, const char *second);

/* A number in decimal, whole and without a sign; 0 if it is not one. */
int read_number(const char *text, uint64_t *number);

/* Writes out what was printed. The status is DONE, or SYSTEM with a message. */
int end_output(void);

#endif
