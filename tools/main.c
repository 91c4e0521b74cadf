/*
 * yordzepa: the operator's tool over the engine's libraries.
 */
#define _POSIX_C_SOURCE 200809L
#include <signal.h>
#include <stdio.h>
#include <string.h>

#include "tool.h"

static const char help[] =
    "usage: yordzepa COMMAND ...\n"
    "\n"
    "  encode   a text of records, one a line, to records\n"
    "  decode   records to text\n"
    "  load     apply records to a book kept in a file, with its journal\n"
    "  show     a book's participants, securities, baskets, requests, exposures\n"
    "  pairs    why each request was paired with that one, from the journal\n"
    "  audit    replay the journal and compare every answer and the book\n"
    "\n"
    "'yordzepa COMMAND --help' tells more, 'yordzepa --version' the version. Status: 0 done, 1 audit\n"
    "found a difference, 2 wrong command line, 3 wrong input, 4 book or journal damaged, 5 a file\n"
    "cannot be read or written, 6 the book is in use, 7 the last load did not end.\n";

struct command {
    const char *name;
    int (*run)(int count, char **words);
};

static const struct command commands[] = {
    {"encode", encode_command}, {"decode", decode_command}, {"load", load_command},
    {"show", show_command},     {"pairs", pairs_command},   {"audit", audit_command},
};

/* A broken pipe or a file that grew too large is an error of the write, not the end. */
static void ignore_signals_of_writes(void)
{
    signal(SIGPIPE, SIG_IGN);
    signal(SIGXFSZ, SIG_IGN);
}

int main(int count, char **words)
{
    if (count < 2) {
        fputs(help, stderr);
        return USAGE;
    }
    if (strcmp(words[1], "--help") == 0 || strcmp(words[1], "-h") == 0) {
        fputs(help, stdout);
        return end_output();
    }
    if (strcmp(words[1], "--version") == 0) {
        puts("yordzepa " VERSION);
        return end_output();
    }
    ignore_signals_of_writes();
    for (size_t place = 0; place < sizeof commands / sizeof *commands; place++) {
        if (strcmp(words[1], commands[place].name) == 0) {
            command_name = commands[place].name;
            return commands[place].run(count - 2, words + 2);
        }
    }
    complain("'%s' is no command; 'yordzepa --help' tells which there are", words[1]);
    return USAGE;
}
