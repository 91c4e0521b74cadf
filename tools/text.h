/*
 * A record as a line of text: "6: 0, 1, 2, 0, 1000000, 1, 0, 7" or "fop side=giver giver=1 ..".
 */
#ifndef TEXT_H
#define TEXT_H

#include <stddef.h>

#include "files.h"
#include "kinds.h"

/* What is wrong with a line: the field ("kind" for the kind itself) and the reason. */
struct fault {
    char field[40];
    char reason[200];
};

/* Room for a line's text. */
enum { LINE_ROOM = 512 };

/*
 * Reads a line without its end. 1: a record, 0: nothing but a comment, -1: the fault says what is
 * wrong.
 */
int read_line(const char *line, size_t length, struct record *record, struct fault *fault);

/* Writes a record as a line with its end, by numbers or by names. */
void write_line(struct bytes *out, const struct record *record, int by_names);

/* The range of a field in words, for messages. */
const char *range_text(const struct field *field, char text[LINE_ROOM]);

#endif
