/*
 * encode: lines of text to records, all of them or nothing.
 */
#define _POSIX_C_SOURCE 200809L
#include <inttypes.h>
#include <stdio.h>
#include <stdlib.h>
#include <string.h>
#include <unistd.h>

#include "files.h"
#include "kinds.h"
#include "options.h"
#include "text.h"
#include "tool.h"

static const char help[] =
    "usage: yordzepa encode [-o FILE] [TEXT]\n"
    "\n"
    "Writes the records of a text, one record a line, through the proved writer. TEXT is a file;\n"
    "without it, or as '-', standard input is read. A wrong line is named by its number and field,\n"
    "and then nothing is written.\n"
    "\n"
    "  -o, --output=FILE   write to FILE, which is replaced whole, and not to standard output\n"
    "\n"
    "A line is a kind and its fields, in document 01's order or by their names; days are numbers\n"
    "or dates; what follows a # is a comment:\n"
    "\n"
    "  6: 0, 1, 2, 0, 1000000, 1, 0, 7\n"
    "  fop side=giver giver=1 taker=2 basket=0 amount=1000000 settlement=2002-01-02 closing=0 "
    "reference=7\n"
    "\n"
    "Kinds and fields:\n";

/* How many wrong lines are named. */
enum { MOST_NAMED = 20 };

static void print_kinds(void)
{
    for (unsigned number = 0; number < YORDZEPA_KINDS; number++) {
        printf("  %2u %-11s", number, kinds[number].name);
        for (size_t place = 0; place < kinds[number].count; place++)
            printf(" %s", kinds[number].fields[place].name);
        printf("\n");
    }
}

/* Writes one record. 0, or -1 with the fault of the field that the writer refuses. */
static int encode_record(const struct record *record, struct bytes *out, struct fault *fault)
{
    const struct kind *kind = &kinds[record->kind];
    uint8_t part[YORDZEPA_LONGEST_RECORD];
    char range[LINE_ROOM];
    size_t place;

    if (records_write(record->kind, record->fields, part, kind->bytes) == YORDZEPA_OK) {
        append(out, part, kind->bytes);
        return 0;
    }
    place = field_out_of_range(record);
    if (place == kind->count) {
        snprintf(fault->field, sizeof fault->field, "kind");
        snprintf(fault->reason, sizeof fault->reason, "the writer refuses this %s", kind->name);
        return -1;
    }
    snprintf(fault->field, sizeof fault->field, "%s", kind->fields[place].name);
    snprintf(fault->reason, sizeof fault->reason, "%" PRIu64 " is out of range; it may be %.60s",
             record->fields[place], range_text(&kind->fields[place], range));
    return -1;
}

static void name_line(const char *name, size_t line, const struct fault *fault, size_t wrong)
{
    if (wrong <= MOST_NAMED)
        complain("%s line %zu, field %s: %s", name, line, fault->field, fault->reason);
}

/* Encodes all lines; the count of wrong ones. */
static size_t encode_lines(const char *name, const struct bytes *text, struct bytes *out)
{
    const char *at = (const char *)text->data, *end = at + text->length;
    size_t wrong = 0;

    /* Some editors put a mark before a text in UTF-8. */
    if (text->length >= 3 && memcmp(at, "\xef\xbb\xbf", 3) == 0)
        at += 3;
    for (size_t line = 1; at < end; line++) {
        const char *stop = memchr(at, '\n', (size_t)(end - at));
        size_t length = (size_t)((stop ? stop : end) - at);
        struct record record;
        struct fault fault;
        int taken = read_line(at, length, &record, &fault);
        if (taken < 0 || (taken > 0 && encode_record(&record, out, &fault) < 0))
            name_line(name, line, &fault, ++wrong);
        at += length + (stop != NULL);
    }
    return wrong;
}

static int encode_file(const char *path, const char *output)
{
    struct bytes text = {0}, out = {0};
    int status = read_input(path, &text);
    size_t wrong;

    if (status == DONE) {
        wrong = text.length ? encode_lines(input_name(path), &text, &out) : 0;
        if (wrong > MOST_NAMED)
            complain("and %zu more", wrong - MOST_NAMED);
        if (wrong)
            complain("%zu wrong line%s; nothing was written", wrong, wrong == 1 ? "" : "s");
        status = wrong ? BAD_INPUT : write_output(output, &out);
    }
    free(text.data);
    free(out.data);
    return status;
}

int encode_command(int count, char **words)
{
    const char *output = NULL;
    const struct choice choices[] = {{"output", 'o', NULL, &output}, {NULL, 0, NULL, NULL}};
    const struct usage usage = {help, choices, 0, 1};
    int status = read_words(&usage, &count, words);

    if (status == DONE) {
        print_kinds();
        return end_output();
    }
    if (status != GO_ON)
        return status;
    if (!output && isatty(STDOUT_FILENO)) {
        complain("records are no text for a terminal; give -o FILE, or send them on by a pipe");
        return USAGE;
    }
    return encode_file(count ? words[0] : NULL, output);
}
