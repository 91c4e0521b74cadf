/*
 * decode: records to lines of text, all of them or nothing.
 */
#include <inttypes.h>
#include <stdio.h>
#include <stdlib.h>
#include <string.h>

#include "files.h"
#include "kinds.h"
#include "options.h"
#include "text.h"
#include "tool.h"

static const char help[] =
    "usage: yordzepa decode [--names] [-o FILE] [RECORDS]\n"
    "\n"
    "Writes records as a text, one record a line, through the proved reader; 'yordzepa encode'\n"
    "turns it back into the same bytes. RECORDS is a file; without it, or as '-', standard input\n"
    "is read. A wrong record is named by its place and field, and then nothing is written.\n"
    "\n"
    "  -n, --names         names for kinds and fields, and dates for days\n"
    "  -o, --output=FILE   write to FILE, which is replaced whole, and not to standard output\n";

/* Says which field the reader refuses in a record of the right length. */
static void name_field(const char *name, size_t place, size_t at, const uint8_t *bytes)
{
    const struct kind *kind = &kinds[*bytes];
    struct record record = plain_fields(bytes);
    size_t field = field_out_of_range(&record);
    char range[LINE_ROOM];

    if (field == kind->count)
        complain("%s record %zu (%s), at byte %zu: the reader refuses it; nothing was written",
                 name, place, kind->name, at);
    else
        complain("%s record %zu (%s), at byte %zu, field %s: %" PRIu64 " is out of range; it may "
                 "be %.60s; nothing was written", name, place, kind->name, at,
                 kind->fields[field].name, record.fields[field],
                 range_text(&kind->fields[field], range));
}

/* Says why the reader refuses a record; always BAD_INPUT. */
static int name_record(const char *name, size_t place, size_t at, const uint8_t *bytes,
                       size_t left)
{
    size_t length = record_length(bytes);

    if (!length)
        complain("%s record %zu, at byte %zu: %u is no kind; nothing was written", name, place, at,
                 *bytes);
    else if (left < length)
        complain("%s record %zu (%s), at byte %zu: cut after %zu of its %zu bytes; nothing was "
                 "written", name, place, kinds[*bytes].name, at, left, length);
    else
        name_field(name, place, at, bytes);
    return BAD_INPUT;
}

/* Decodes all records; DONE, or BAD_INPUT with a message on the first that is wrong. */
static int decode_records(const char *name, const struct bytes *records, int by_names,
                          struct bytes *out)
{
    size_t at = 0;

    for (size_t place = 1; at < records->length; place++) {
        const uint8_t *bytes = records->data + at;
        size_t left = records->length - at, length = record_length(bytes);
        struct yordzepa_reading reading = records_read(bytes, length < left ? length : left);
        struct record record;
        if (reading.code != YORDZEPA_OK)
            return name_record(name, place, at, bytes, left);
        record.kind = reading.kind;
        memcpy(record.fields, reading.fields, sizeof record.fields);
        write_line(out, &record, by_names);
        at += length;
    }
    return DONE;
}

static int decode_file(const char *path, const char *output, int by_names)
{
    struct bytes records = {0}, out = {0};
    int status = read_input(path, &records);

    if (status == DONE)
        status = decode_records(input_name(path), &records, by_names, &out);
    if (status == DONE)
        status = write_output(output, &out);
    free(records.data);
    free(out.data);
    return status;
}

int decode_command(int count, char **words)
{
    const char *output = NULL;
    int by_names = 0;
    const struct choice choices[] = {
        {"output", 'o', NULL, &output}, {"names", 'n', &by_names, NULL}, {NULL, 0, NULL, NULL}};
    const struct usage usage = {help, choices, 0, 1};
    int status = read_words(&usage, &count, words);

    if (status != GO_ON)
        return status;
    if (refuse_terminal(count ? words[0] : NULL))
        return USAGE;
    return decode_file(count ? words[0] : NULL, output, by_names);
}
