/*
 * A record as a line of text.
 */
#include "text.h"

#include <inttypes.h>
#include <stdarg.h>
#include <stdio.h>
#include <string.h>

#include "dates.h"
#include "tool.h"

/* The rest of a line that is being read, and what is known of its record. */
struct reading {
    char text[LINE_ROOM];
    char *rest;
    const struct kind *kind;
    struct record *record;
    struct fault *fault;
    /* Which fields have been given, and whether the first one was by its name. */
    int given[YORDZEPA_FIELDS];
    size_t count;
    int by_names;
};

static int wrong(struct fault *fault, const char *field, const char *form, ...)
    __attribute__((format(printf, 3, 4)));

/* Notes what is wrong; always -1. */
static int wrong(struct fault *fault, const char *field, const char *form, ...)
{
    va_list list;

    snprintf(fault->field, sizeof fault->field, "%s", field);
    va_start(list, form);
    vsnprintf(fault->reason, sizeof fault->reason, form, list);
    va_end(list);
    return -1;
}

static int is_space(char letter)
{
    return letter == ' ' || letter == '\t' || letter == '\r';
}

/* Copies the line without its comment, spaces at the ends and a last full stop. */
static int take_text(struct reading *reading, const char *line, size_t length)
{
    const char *comment = memchr(line, '#', length);
    size_t start = 0, end = comment ? (size_t)(comment - line) : length;

    while (start < end && is_space(line[start]))
        start++;
    while (end > start && is_space(line[end - 1]))
        end--;
    if (end > start && line[end - 1] == '.')
        end--;
    if (end - start >= LINE_ROOM)
        return wrong(reading->fault, "kind", "the line has %zu characters; %d are the most",
                     end - start, LINE_ROOM - 1);
    for (size_t place = start; place < end; place++)
        if ((line[place] < ' ' || line[place] > '~') && !is_space(line[place]))
            return wrong(reading->fault, "kind", "character %zu of the line is byte 0x%02x, which "
                         "only a comment may have; is this a text of records?", place + 1,
                         (unsigned char)line[place]);
    memcpy(reading->text, line + start, end - start);
    reading->text[end - start] = '\0';
    reading->rest = reading->text;
    return end > start;
}

static void skip_spaces(struct reading *reading)
{
    while (is_space(*reading->rest))
        reading->rest++;
}

/* The next word up to a space or one of the stops, which is told and passed over. */
static char *take_word(struct reading *reading, const char *stops, char *stop)
{
    char *word = reading->rest;

    while (*reading->rest && !is_space(*reading->rest) && !strchr(stops, *reading->rest))
        reading->rest++;
    *stop = *reading->rest;
    if (*stop)
        *reading->rest++ = '\0';
    if (is_space(*stop)) {
        skip_spaces(reading);
        *stop = *reading->rest && strchr(stops, *reading->rest) ? *reading->rest++ : ' ';
    }
    return word;
}

static int take_kind(struct reading *reading)
{
    char stop;
    char *word = take_word(reading, ":", &stop);
    uint64_t number = 0;

    if (!read_number(word, &number)) {
        for (number = 0; number < YORDZEPA_KINDS; number++) {
            const char *const names[] = {kinds[number].name, NULL};
            if (word_in(names, word) == 0)
                break;
        }
    }
    if (number >= YORDZEPA_KINDS)
        return wrong(reading->fault, "kind",
                     "'%.40s' is no kind; use 0 to 12, or opening, price, participant, basket, "
                     "deposit, withdrawal, fop, return, cancel, settle, mark, recall, next-day",
                     word);
    reading->kind = &kinds[number];
    reading->record->kind = number;
    return 1;
}

/* Bits in base sixteen, after 0x. */
static int read_bits(const char *text, uint64_t *number)
{
    size_t length = strlen(text);
    uint64_t value = 0;

    if (length < 3 || length > 18 || text[0] != '0' || (text[1] != 'x' && text[1] != 'X'))
        return 0;
    for (text += 2; *text; text++) {
        const char *letters = "0123456789abcdef0123456789ABCDEF";
        const char *found = strchr(letters, *text);
        if (!found)
            return 0;
        value = value << 4 | ((uint64_t)(found - letters) & 15);
    }
    *number = value;
    return 1;
}

/* A value by the field's form; the fault says how it can be written. */
static int take_value(struct reading *reading, const struct field *field, const char *text,
                      uint64_t *value)
{
    const char *const *words = words_of(field->form);
    int place = words ? word_in(words, text) : -1;
    int is_day = field->form == DAY || field->form == CLOSING;

    if (place >= 0)
        *value = (uint64_t)place;
    if (place >= 0 || read_number(text, value))
        return 1;
    if (field->form == BITS && read_bits(text, value))
        return 1;
    if (is_day && read_date(text, value))
        return 1;
    if (is_day && looks_like_date(text))
        return wrong(reading->fault, field->name,
                     "there is no day %.40s; dates go from 2002-01-01 to 2401-12-31", text);
    return wrong(reading->fault, field->name, "'%.40s' is not %s%s%s", text,
                 "a whole number of at most 64 bits",
                 is_day ? " or a date like 2026-11-16"
                 : field->form == BITS ? " in base ten, or in base sixteen after 0x"
                 : words ? ", nor one of the words " : "",
                 field->form == SIDE ? "giver, taker"
                 : field->form == MODE ? "automatic, list, by-hand"
                 : field->form == PARTIAL ? "no, yes" : "");
}

/* The place of a field by its name; the kind's count if it has none of that name. */
static size_t field_named(const struct kind *kind, const char *name)
{
    size_t place = 0;

    while (place < kind->count) {
        const char *const names[] = {kind->fields[place].name, NULL};
        if (word_in(names, name) == 0)
            break;
        place++;
    }
    return place;
}

/* The names of a kind's fields, for messages. */
static const char *fields_of(const struct kind *kind, char text[LINE_ROOM])
{
    size_t used = 0;

    text[0] = '\0';
    for (size_t place = 0; place < kind->count; place++)
        used += (size_t)snprintf(text + used, LINE_ROOM - used, "%s%s", place ? ", " : "",
                                 kind->fields[place].name);
    return kind->count ? text : "no fields";
}

static int take_named(struct reading *reading, char *item, char *equals, size_t *place)
{
    char names[LINE_ROOM];

    *equals = '\0';
    *place = field_named(reading->kind, item);
    if (*place == reading->kind->count)
        return wrong(reading->fault, item, "a %s has no such field; it has %s",
                     reading->kind->name, fields_of(reading->kind, names));
    if (reading->given[*place])
        return wrong(reading->fault, item, "the field is given twice");
    return 1;
}

static int take_placed(struct reading *reading, const char *item, size_t *place)
{
    char names[LINE_ROOM];

    *place = reading->count;
    if (*place == reading->kind->count)
        return wrong(reading->fault, item, "one value too many; a %s has %s", reading->kind->name,
                     fields_of(reading->kind, names));
    return 1;
}

/* One item: a value in its place, or name=value. */
static int take_item(struct reading *reading, char *item)
{
    char *equals = strchr(item, '=');
    size_t place;

    if (reading->count == 0)
        reading->by_names = equals != NULL;
    if ((equals != NULL) != reading->by_names)
        return wrong(reading->fault, item,
                     "give all values by their names or all by their places, not both");
    if ((equals ? take_named(reading, item, equals, &place)
                : take_placed(reading, item, &place)) < 0)
        return -1;
    reading->given[place] = 1;
    reading->count++;
    return take_value(reading, &reading->kind->fields[place], equals ? equals + 1 : item,
                      &reading->record->fields[place]);
}

static int take_fields(struct reading *reading)
{
    char stop = ' ';

    skip_spaces(reading);
    while (*reading->rest || stop == ',') {
        char *item = take_word(reading, ",", &stop);
        if (!*item)
            return wrong(reading->fault,
                         reading->count < reading->kind->count
                             ? reading->kind->fields[reading->count].name : "kind",
                         "a comma with nothing beside it");
        if (take_item(reading, item) < 0)
            return -1;
        skip_spaces(reading);
    }
    for (size_t place = 0; place < reading->kind->count; place++) {
        char names[LINE_ROOM];
        if (!reading->given[place])
            return wrong(reading->fault, reading->kind->fields[place].name,
                         "the field is missing; a %s has %s", reading->kind->name,
                         fields_of(reading->kind, names));
    }
    return 1;
}

int read_line(const char *line, size_t length, struct record *record, struct fault *fault)
{
    struct reading reading = {.record = record, .fault = fault};
    int taken = take_text(&reading, line, length);

    memset(record, 0, sizeof *record);
    if (taken <= 0)
        return taken;
    return take_kind(&reading) < 0 ? -1 : take_fields(&reading);
}

const char *range_text(const struct field *field, char text[LINE_ROOM])
{
    if (field->form == BITS && field->least == 1)
        snprintf(text, LINE_ROOM, "any 64 bits but 0");
    else
        snprintf(text, LINE_ROOM, "%" PRIu64 " to %" PRIu64, field->least, field->most);
    return text;
}

/* A value as the named form writes it. */
static int value_text(char *text, size_t room, const struct field *field, uint64_t value)
{
    const char *const *words = words_of(field->form);
    char day[DAY_TEXT];

    if (words)
        return snprintf(text, room, "%s", words[value]);
    if (field->form == DAY || (field->form == CLOSING && value))
        return snprintf(text, room, "%s", day_text(value, day));
    if (field->form == BITS)
        return snprintf(text, room, "0x%" PRIx64, value);
    return snprintf(text, room, "%" PRIu64, value);
}

void write_line(struct bytes *out, const struct record *record, int by_names)
{
    const struct kind *kind = &kinds[record->kind];
    char text[LINE_ROOM];
    int used = by_names ? snprintf(text, sizeof text, "%s", kind->name)
                        : snprintf(text, sizeof text, "%" PRIu64 "%s", record->kind,
                                   kind->count ? ":" : "");

    for (size_t place = 0; place < kind->count; place++) {
        const struct field *field = &kind->fields[place];
        char value[LINE_ROOM];
        if (by_names)
            value_text(value, sizeof value, field, record->fields[place]);
        else
            snprintf(value, sizeof value, "%" PRIu64, record->fields[place]);
        used += by_names ? snprintf(text + used, sizeof text - (size_t)used, " %s=%.40s",
                                    field->name, value)
                         : snprintf(text + used, sizeof text - (size_t)used, "%s %.40s",
                                    place ? "," : "", value);
    }
    append(out, text, (size_t)used);
    append(out, "\n", 1);
}
