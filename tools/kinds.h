/*
 * The kinds of records and their fields by the names of document 01's table. The proved reader and
 * writer decide what is a record; this table names things and frames a stream of records.
 */
#ifndef KINDS_H
#define KINDS_H

#include <stddef.h>
#include <stdint.h>

#include "yordzepa.h"

/* How a field may be written. */
enum form {
    PLAIN,
    /* A day: a number, or a date. */
    DAY,
    /* A day, or 0 for open-ended. */
    CLOSING,
    /* giver, taker */
    SIDE,
    /* automatic, list, by-hand */
    MODE,
    /* no, yes */
    PARTIAL,
    /* Bits: a number in base ten, or in base sixteen after 0x. */
    BITS
};

struct field {
    const char *name;
    enum form form;
    /* In bytes. */
    size_t width;
    uint64_t least;
    uint64_t most;
};

struct kind {
    const char *name;
    /* The whole record, with its byte of kind. */
    size_t bytes;
    size_t count;
    struct field fields[YORDZEPA_FIELDS];
};

extern const struct kind kinds[YORDZEPA_KINDS];

/* One record. */
struct record {
    uint64_t kind;
    uint64_t fields[YORDZEPA_FIELDS];
};

/* The name of a kind, "unknown" for others. */
const char *kind_name(uint64_t kind);

/* The place of a word in a list that ends in NULL, whatever the case of its letters; else -1. */
int word_in(const char *const *words, const char *word);

/* The words for a form's values 0, 1, ..; NULL for a form that has none. */
const char *const *words_of(enum form form);

/* The first field out of its range, or the kind's count of fields. */
size_t field_out_of_range(const struct record *record);

/* The fields of a record of a known kind and its whole length, in range or not: for messages. */
struct record plain_fields(const uint8_t *bytes);

/* The length of the record that begins with these bytes; 0 if its kind is unknown. */
size_t record_length(const uint8_t *bytes);

#endif
