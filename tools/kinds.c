/*
 * The kinds of records and their fields.
 */
#define _POSIX_C_SOURCE 200809L
#include "kinds.h"

#include <strings.h>

#define ANY_32 UINT64_C(0xffffffff)
#define MOST_NOMINAL UINT64_C(500000000)
#define MOST_AMOUNT UINT64_C(1000000000000)

/* Fields that several kinds have. */
#define SIDE_FIELD {"side", SIDE, 1, 0, 1}
#define GIVER_FIELD {"giver", PLAIN, 1, 0, 31}
#define TAKER_FIELD {"taker", PLAIN, 1, 0, 31}
#define SECURITY_FIELD {"security", PLAIN, 1, 0, 63}
#define EXPOSURE_FIELD {"exposure", PLAIN, 1, 0, 63}
#define PARTICIPANT_FIELD {"participant", PLAIN, 1, 0, 31}
#define NOMINAL_FIELD {"nominal", PLAIN, 4, 1, MOST_NOMINAL}
#define AMOUNT_FIELD {"amount", PLAIN, 8, 1, MOST_AMOUNT}
#define SETTLEMENT_FIELD {"settlement", DAY, 4, 0, ANY_32}
#define REFERENCE_FIELD {"reference", PLAIN, 8, 0, UINT64_MAX}

const struct kind kinds[YORDZEPA_KINDS] = {
    {"opening", 9, 2, {{"day", DAY, 4, 0, ANY_32}, {"tolerance", PLAIN, 4, 1, 100000000}}},
    {"price", 16, 5,
     {SECURITY_FIELD, {"lot", PLAIN, 4, 1, 1000000}, {"price", PLAIN, 4, 1, 3000000},
      {"haircut", PLAIN, 2, 0, 9999}, {"quote-day", DAY, 4, 0, ANY_32}}},
    {"participant", 8, 4,
     {{"number", PLAIN, 1, 0, 31}, {"mode", MODE, 1, 0, 2}, {"list", BITS, 4, 0, ANY_32},
      {"partial", PARTIAL, 1, 0, 1}}},
    {"basket", 11, 3,
     {{"number", PLAIN, 1, 0, 15}, {"map", BITS, 8, 1, UINT64_MAX}, {"greatest-age", PLAIN, 1, 0, 255}}},
    {"deposit", 7, 3, {PARTICIPANT_FIELD, SECURITY_FIELD, NOMINAL_FIELD}},
    {"withdrawal", 7, 3, {PARTICIPANT_FIELD, SECURITY_FIELD, NOMINAL_FIELD}},
    {"fop", 29, 8,
     {SIDE_FIELD, GIVER_FIELD, TAKER_FIELD, {"basket", PLAIN, 1, 0, 15}, AMOUNT_FIELD,
      SETTLEMENT_FIELD, {"closing", CLOSING, 4, 0, ANY_32}, REFERENCE_FIELD}},
    {"return", 25, 7,
     {SIDE_FIELD, GIVER_FIELD, TAKER_FIELD, EXPOSURE_FIELD, AMOUNT_FIELD, SETTLEMENT_FIELD,
      REFERENCE_FIELD}},
    {"cancel", 6, 2, {PARTICIPANT_FIELD, {"request-number", PLAIN, 4, 0, ANY_32}}},
    {"settle", 1, 0, {{NULL, PLAIN, 0, 0, 0}}},
    {"mark", 1, 0, {{NULL, PLAIN, 0, 0, 0}}},
    {"recall", 8, 4,
     {GIVER_FIELD, EXPOSURE_FIELD, SECURITY_FIELD, {"nominal", PLAIN, 4, 1, ANY_32}}},
    {"next-day", 1, 0, {{NULL, PLAIN, 0, 0, 0}}},
};

const char *kind_name(uint64_t kind)
{
    return kind < YORDZEPA_KINDS ? kinds[kind].name : "unknown";
}

int word_in(const char *const *words, const char *word)
{
    for (int place = 0; words[place]; place++)
        if (strcasecmp(words[place], word) == 0)
            return place;
    return -1;
}

const char *const *words_of(enum form form)
{
    static const char *const sides[] = {"giver", "taker", NULL};
    static const char *const modes[] = {"automatic", "list", "by-hand", NULL};
    static const char *const partials[] = {"no", "yes", NULL};

    switch (form) {
    case SIDE:
        return sides;
    case MODE:
        return modes;
    case PARTIAL:
        return partials;
    default:
        return NULL;
    }
}

size_t field_out_of_range(const struct record *record)
{
    const struct kind *kind = &kinds[record->kind];
    size_t place = 0;

    while (place < kind->count && record->fields[place] >= kind->fields[place].least &&
           record->fields[place] <= kind->fields[place].most)
        place++;
    return place;
}

struct record plain_fields(const uint8_t *bytes)
{
    const struct kind *kind = &kinds[*bytes];
    struct record record = {.kind = *bytes};
    const uint8_t *at = bytes + 1;

    for (size_t place = 0; place < kind->count; place++)
        for (size_t left = kind->fields[place].width; left; left--)
            record.fields[place] = record.fields[place] << 8 | *at++;
    return record;
}

size_t record_length(const uint8_t *bytes)
{
    return *bytes < YORDZEPA_KINDS ? kinds[*bytes].bytes : 0;
}
