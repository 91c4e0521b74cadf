/*
 * A table, printed aligned or as CSV.
 */
#ifndef TABLE_H
#define TABLE_H

#include <stddef.h>
#include <stdint.h>

#include "files.h"

struct table {
    const char *title;
    /* The headings, which end in NULL; one that begins with '>' is over numbers, set to the right. */
    const char *const *headings;
    size_t columns;
    /* The cells one after the other, each ended by a 0. */
    struct bytes cells;
    size_t count;
};

void begin_table(struct table *table, const char *title, const char *const *headings);
void add_text(struct table *table, const char *text);
void add_number(struct table *table, uint64_t number);

/* Prints and ends it. */
void end_table(struct table *table, int as_csv);

#endif
