/*
 * The book's tables, as docs/LAYOUT.md has them.
 */
#ifndef LAYOUT_H
#define LAYOUT_H

#include <stddef.h>
#include <stdint.h>

enum table_of_book {
    TODAY,
    TOLERANCE,
    NEXT_NUMBER,
    LOTS,
    PRICES,
    HAIRCUTS,
    QUOTES,
    MODES,
    LISTS,
    PARTIALS,
    WAITING_MODES,
    WAITING_LISTS,
    WAITING_PARTIALS,
    MAPS,
    AGES,
    NUMBERS,
    KINDS,
    SIDES,
    GIVERS,
    TAKERS,
    OBJECTS,
    AMOUNTS,
    SETTLEMENTS,
    CLOSINGS,
    REFERENCES,
    SETTLED_AMOUNTS,
    PARTNERS,
    PAIR_PARTIALS,
    CANCELS,
    ENDS,
    EXPOSURE_IN_USE,
    EXPOSURE_GIVERS,
    EXPOSURE_TAKERS,
    EXPOSURE_BASKETS,
    EXPOSURE_CLOSINGS,
    EXPOSURES,
    ACCOUNTS,
    POSITIONS,
    SPARES,
    TABLES
};

struct table_place {
    const char *name;
    size_t begin;
    size_t rows;
    size_t width;
};

extern const struct table_place table_places[TABLES];

enum { PARTICIPANTS = 32, SECURITIES = 64, BASKETS = 16, REQUESTS = 256, EXPOSURE_ROWS = 64 };

/* One number of a book. */
uint64_t number_in(const uint8_t *book, enum table_of_book table, size_t row);

/* The table and row that a byte of the book belongs to. */
const struct table_place *table_at(size_t byte, size_t *row);

#endif
