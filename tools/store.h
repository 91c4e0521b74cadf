/*
 * A book in its file and the journal beside it, brought together.
 *
 * The book's file is the book, then a copy of the journal's entry that it stands for (the header
 * where it stands for no entry yet). The journal is BOOK.journal. From the first batch of a load
 * to the load's end there is BOOK.last, a copy of the last entry that was flushed.
 */
#ifndef STORE_H
#define STORE_H

#include <stdint.h>

#include "journal.h"
#include "yordzepa.h"

enum { BOOK_FILE = YORDZEPA_BOOK + ENTRY };

struct store {
    char *book_path;
    char *journal_path;
    char *last_path;
    struct journal journal;
    /* Whether there is a file of the book, its bytes, and the place that it stands for. */
    int has_book;
    uint8_t file[BOOK_FILE];
    uint64_t book_place;
    /* A place up to which the journal had been flushed, with its entry; 0 where none is known. */
    uint64_t flushed_place;
    uint8_t flushed[ENTRY];
    /* BOOK.last while a load writes to it, else -1. */
    int last_file;
    /* The book at the journal's end. */
    uint8_t book[YORDZEPA_BOOK];
    uint8_t chain[DIGEST];
};

/* Opens the files and locks the journal. The status is DONE, or another with a message. */
int open_store(struct store *store, const char *path, int to_load);
void close_store(struct store *store);

/*
 * Tests that the book's file is what the journal has for its place; to_load cuts off a last batch
 * that a crash cut, and else it is only passed over. Then the calls after the book's place are made
 * again, so that the book is the one at the journal's end.
 */
int reconcile(struct store *store, int to_load);

/* The place that the book's file names; 0 for the header. */
uint64_t place_named(const struct store *store);

/* Makes an entry's call again on a book. 1 if the answer and the book are the entry's. */
int replay(uint8_t *book, const struct entry *entry, uint64_t answer[YORDZEPA_ANSWER]);

/* Says that an entry's call was answered in another way. */
void complain_of_answer(const struct store *store, const struct entry *entry,
                        const uint64_t answer[YORDZEPA_ANSWER]);

/* Reads BOOK.last if there is one. The status is DONE, or SYSTEM with a message. */
int read_last(struct store *store);

/* Before the first batch, or the first line of an interrupted load that is repeated: makes BOOK.last,
 * for the journal's end, all of which was flushed. */
int begin_last(struct store *store);

/* A batch that ends with this entry was flushed: notes it in BOOK.last. */
int note_last(struct store *store, const uint8_t entry[ENTRY]);

/* Writes the book's file for the journal's end, where it does not stand for it already, and takes
 * BOOK.last away. */
int end_store(struct store *store);

#endif
