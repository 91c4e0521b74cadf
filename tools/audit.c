/*
 * audit: the journal's calls made again from its opening, every answer and the book compared.
 */
#include <errno.h>
#include <inttypes.h>
#include <stdio.h>
#include <stdlib.h>
#include <string.h>

#include "layout.h"
#include "options.h"
#include "progress.h"
#include "store.h"
#include "tool.h"

static const char help[] =
    "usage: yordzepa audit BOOK\n"
    "\n"
    "Makes all calls of BOOK.journal again from an empty book and compares every entry, every\n"
    "answer and, byte for byte, the book in the file BOOK. The first place that differs is named,\n"
    "and the status is 1. Nothing is changed.\n";

struct audit {
    struct store store;
    struct walk walk;
    struct progress progress;
    uint8_t book[YORDZEPA_BOOK];
};

/* The book's file beside what the calls up to its place make. */
static int compare_book(const struct audit *audit, const uint8_t entry[ENTRY])
{
    const struct store *store = &audit->store;
    size_t at = 0, row;
    const struct table_place *table;

    while (at < YORDZEPA_BOOK && store->file[at] == audit->book[at])
        at++;
    if (at < YORDZEPA_BOOK) {
        table = table_at(at, &row);
        complain("%s, place %" PRIu64 ": byte %zu (%s, row %zu) is %u, the journal's calls make "
                 "it %u", store->book_path, store->book_place, at, table->name, row,
                 store->file[at], audit->book[at]);
        return DIFFERS;
    }
    for (at = 0; at < ENTRY && store->file[YORDZEPA_BOOK + at] == entry[at];)
        at++;
    if (at == ENTRY)
        return DONE;
    complain("%s, place %" PRIu64 ": byte %zu, in the copy of the journal's entry, is %u, in the "
             "journal it is %u", store->book_path, store->book_place, YORDZEPA_BOOK + at,
             store->file[YORDZEPA_BOOK + at], entry[at]);
    return DIFFERS;
}

static int differs_at(const struct audit *audit, const char *why)
{
    complain("%s, place %" PRIu64 ": %s", audit->store.journal_path, audit->walk.place, why);
    return DIFFERS;
}

/* One entry: its own bytes were tested by the walk; now the call. */
static int audit_entry(struct audit *audit, const struct entry *entry)
{
    uint64_t answer[YORDZEPA_ANSWER];

    if (!replay(audit->book, entry, answer)) {
        complain_of_answer(&audit->store, entry, answer);
        return DIFFERS;
    }
    if (entry->place == audit->store.flushed_place &&
        memcmp(walked_bytes(&audit->walk), audit->store.flushed, ENTRY) != 0)
        return differs_at(audit, "the entry is not the one that had been flushed");
    if (audit->store.has_book && entry->place == audit->store.book_place)
        return compare_book(audit, walked_bytes(&audit->walk));
    return DONE;
}

/* The walk came to an entry that is wrong: a crash's work, or a difference. */
static int wrong_entry(const struct audit *audit, uint64_t last, const char *why)
{
    if (last >= audit->store.book_place && last >= audit->store.flushed_place &&
        is_blank(walked_bytes(&audit->walk)) && is_torn(&audit->store.journal, last + 1) > 0)
        return DONE;
    return differs_at(audit, why);
}

static int audit_entries(struct audit *audit, uint64_t *last)
{
    struct entry entry;
    const char *why = NULL;
    enum step step;
    int status = DONE;

    while (status == DONE && (step = next_entry(&audit->walk, &entry, &why)) != AT_END) {
        if (step == UNREADABLE) {
            complain_of_file("read", audit->store.journal_path);
            return SYSTEM;
        }
        if (step == WRONG)
            return wrong_entry(audit, *last, why);
        status = audit_entry(audit, &entry);
        if (entry.after == 0)
            *last = entry.place;
        show_progress(&audit->progress, entry.place, entry.place);
    }
    return status;
}

/* All that there is has been compared; is it whole? */
static int audit_end(const struct audit *audit, uint64_t last)
{
    const struct store *store = &audit->store;
    int is_whole = last == store->journal.places && store->journal.length % ENTRY == 0;

    if (store->book_place > last) {
        complain("%s, place %" PRIu64 ": the journal ends here, but the book stands for place "
                 "%" PRIu64 ": the journal is cut", store->journal_path, last, store->book_place);
        return DIFFERS;
    }
    if (store->flushed_place > last) {
        complain("%s, place %" PRIu64 ": the journal ends here, but had been flushed up to place "
                 "%" PRIu64 ", as %s tells: the journal is cut", store->journal_path, last,
                 store->flushed_place, store->last_path);
        return DIFFERS;
    }
    if (!is_whole && is_torn(&store->journal, last + 1) <= 0)
        return differs_at(audit, "its batch is not whole");
    printf("%" PRIu64 " calls: every answer is the engine's", last);
    if (store->has_book)
        printf(", and the book at place %" PRIu64 " is theirs, byte for byte", store->book_place);
    printf("\n");
    if (end_output() != DONE)
        return SYSTEM;
    if (is_whole && store->book_place == last && (store->has_book || last == 0))
        return DONE;
    complain("the last load did not end%s; see 'yordzepa load --after'",
             is_whole ? "" : ", and a crash cut its last batch before that was flushed");
    return INTERRUPTED;
}

/* The place that the book's file names; its bytes are compared when the walk comes there. */
static int begin_audit(struct audit *audit)
{
    uint8_t chain[DIGEST], header[ENTRY];

    first_chain(chain);
    journal_header(header);
    begin_walk(&audit->walk, &audit->store.journal, 0, chain);
    begin_progress(&audit->progress, audit->store.journal.places);
    audit->store.book_place = audit->store.has_book ? place_named(&audit->store) : 0;
    return audit->store.has_book && audit->store.book_place == 0 ? compare_book(audit, header)
                                                                 : DONE;
}

static int run_audit(struct audit *audit)
{
    uint64_t last = 0;
    int status = begin_audit(audit);

    if (status == DONE)
        status = audit_entries(audit, &last);
    end_progress(&audit->progress);
    end_walk(&audit->walk);
    return status == DONE ? audit_end(audit, last) : status;
}

int audit_command(int count, char **words)
{
    const struct choice choices[] = {{NULL, 0, NULL, NULL}};
    const struct usage usage = {help, choices, 1, 1};
    int status = read_words(&usage, &count, words);
    struct audit *audit;

    if (status != GO_ON)
        return status;
    audit = allocate(sizeof *audit);
    memset(audit, 0, sizeof *audit);
    status = open_store(&audit->store, words[0], 0);
    if (status == DONE)
        status = run_audit(audit);
    close_store(&audit->store);
    free(audit);
    return status == DAMAGED ? DIFFERS : status;
}
