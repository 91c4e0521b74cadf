/*
 * load: records applied to a book, in batches: the calls, the journal's entries, one flush, and
 * only then the lines. The book's file is written when the input has come to its end.
 */
#define _POSIX_C_SOURCE 200809L
#include <errno.h>
#include <inttypes.h>
#include <signal.h>
#include <stdio.h>
#include <stdlib.h>
#include <string.h>
#include <unistd.h>

#include "files.h"
#include "input.h"
#include "options.h"
#include "progress.h"
#include "store.h"
#include "tool.h"

static const char help[] =
    "usage: yordzepa load [--after=PLACE] [--batch=COUNT] BOOK [RECORDS]\n"
    "\n"
    "Applies records to the book in the file BOOK and prints a line for each: place from 1, kind,\n"
    "code, A, B, M. Every call and its answer goes into BOOK.journal, and is flushed to the disk\n"
    "before its line is printed. Until the load has ended, BOOK.last tells how far it was flushed.\n"
    "Where there is no book, a new one is made. RECORDS is a file; without it, or as '-', standard\n"
    "input is read.\n"
    "\n"
    "  -a, --after=PLACE   the first record's place is PLACE + 1. Records that the journal already\n"
    "                      has after PLACE are compared with it and not applied again, but their\n"
    "                      lines are printed: so a load that was interrupted is repeated.\n"
    "  -b, --batch=COUNT   records that share one flush, at most (1 to 65536; 1024 if not given)\n"
    "\n"
    "Example: yordzepa encode day.txt | yordzepa load desk.book\n";

enum { USUAL_BATCH = 1024, MOST_BATCH = 65536 };

struct load {
    struct store store;
    struct input input;
    struct progress progress;
    /* The place before this load's first record. */
    uint64_t after;
    /* The book with the calls of the batch that is being made. */
    uint8_t book[YORDZEPA_BOOK];
    uint64_t sum;
    struct entry *batch;
    uint8_t *bytes;
    size_t count;
    size_t most;
    /* The input ended with what is no record. */
    int broken;
    uint64_t accepted;
    uint64_t refused;
    /* The signals that were held back before this load. */
    sigset_t outside;
};

/* ---- Signals: the batch is ended, then the load ---- */

static const int stop_signals[] = {SIGINT, SIGTERM, SIGHUP};

enum { STOP_SIGNALS = sizeof stop_signals / sizeof *stop_signals };

static volatile sig_atomic_t stopped_by;

static void note_signal(int number)
{
    stopped_by = number;
}

/*
 * The signals wait, so that no batch is disturbed, but for the time in which input is awaited. One
 * that the caller ignores, as nohup does, stays ignored.
 */
static void hold_signals(sigset_t *outside)
{
    struct sigaction action, old;
    sigset_t held;

    memset(&action, 0, sizeof action);
    action.sa_handler = note_signal;
    sigemptyset(&action.sa_mask);
    sigemptyset(&held);
    for (size_t place = 0; place < STOP_SIGNALS; place++) {
        if (sigaction(stop_signals[place], NULL, &old) == 0 && old.sa_handler == SIG_IGN)
            continue;
        sigaction(stop_signals[place], &action, NULL);
        sigaddset(&held, stop_signals[place]);
    }
    sigprocmask(SIG_BLOCK, &held, outside);
}

/* Whether a signal has come. */
static int is_stopped(void)
{
    sigset_t waiting;

    if (!stopped_by && sigpending(&waiting) == 0)
        for (size_t place = 0; place < STOP_SIGNALS; place++)
            if (sigismember(&waiting, stop_signals[place]))
                stopped_by = stop_signals[place];
    return stopped_by != 0;
}

/* ---- Messages ---- */

/* After a load that did not end: what is kept, and how it is repeated. Gives the status back. */
static int not_ended(const struct load *load, int status)
{
    complain("the load did not end: the calls up to place %" PRIu64 " are in the journal, none "
             "after it; repeat it with --after=%" PRIu64 " and the same records",
             load->store.journal.places, load->after);
    return status;
}

static int journal_failed(const struct load *load)
{
    complain_of_file("append to", load->store.journal_path);
    return not_ended(load, SYSTEM);
}

static int print_failed(const struct load *load)
{
    complain("cannot write lines to standard output: %s", strerror(errno));
    return not_ended(load, SYSTEM);
}

/* ---- Lines ---- */

static void print_entry(struct load *load, const struct entry *entry)
{
    printf("%" PRIu64 " %u %" PRIu64 " %" PRIu64 " %" PRIu64 " %" PRIu64 "\n", entry->place,
           entry->record[0], entry->answer[0], entry->answer[1], entry->answer[2],
           entry->answer[3]);
    if (entry->answer[0] == YORDZEPA_OK)
        load->accepted++;
    else
        load->refused++;
}

/* ---- Batches ---- */

/* Makes the call of what stands at the front and adds its entry to the batch. */
static void call(struct load *load, enum front front, const uint8_t *bytes, size_t length)
{
    struct entry *entry = &load->batch[load->count];

    memset(entry, 0, sizeof *entry);
    entry->place = load->store.journal.places + load->count + 1;
    entry->type = front == WHOLE ? CALL : BROKEN;
    entry->length = length;
    memcpy(entry->record, bytes, length);
    if (front == WHOLE)
        engine_call(load->book, YORDZEPA_BOOK, bytes, length, entry->answer);
    else
        entry->answer[0] = YORDZEPA_SHAPE;
    /* A refused call has left every byte: that is the library's promise, and audit tests it. */
    if (entry->answer[0] == YORDZEPA_OK)
        load->sum = book_sum(load->book);
    entry->sum = load->sum;
    load->count++;
    load->broken = front == CUT;
}

/* The entries' bytes, chained. */
static void chain_batch(struct load *load)
{
    for (size_t place = 0; place < load->count; place++) {
        struct entry *entry = &load->batch[place];
        entry->before = place;
        entry->after = load->count - 1 - place;
        write_entry(entry, place ? entry[-1].chain : load->store.chain,
                    load->bytes + place * ENTRY);
    }
}

/* Journal first, flushed; then the calls count; this is noted; then their lines. */
static int end_batch(struct load *load)
{
    if (load->count == 0)
        return DONE;
    if (load->store.last_file < 0 && begin_last(&load->store) != DONE)
        return not_ended(load, SYSTEM);
    chain_batch(load);
    if (append_places(&load->store.journal, load->bytes, load->count) != 0)
        return journal_failed(load);
    memcpy(load->store.book, load->book, YORDZEPA_BOOK);
    memcpy(load->store.chain, load->batch[load->count - 1].chain, DIGEST);
    if (note_last(&load->store, load->bytes + (load->count - 1) * ENTRY) != DONE)
        return not_ended(load, SYSTEM);
    for (size_t place = 0; place < load->count; place++)
        print_entry(load, &load->batch[place]);
    load->count = 0;
    if (fflush(stdout) != 0)
        return print_failed(load);
    show_progress(&load->progress, load->input.taken, load->accepted + load->refused);
    return DONE;
}

/*
 * Reads more of the input, which may have to be awaited. 0, or -1 with a message. After a signal
 * nothing is read: the program before this one in a pipe may have been ended by it too, and what
 * looks like the input's end is none.
 */
static int await_bytes(struct load *load)
{
    int result = await_more(&load->input, &load->outside);

    if (result == 0 && !is_stopped())
        result = read_more(&load->input);
    if (result == 0 || errno == EINTR)
        return 0;
    complain_of_file("read", load->input.name);
    return -1;
}

/* A batch does not wait for bytes that are not there yet. */
static int go_on_reading(struct load *load)
{
    int status = has_more(&load->input) ? DONE : end_batch(load);

    if (status != DONE || is_stopped())
        return status;
    return await_bytes(load) == 0 ? DONE : not_ended(load, SYSTEM);
}

static int load_records(struct load *load)
{
    const uint8_t *bytes;
    size_t length;
    enum front front;
    int status = DONE;

    while (status == DONE && !stopped_by && !load->broken &&
           (front = front_of(&load->input, &bytes, &length)) != NOTHING) {
        if (front == MORE) {
            status = go_on_reading(load);
            continue;
        }
        call(load, front, bytes, length);
        take_bytes(&load->input, length);
        if (load->count == load->most) {
            status = end_batch(load);
            is_stopped();
        }
    }
    return status == DONE ? end_batch(load) : status;
}

/* ---- Repeating ---- */

/* The front of the input, which is waited for. */
static int await_front(struct load *load, enum front *front, const uint8_t **bytes,
                       size_t *length)
{
    while ((*front = front_of(&load->input, bytes, length)) == MORE && !is_stopped())
        if (await_bytes(load) != 0)
            return SYSTEM;
    return DONE;
}

/* One entry that the journal has already: it has to be the input's next record. */
static int repeat_entry(struct load *load, uint64_t place, enum front front,
                        const uint8_t *bytes, size_t length)
{
    uint8_t entry_bytes[ENTRY];
    struct entry entry;

    if (read_places(&load->store.journal, place, 1, entry_bytes) != 0) {
        complain_of_file("read", load->store.journal_path);
        return SYSTEM;
    }
    if (read_entry(entry_bytes, &entry) || entry.place != place) {
        complain("%s, place %" PRIu64 ": the entry is damaged; see 'yordzepa audit'",
                 load->store.journal_path, place);
        return DAMAGED;
    }
    if (entry.length != length || memcmp(entry.record, bytes, length) != 0) {
        complain("record %" PRIu64 " of %s is not the one that the journal has at place %" PRIu64
                 "; --after=%" PRIu64 " is for the very records that were loaded there",
                 place - load->after, load->input.name, place, load->after);
        return BAD_INPUT;
    }
    print_entry(load, &entry);
    load->broken = front == CUT;
    return DONE;
}

/* What the journal has after the place named is compared, printed and not applied again. */
static int repeat_records(struct load *load)
{
    int status = DONE;

    for (uint64_t place = load->after + 1;
         status == DONE && place <= load->store.journal.places && !load->broken; place++) {
        const uint8_t *bytes;
        size_t length;
        enum front front;
        status = await_front(load, &front, &bytes, &length);
        if (status != DONE || stopped_by || front == NOTHING)
            return status;
        status = repeat_entry(load, place, front, bytes, length);
        take_bytes(&load->input, length);
    }
    if (status == DONE && fflush(stdout) != 0)
        status = print_failed(load);
    return status;
}

/* ---- The whole ---- */

static int interrupted(const struct load *load)
{
    const struct store *store = &load->store;

    complain("the last load of %s did not end: %s, and the journal has calls up to place %" PRIu64
             "; nothing was loaded now. To go on with that load, give its records again with "
             "--after=%" PRIu64 "; to leave it and load others, give --after=%" PRIu64,
             store->book_path,
             store->has_book ? "the book's file is older than the journal" : "it has no file yet",
             store->journal.places, store->book_place, store->journal.places);
    return INTERRUPTED;
}

/* Where this load begins: after the place named, or at the journal's end. */
static int place_load(struct load *load, const uint64_t *after)
{
    uint64_t end = load->store.journal.places;

    if (!after && load->store.book_place != end)
        return interrupted(load);
    load->after = after ? *after : end;
    if (load->after <= end)
        return DONE;
    complain("--after=%" PRIu64 " is past the journal's end; its last place is %" PRIu64,
             load->after, end);
    return BAD_INPUT;
}

static int end_load(struct load *load)
{
    int status;

    if (stopped_by) {
        complain("stopped by signal %d", (int)stopped_by);
        return not_ended(load, 128 + (int)stopped_by);
    }
    status = end_store(&load->store);
    if (status != DONE)
        return not_ended(load, status);
    if (load->broken) {
        complain("%s ends with a cut record or an unknown kind, record %" PRIu64
                 "; the records before it were loaded", load->input.name,
                 load->accepted + load->refused);
        return BAD_INPUT;
    }
    return DONE;
}

static void tell_count(const struct load *load)
{
    if (load->progress.wanted)
        complain("%" PRIu64 " records after place %" PRIu64 ": %" PRIu64 " accepted, %" PRIu64
                 " refused", load->accepted + load->refused, load->after, load->accepted,
                 load->refused);
}

/*
 * What a load that was killed left, the journal's name or entries after the book's place, may never
 * have been flushed or noted. That is done before any of it is printed again or goes into the book.
 */
static int keep_rest(struct load *load)
{
    struct store *store = &load->store;

    if (!store->has_book && flush_folder(store->journal_path) != 0) {
        complain_of_file("flush the folder of", store->journal_path);
        return SYSTEM;
    }
    if (store->book_place == store->journal.places)
        return DONE;
    if (flush_journal(&store->journal) == 0)
        return begin_last(store);
    complain_of_file("flush", store->journal_path);
    return SYSTEM;
}

static int run_load(struct load *load, const uint64_t *after)
{
    int status = reconcile(&load->store, 1);

    if (status == DONE)
        status = place_load(load, after);
    if (status == DONE)
        status = keep_rest(load);
    if (status != DONE)
        return status;
    memcpy(load->book, load->store.book, YORDZEPA_BOOK);
    load->sum = book_sum(load->book);
    begin_progress(&load->progress, load->input.total);
    status = repeat_records(load);
    if (status == DONE)
        status = load_records(load);
    end_progress(&load->progress);
    if (status == DONE)
        status = end_load(load);
    if (status == DONE)
        tell_count(load);
    return status;
}

static int load_file(const char *book, const char *records, const uint64_t *after, size_t most)
{
    struct load *load = allocate(sizeof *load);
    int status;

    memset(load, 0, sizeof *load);
    load->most = most;
    load->batch = allocate(most * sizeof *load->batch);
    load->bytes = allocate(most * ENTRY);
    hold_signals(&load->outside);
    status = begin_input(&load->input, records);
    if (status == DONE) {
        status = open_store(&load->store, book, 1);
        if (status == DONE)
            status = run_load(load, after);
        close_store(&load->store);
    }
    end_input(&load->input);
    free(load->batch);
    free(load->bytes);
    free(load);
    return status;
}

int load_command(int count, char **words)
{
    const char *after = NULL, *batch = NULL;
    uint64_t place = 0, most = USUAL_BATCH;
    const struct choice choices[] = {
        {"after", 'a', NULL, &after}, {"batch", 'b', NULL, &batch}, {NULL, 0, NULL, NULL}};
    const struct usage usage = {help, choices, 1, 2};
    int status = read_words(&usage, &count, words);

    if (status == GO_ON)
        status = read_choice("batch", batch, 1, MOST_BATCH, &most);
    if (status == GO_ON)
        status = read_choice("after", after, 0, INT64_MAX / ENTRY, &place);
    if (status != GO_ON)
        return status;
    if (refuse_terminal(count > 1 ? words[1] : NULL))
        return USAGE;
    return load_file(words[0], count > 1 ? words[1] : NULL, after ? &place : NULL, (size_t)most);
}
