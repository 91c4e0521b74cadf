/*
 * A book in its file and the journal beside it.
 */
#define _DEFAULT_SOURCE
#define _XOPEN_SOURCE 700
#include "store.h"

#include <errno.h>
#include <fcntl.h>
#include <inttypes.h>
#include <stdio.h>
#include <stdlib.h>
#include <string.h>
#include <sys/stat.h>
#include <unistd.h>

#include "files.h"
#include "tool.h"

/* What an operator can do about a book that the journal does not explain. */
#define MEND "put back the book that belongs to the journal, or move it away and make it anew " \
             "from the journal with 'yordzepa load --after=%" PRIu64 " %s /dev/null'"

/* ---- Opening ---- */

/* Reads the book's file if there is one; any length is taken, and told by reconcile. */
static int read_book(struct store *store, long *length)
{
    int file = open(store->book_path, O_RDONLY | O_CLOEXEC);
    uint8_t more;

    store->has_book = file >= 0 || errno != ENOENT;
    if (!store->has_book)
        return DONE;
    *length = file < 0 ? -1 : read_fully(file, store->file, BOOK_FILE);
    if (*length == BOOK_FILE)
        *length += read_fully(file, &more, 1);
    if (*length < 0)
        complain_of_file("read", store->book_path);
    if (file >= 0)
        close(file);
    return *length < 0 ? SYSTEM : DONE;
}

static int check_length(const struct store *store, long length)
{
    if (!store->has_book || length == BOOK_FILE)
        return DONE;
    complain("%s has %s bytes than the %d of a book's file: it is cut or no book; give a book, or "
             "move it away and load again", store->book_path,
             length < BOOK_FILE ? "fewer" : "more", BOOK_FILE);
    return DAMAGED;
}

/* A book's name may be a link; the files stand where it leads. Else messages have it as it was given. */
static char *resolved(const char *path)
{
    struct stat facts;
    char *real = lstat(path, &facts) == 0 && S_ISLNK(facts.st_mode) ? realpath(path, NULL) : NULL;

    return real ? real : joined(path, "");
}

static int missing_journal(const struct store *store, int to_load)
{
    int is_begun = store->has_book || access(store->last_path, F_OK) == 0;

    if (access(store->journal_path, F_OK) == 0 || (to_load && !is_begun))
        return DONE;
    if (store->has_book)
        complain("%s has no journal: %s is not there; put it back", store->book_path,
                 store->journal_path);
    else if (is_begun)
        complain("a load of %s had begun, but %s is not there; put it back, or remove %s to begin "
                 "anew", store->book_path, store->journal_path, store->last_path);
    else
        complain("there is no book %s; 'yordzepa load' makes one", store->book_path);
    return is_begun ? DAMAGED : SYSTEM;
}

int open_store(struct store *store, const char *path, int to_load)
{
    long length = 0;
    int status, is_new = 0;

    memset(store, 0, sizeof *store);
    store->journal.file = -1;
    store->last_file = -1;
    store->book_path = resolved(path);
    store->journal_path = joined(store->book_path, ".journal");
    store->last_path = joined(store->book_path, ".last");
    store->has_book = access(store->book_path, F_OK) == 0;
    status = missing_journal(store, to_load);
    if (status == DONE)
        status = open_journal(&store->journal, store->journal_path, to_load, !store->has_book,
                              &is_new);
    /* Only now, under the lock, does the book stand still. */
    if (status == DONE)
        status = read_book(store, &length);
    if (status == DONE)
        status = check_length(store, length);
    if (status == DONE)
        status = read_last(store);
    return status;
}

void close_store(struct store *store)
{
    close_journal(&store->journal);
    if (store->last_file >= 0)
        close(store->last_file);
    free(store->book_path);
    free(store->journal_path);
    free(store->last_path);
}

/* ---- The book and its place ---- */

uint64_t place_named(const struct store *store)
{
    uint8_t header[ENTRY];

    journal_header(header);
    if (memcmp(store->file + YORDZEPA_BOOK, header, ENTRY) == 0)
        return 0;
    return load_number(store->file + YORDZEPA_BOOK, 8);
}

/* NULL, or why the book's file is not what the journal has for its place. */
static const char *book_fault(const struct store *store, const uint8_t entry_bytes[ENTRY])
{
    struct entry entry;
    uint8_t empty[YORDZEPA_BOOK] = {0};

    if (memcmp(store->file + YORDZEPA_BOOK, entry_bytes, ENTRY) != 0)
        return "the entry that it names is another one in the journal";
    if (store->book_place == 0)
        return memcmp(store->file, empty, YORDZEPA_BOOK) == 0
                   ? NULL : "its bytes are not those of a book without calls";
    if (read_entry(entry_bytes, &entry) || entry.place != store->book_place || entry.after)
        return "the entry that it names is damaged";
    return book_sum(store->file) == entry.sum
               ? NULL : "its bytes are not those that the journal has for this place";
}

/* Finds the place that the book stands for and tests it against the journal. */
static int place_book(struct store *store)
{
    uint8_t entry[ENTRY];
    const char *fault;

    first_chain(store->chain);
    if (!store->has_book)
        return DONE;
    store->book_place = place_named(store);
    if (store->book_place > store->journal.places) {
        complain("%s stands for place %" PRIu64 ", but %s ends at place %" PRIu64 ": the journal "
                 "is cut, or the book is not its own; put back the whole journal",
                 store->book_path, store->book_place, store->journal_path, store->journal.places);
        return DAMAGED;
    }
    if (read_places(&store->journal, store->book_place, 1, entry) != 0) {
        complain_of_file("read", store->journal_path);
        return SYSTEM;
    }
    fault = book_fault(store, entry);
    if (fault) {
        complain("%s, place %" PRIu64 ": %s; it is damaged or not the journal's; " MEND,
                 store->book_path, store->book_place, fault, store->journal.places,
                 store->book_path);
        return DAMAGED;
    }
    memcpy(store->book, store->file, YORDZEPA_BOOK);
    if (store->book_place)
        memcpy(store->chain, entry + ENTRY - DIGEST, DIGEST);
    return DONE;
}

/* ---- The last entry that was flushed ---- */

/* What a crash of the machine left of it may be empty, blank or half: then it tells nothing. */
int read_last(struct store *store)
{
    int file = open(store->last_path, O_RDONLY | O_CLOEXEC);
    uint8_t bytes[ENTRY + 1];
    struct entry entry;
    long length;

    if (file < 0 && errno == ENOENT)
        return DONE;
    length = file < 0 ? -1 : read_fully(file, bytes, sizeof bytes);
    if (length < 0)
        complain_of_file("read", store->last_path);
    if (file >= 0)
        close(file);
    if (length == ENTRY && !read_entry(bytes, &entry)) {
        memcpy(store->flushed, bytes, ENTRY);
        store->flushed_place = entry.place;
    }
    return length < 0 ? SYSTEM : DONE;
}

/* The journal has what had been flushed. */
static int check_last(const struct store *store)
{
    uint8_t entry[ENTRY];

    if (store->flushed_place == 0)
        return DONE;
    if (store->flushed_place > store->journal.places) {
        complain("%s ends at place %" PRIu64 ", but had been flushed up to place %" PRIu64 ", as "
                 "%s tells: the journal is cut; put back the whole journal, or, if an older one is "
                 "wanted, remove %s", store->journal_path, store->journal.places,
                 store->flushed_place, store->last_path, store->last_path);
        return DAMAGED;
    }
    if (read_places(&store->journal, store->flushed_place, 1, entry) != 0) {
        complain_of_file("read", store->journal_path);
        return SYSTEM;
    }
    if (memcmp(entry, store->flushed, ENTRY) == 0)
        return DONE;
    complain("%s, place %" PRIu64 ": the entry is not the one that had been flushed, as %s tells; "
             "put back the journal", store->journal_path, store->flushed_place, store->last_path);
    return DAMAGED;
}

int note_last(struct store *store, const uint8_t entry[ENTRY])
{
    if (pwrite(store->last_file, entry, ENTRY, 0) == ENTRY)
        return DONE;
    complain_of_file("write", store->last_path);
    return SYSTEM;
}

int begin_last(struct store *store)
{
    uint8_t entry[ENTRY];

    if (read_places(&store->journal, store->journal.places, 1, entry) != 0) {
        complain_of_file("read", store->journal_path);
        return SYSTEM;
    }
    store->last_file = open(store->last_path, O_WRONLY | O_CREAT | O_CLOEXEC, 0666);
    if (store->last_file < 0 || ftruncate(store->last_file, ENTRY) != 0) {
        complain_of_file("write", store->last_path);
        return SYSTEM;
    }
    return note_last(store, entry);
}

/* ---- The journal's end ---- */

/* Where a walk after the book's place ended. */
struct end {
    enum step step;
    /* The last entry of the last whole batch. */
    uint64_t last;
    /* The last entry read; where it is wrong, why, and whether it is blank. */
    uint64_t place;
    const char *why;
    int blank;
};

static struct end walk_to_end(const struct store *store)
{
    struct end end = {AT_END, store->book_place, 0, NULL, 0};
    struct walk walk;
    struct entry entry;

    begin_walk(&walk, &store->journal, store->book_place, store->chain);
    while ((end.step = next_entry(&walk, &entry, &end.why)) == WALKED)
        if (entry.after == 0)
            end.last = entry.place;
    end.place = walk.place;
    end.blank = end.step == WRONG && is_blank(walked_bytes(&walk));
    end_walk(&walk);
    return end;
}

static int cut_batch(struct store *store, uint64_t last, int to_load)
{
    complain("%s: a crash cut the last batch, from place %" PRIu64 " on, before it was flushed; "
             "none of its lines had been printed, and it %s", store->journal_path, last + 1,
             to_load ? "is cut off" : "does not count");
    if (to_load && cut_journal(&store->journal, last) != 0) {
        complain_of_file("cut", store->journal_path);
        return SYSTEM;
    }
    store->journal.places = last;
    return DONE;
}

/* The journal ends with a whole batch; one that a crash cut is passed over; all else is damage. */
static int find_end(struct store *store, int to_load)
{
    struct end end = walk_to_end(store);
    int torn = 0;

    if (end.step == AT_END && end.last == store->journal.places &&
        store->journal.length % ENTRY == 0)
        return DONE;
    if ((end.step == AT_END || end.blank) && end.last >= store->flushed_place)
        torn = is_torn(&store->journal, end.last + 1);
    if (end.step == UNREADABLE || torn < 0) {
        complain_of_file("read", store->journal_path);
        return SYSTEM;
    }
    if (torn)
        return cut_batch(store, end.last, to_load);
    complain("%s, place %" PRIu64 ": %s; this is no crash's work: put back the journal from a "
             "copy, and test it with 'yordzepa audit'", store->journal_path, end.place,
             end.why ? end.why : "its batch is not whole");
    return DAMAGED;
}

/* ---- Replaying ---- */

int replay(uint8_t *book, const struct entry *entry, uint64_t answer[YORDZEPA_ANSWER])
{
    static const uint64_t broken[YORDZEPA_ANSWER] = {YORDZEPA_SHAPE, 0, 0, 0};

    if (entry->type == CALL)
        engine_call(book, YORDZEPA_BOOK, entry->record, entry->length, answer);
    else
        memcpy(answer, broken, sizeof broken);
    return memcmp(answer, entry->answer, sizeof broken) == 0 && book_sum(book) == entry->sum;
}

void complain_of_answer(const struct store *store, const struct entry *entry,
                        const uint64_t answer[YORDZEPA_ANSWER])
{
    if (memcmp(answer, entry->answer, sizeof entry->answer) == 0)
        complain("%s, place %" PRIu64 ": the engine's answer is the journal's, but the book after "
                 "it is another", store->journal_path, entry->place);
    else
        complain("%s, place %" PRIu64 ": the journal has the answer %" PRIu64 " %" PRIu64
                 " %" PRIu64 " %" PRIu64 ", the engine gives %" PRIu64 " %" PRIu64 " %" PRIu64
                 " %" PRIu64, store->journal_path, entry->place, entry->answer[0],
                 entry->answer[1], entry->answer[2], entry->answer[3], answer[0], answer[1],
                 answer[2], answer[3]);
}

static int replay_rest(struct store *store)
{
    struct walk walk;
    struct entry entry;
    const char *why = NULL;
    uint64_t answer[YORDZEPA_ANSWER];
    enum step step;
    int status = DONE;

    begin_walk(&walk, &store->journal, store->book_place, store->chain);
    while (status == DONE && (step = next_entry(&walk, &entry, &why)) != AT_END) {
        if (step != WALKED) {
            complain("%s, place %" PRIu64 ": %s", store->journal_path, walk.place,
                     why ? why : strerror(errno));
            status = step == WRONG ? DAMAGED : SYSTEM;
        } else if (!replay(store->book, &entry, answer)) {
            complain_of_answer(store, &entry, answer);
            status = DAMAGED;
        }
    }
    memcpy(store->chain, walk.chain, DIGEST);
    end_walk(&walk);
    return status;
}

int reconcile(struct store *store, int to_load)
{
    int status = place_book(store);

    if (status == DONE)
        status = check_last(store);
    if (status == DONE)
        status = find_end(store, to_load);
    if (status == DONE)
        status = replay_rest(store);
    return status;
}

static int write_book(struct store *store)
{
    int status;

    memcpy(store->file, store->book, YORDZEPA_BOOK);
    if (read_places(&store->journal, store->journal.places, 1, store->file + YORDZEPA_BOOK) != 0) {
        complain_of_file("read", store->journal_path);
        return SYSTEM;
    }
    status = replace_file(store->book_path, store->file, BOOK_FILE);
    if (status == DONE) {
        store->has_book = 1;
        store->book_place = store->journal.places;
    }
    return status;
}

int end_store(struct store *store)
{
    int status = DONE;

    if (!store->has_book || store->book_place != store->journal.places)
        status = write_book(store);
    if (status != DONE || unlink(store->last_path) == 0 || errno == ENOENT)
        return status;
    complain_of_file("remove", store->last_path);
    return SYSTEM;
}
