/*
 * The journal's bytes and its file.
 */
#define _DEFAULT_SOURCE
#define _POSIX_C_SOURCE 200809L
#include "journal.h"

#include <errno.h>
#include <fcntl.h>
#include <stdio.h>
#include <stdlib.h>
#include <string.h>
#include <sys/file.h>
#include <sys/stat.h>
#include <unistd.h>

#include "files.h"
#include "kinds.h"
#include "tool.h"

/* Where the parts of an entry begin. */
enum {
    PLACE_AT = 0,
    BEFORE_AT = 8,
    AFTER_AT = 12,
    TYPE_AT = 16,
    LENGTH_AT = 17,
    RECORD_AT = 18,
    ANSWER_AT = 48,
    SUM_AT = 80,
    CHECK_AT = 88,
    CHAIN_AT = 96,
    /* Bytes kept for the record, one more than the longest. */
    RECORD_ROOM = 30,
    /* Entries that a walk reads at once. */
    AHEAD = 512
};

/* ---- Bytes ---- */

void journal_header(uint8_t header[ENTRY])
{
    static const char text[] = "yordzepa journal 1: entries of 128 bytes, see docs/TOOL.md\n";

    memset(header, 0, ENTRY);
    memcpy(header, text, sizeof text - 1);
}

void first_chain(uint8_t chain[DIGEST])
{
    uint8_t header[ENTRY];

    journal_header(header);
    digest(header, ENTRY, NULL, 0, chain);
}

/* The check of an entry by itself: the first 8 bytes of the digest of what comes before it. */
static void check_of(const uint8_t bytes[ENTRY], uint8_t check[8])
{
    uint8_t whole[DIGEST];

    digest(bytes, CHECK_AT, NULL, 0, whole);
    memcpy(check, whole, 8);
}

void write_entry(struct entry *entry, const uint8_t before[DIGEST], uint8_t bytes[ENTRY])
{
    memset(bytes, 0, ENTRY);
    store_number(bytes + PLACE_AT, 8, entry->place);
    store_number(bytes + BEFORE_AT, 4, entry->before);
    store_number(bytes + AFTER_AT, 4, entry->after);
    store_number(bytes + TYPE_AT, 1, entry->type);
    store_number(bytes + LENGTH_AT, 1, entry->length);
    memcpy(bytes + RECORD_AT, entry->record, entry->length);
    for (size_t place = 0; place < YORDZEPA_ANSWER; place++)
        store_number(bytes + ANSWER_AT + 8 * place, 8, entry->answer[place]);
    store_number(bytes + SUM_AT, 8, entry->sum);
    check_of(bytes, bytes + CHECK_AT);
    digest(before, DIGEST, bytes, CHAIN_AT, entry->chain);
    memcpy(bytes + CHAIN_AT, entry->chain, DIGEST);
}

static int is_zero(const uint8_t *bytes, size_t length)
{
    while (length && !*bytes) {
        bytes++;
        length--;
    }
    return length == 0;
}

int is_blank(const uint8_t bytes[ENTRY])
{
    return is_zero(bytes, ENTRY);
}

/* A call has a whole record of a known kind, a broken one has anything else but nothing. */
static int is_typed(const struct entry *entry)
{
    int is_record = entry->length > 0 && record_length(entry->record) == entry->length;

    return entry->length > 0 && (entry->type == CALL ? is_record : entry->type == BROKEN &&
                                                                       !is_record);
}

const char *read_entry(const uint8_t bytes[ENTRY], struct entry *entry)
{
    uint8_t check[8];

    memset(entry, 0, sizeof *entry);
    entry->place = load_number(bytes + PLACE_AT, 8);
    entry->before = load_number(bytes + BEFORE_AT, 4);
    entry->after = load_number(bytes + AFTER_AT, 4);
    entry->type = bytes[TYPE_AT];
    entry->length = bytes[LENGTH_AT];
    for (size_t place = 0; place < YORDZEPA_ANSWER; place++)
        entry->answer[place] = load_number(bytes + ANSWER_AT + 8 * place, 8);
    entry->sum = load_number(bytes + SUM_AT, 8);
    memcpy(entry->chain, bytes + CHAIN_AT, DIGEST);
    check_of(bytes, check);
    if (memcmp(check, bytes + CHECK_AT, sizeof check) != 0)
        return is_blank(bytes) ? "its bytes are all 0" : "its checksum is wrong";
    if (entry->length > YORDZEPA_LONGEST_RECORD ||
        !is_zero(bytes + RECORD_AT + entry->length, RECORD_ROOM - entry->length))
        return "it has no record";
    memcpy(entry->record, bytes + RECORD_AT, entry->length);
    return is_typed(entry) ? NULL : "its record is not of its type";
}

const char *follows(const uint8_t bytes[ENTRY], const struct entry *entry, uint64_t place,
                    const uint8_t before[DIGEST])
{
    uint8_t chain[DIGEST];

    if (entry->place != place)
        return "it has the number of another place: an entry was removed or moved";
    digest(before, DIGEST, bytes, CHAIN_AT, chain);
    return memcmp(chain, entry->chain, DIGEST) == 0
               ? NULL : "its chain is wrong: it or an entry before it was changed";
}

/* ---- The file ---- */

static int lock(struct journal *journal, int to_load)
{
    if (flock(journal->file, (to_load ? LOCK_EX : LOCK_SH) | LOCK_NB) == 0)
        return DONE;
    if (errno == EWOULDBLOCK)
        complain("%s is in use by another yordzepa; wait until it has ended", journal->path);
    else
        complain_of_file("lock", journal->path);
    return errno == EWOULDBLOCK ? IN_USE : SYSTEM;
}

static int measure(struct journal *journal)
{
    struct stat facts;

    if (fstat(journal->file, &facts) != 0) {
        complain_of_file("look at", journal->path);
        return SYSTEM;
    }
    if (!S_ISREG(facts.st_mode)) {
        complain("%s is no plain file; give the book's path, the journal stands beside it",
                 journal->path);
        return SYSTEM;
    }
    journal->length = (uint64_t)facts.st_size;
    journal->places = journal->length < ENTRY ? 0 : journal->length / ENTRY - 1;
    return DONE;
}

/* A new journal, or one whose header was never flushed: no call was acknowledged from it. */
static int make_header(struct journal *journal)
{
    uint8_t header[ENTRY];

    journal_header(header);
    if (ftruncate(journal->file, 0) != 0 || lseek(journal->file, 0, SEEK_SET) < 0 ||
        write_fully(journal->file, header, ENTRY) != 0 || fsync(journal->file) != 0) {
        complain_of_file("write", journal->path);
        return SYSTEM;
    }
    return measure(journal);
}

/* Whether the file is the beginning of a header, or zeros that were to become one. */
static int is_begun(const uint8_t *bytes, const uint8_t header[ENTRY], size_t length)
{
    return memcmp(bytes, header, length) == 0 || is_zero(bytes, length);
}

static int check_header(struct journal *journal, int to_load, int may_make, int *is_new)
{
    uint8_t header[ENTRY], bytes[ENTRY] = {0};
    size_t length = journal->length < ENTRY ? (size_t)journal->length : ENTRY;
    ssize_t count = pread(journal->file, bytes, length, 0);

    journal_header(header);
    if (count < 0 || (size_t)count != length) {
        complain_of_file("read", journal->path);
        return SYSTEM;
    }
    *is_new = may_make && journal->length <= ENTRY && is_begun(bytes, header, length) &&
              (length < ENTRY || is_zero(bytes, length));
    if (*is_new && to_load)
        return make_header(journal);
    if (*is_new || memcmp(bytes, header, ENTRY) == 0)
        return DONE;
    complain("%s does not begin as a journal: its header is damaged; put back the journal that "
             "belongs to the book", journal->path);
    return DAMAGED;
}

int open_journal(struct journal *journal, const char *path, int to_load, int may_make, int *is_new)
{
    int way = to_load ? O_RDWR | O_CLOEXEC | (may_make ? O_CREAT : 0) : O_RDONLY | O_CLOEXEC;
    int status;

    journal->path = path;
    journal->file = open(path, way, 0666);
    if (journal->file < 0) {
        complain_of_file("open", path);
        return SYSTEM;
    }
    status = lock(journal, to_load);
    if (status == DONE)
        status = measure(journal);
    if (status == DONE)
        status = check_header(journal, to_load, may_make, is_new);
    if (status != DONE)
        close_journal(journal);
    return status;
}

void close_journal(struct journal *journal)
{
    if (journal->file >= 0)
        close(journal->file);
    journal->file = -1;
}

int read_places(const struct journal *journal, uint64_t place, size_t count, uint8_t *bytes)
{
    size_t done = 0, length = count * ENTRY;

    while (done < length) {
        ssize_t got = pread(journal->file, bytes + done, length - done,
                            (off_t)(place * ENTRY + done));
        if (got == 0)
            errno = EIO;
        if (got == 0 || (got < 0 && errno != EINTR))
            return -1;
        if (got > 0)
            done += (size_t)got;
    }
    return 0;
}

int flush_journal(const struct journal *journal)
{
    int result;

    do
        result = fdatasync(journal->file);
    while (result != 0 && errno == EINTR);
    return result;
}

int cut_journal(struct journal *journal, uint64_t place)
{
    uint64_t length = (place + 1) * ENTRY;

    if (ftruncate(journal->file, (off_t)length) != 0 || flush_journal(journal) != 0)
        return -1;
    journal->length = length;
    journal->places = place;
    return 0;
}

int append_places(struct journal *journal, const uint8_t *bytes, size_t count)
{
    int kept;

    if (lseek(journal->file, (off_t)journal->length, SEEK_SET) >= 0 &&
        write_fully(journal->file, bytes, count * ENTRY) == 0 && flush_journal(journal) == 0) {
        journal->length += count * ENTRY;
        journal->places += count;
        return 0;
    }
    /* What was written of the batch goes; if that fails too, the next start does it. */
    kept = errno;
    cut_journal(journal, journal->places);
    errno = kept;
    return -1;
}

/* ---- The walk ---- */

void begin_walk(struct walk *walk, const struct journal *journal, uint64_t after,
                const uint8_t chain[DIGEST])
{
    walk->journal = journal;
    walk->place = after;
    memcpy(walk->chain, chain, DIGEST);
    walk->batch_done = 0;
    walk->batch_left = 0;
    walk->ahead = allocate(AHEAD * ENTRY);
    walk->ahead_place = 0;
    walk->ahead_count = 0;
}

void end_walk(struct walk *walk)
{
    free(walk->ahead);
    walk->ahead = NULL;
}

static int read_ahead(struct walk *walk, uint64_t place)
{
    uint64_t left = walk->journal->places - place + 1;

    if (place >= walk->ahead_place && place - walk->ahead_place < walk->ahead_count)
        return 0;
    walk->ahead_place = place;
    walk->ahead_count = left < AHEAD ? (size_t)left : AHEAD;
    return read_places(walk->journal, place, walk->ahead_count, walk->ahead);
}

const uint8_t *walked_bytes(const struct walk *walk)
{
    return walk->ahead + (walk->place - walk->ahead_place) * ENTRY;
}

/* NULL, or why the entry is not the next one of the batch that the walk is in, or of a new one. */
static const char *continues(struct walk *walk, const struct entry *entry)
{
    uint64_t before = walk->batch_left ? walk->batch_done : 0;

    if (entry->before != before || (walk->batch_left && entry->after != walk->batch_left - 1))
        return "its place in its batch is wrong";
    walk->batch_done = before + 1;
    walk->batch_left = entry->after;
    return NULL;
}

enum step next_entry(struct walk *walk, struct entry *entry, const char **why)
{
    const uint8_t *bytes;

    if (walk->place >= walk->journal->places)
        return AT_END;
    if (read_ahead(walk, walk->place + 1) != 0)
        return UNREADABLE;
    walk->place++;
    bytes = walked_bytes(walk);
    *why = read_entry(bytes, entry);
    if (!*why)
        *why = follows(bytes, entry, walk->place, walk->chain);
    if (!*why)
        *why = continues(walk, entry);
    if (*why)
        return WRONG;
    memcpy(walk->chain, entry->chain, DIGEST);
    return WALKED;
}

/*
 * An entry never straddles two sectors of a disk, so a crash leaves it whole, blank or missing. An
 * entry of a later batch shows that the one before it had been flushed.
 */
int is_torn(const struct journal *journal, uint64_t first)
{
    for (uint64_t place = first; place <= journal->places; place++) {
        uint8_t bytes[ENTRY];
        struct entry entry;
        if (read_places(journal, place, 1, bytes) != 0)
            return -1;
        if (!is_blank(bytes) && (read_entry(bytes, &entry) || entry.place != place ||
                                 place - entry.before != first))
            return 0;
    }
    return 1;
}
