/*
 * The journal: a header and entries of 128 bytes, only ever appended to. docs/TOOL.md has its form
 * byte by byte. The entry of place p stands at byte 128 p.
 */
#ifndef JOURNAL_H
#define JOURNAL_H

#include <stddef.h>
#include <stdint.h>

#include "digest.h"
#include "yordzepa.h"

enum { ENTRY = 128 };

/* What an entry is about. */
enum entry_type {
    /* A record that was given to the engine. */
    CALL = 1,
    /* What ended an input because it is no whole record of a known kind; the engine never saw it. */
    BROKEN = 2
};

struct entry {
    uint64_t place;
    /* How many entries of its batch come before and after it. */
    uint64_t before;
    uint64_t after;
    uint64_t type;
    uint64_t length;
    uint8_t record[YORDZEPA_LONGEST_RECORD];
    uint64_t answer[YORDZEPA_ANSWER];
    /* The sum of the book after the call. */
    uint64_t sum;
    /* The digest of this entry and, through the one before, of all entries up to it. */
    uint8_t chain[DIGEST];
};

struct journal {
    int file;
    const char *path;
    /* The length of the file. */
    uint64_t length;
    /* Whole entries in it. */
    uint64_t places;
};

/* The chain before the first entry, and the header that it is the digest of. */
void first_chain(uint8_t chain[DIGEST]);
void journal_header(uint8_t header[ENTRY]);

/* An entry's bytes; its chain is made from the one before. */
void write_entry(struct entry *entry, const uint8_t before[DIGEST], uint8_t bytes[ENTRY]);

/*
 * Reads an entry's bytes. NULL, or what is wrong with them taken by themselves; whether the entry
 * follows the one before it is told by follows().
 */
const char *read_entry(const uint8_t bytes[ENTRY], struct entry *entry);

/* NULL, or why an entry that is right in itself does not stand at this place after that chain. */
const char *follows(const uint8_t bytes[ENTRY], const struct entry *entry, uint64_t place,
                    const uint8_t before[DIGEST]);

/*
 * Opens the journal and locks it: to load, alone, making it if it is not there and may be made;
 * else to read. The status is DONE, or another with a message. *is_new tells of a new one.
 */
int open_journal(struct journal *journal, const char *path, int to_load, int may_make,
                 int *is_new);
void close_journal(struct journal *journal);

/* Reads the bytes of count entries from a place on. 0, or -1 with errno set. */
int read_places(const struct journal *journal, uint64_t place, size_t count, uint8_t *bytes);

/* Flushes what the journal has. 0, or -1 with errno set. */
int flush_journal(const struct journal *journal);

/* Appends entries and flushes them. 0, or -1 with errno set, and then nothing is appended. */
int append_places(struct journal *journal, const uint8_t *bytes, size_t count);

/* Cuts off all that comes after a place, and flushes. 0, or -1 with errno set. */
int cut_journal(struct journal *journal, uint64_t place);

/*
 * A walk along the journal, each entry read once and tested whether it follows.
 */
struct walk {
    const struct journal *journal;
    uint64_t place;
    uint8_t chain[DIGEST];
    /* Entries of the last one's batch up to it and after it; both 0 at the start. */
    uint64_t batch_done;
    uint64_t batch_left;
    /* Entries read ahead. */
    uint8_t *ahead;
    uint64_t ahead_place;
    size_t ahead_count;
};

void begin_walk(struct walk *walk, const struct journal *journal, uint64_t after,
                const uint8_t chain[DIGEST]);
void end_walk(struct walk *walk);

/* The outcomes of a step of a walk. */
enum step {
    /* An entry that follows. */
    WALKED,
    /* No whole entry comes any more. */
    AT_END,
    /* The next entry is wrong: *why tells. */
    WRONG,
    /* The file cannot be read. */
    UNREADABLE
};

enum step next_entry(struct walk *walk, struct entry *entry, const char **why);

/* The bytes of the entry that the walk's last step read; for next_entry's WRONG too. */
const uint8_t *walked_bytes(const struct walk *walk);

/* Whether an entry's bytes are all 0, as a crash leaves them that kept a file from growing whole. */
int is_blank(const uint8_t bytes[ENTRY]);

/*
 * Whether what stands from a place on, where no whole batch stands, is one that a crash cut: its
 * entries are whole, blank or missing, and nothing stands after it. 1, 0, or -1 with errno set.
 */
int is_torn(const struct journal *journal, uint64_t first);

#endif
