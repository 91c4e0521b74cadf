/*
 * The requests of a journal, one after the other: when each arrived, was paired, ended.
 */
#ifndef HISTORY_H
#define HISTORY_H

#include <stddef.h>
#include <stdint.h>

#include "journal.h"

/* What became of a request. */
enum fate { WAITS, PAIRED, CANCELLED, DROPPED };

struct request {
    uint64_t number;
    /* The place of the record that brought it. */
    uint64_t place;
    uint64_t kind;
    uint64_t side;
    /* All else that equal requests share: giver, taker, basket or exposure, amount, settlement,
     * closing. */
    uint64_t key[6];
    uint64_t reference;
    /* The taker request that was made for a giver's. */
    int is_made;
    enum fate fate;
    /* The place where it was paired, cancelled or dropped, and its partner. */
    uint64_t fate_place;
    uint64_t partner;
    /* The equal request of the same side before it, counted from 1 in the list; else 0. */
    size_t earlier;
};

struct history {
    struct request *list;
    size_t count;
    size_t room;
    /* Where the list stood at the last opening; request n is at opening + n - 1. */
    size_t opening;
    /* The requests that wait, by their place in the list. */
    size_t waiting[256];
    size_t waiting_count;
    /* For each kind, side and key the last request in the list, counted from 1; 0 is free. */
    size_t *slots;
    size_t slot_count;
    size_t slots_used;
};

void begin_history(struct history *history);
void end_history(struct history *history);

/* Takes an accepted call and the book after it. The request that was paired by it, or NULL. */
const struct request *note_call(struct history *history, const struct entry *entry,
                                const uint8_t *book);

/* A request of the last opening by its number. */
const struct request *request_numbered(const struct history *history, uint64_t number);

/* The equal request of the same side before this one, or NULL. */
const struct request *earlier_equal(const struct history *history, const struct request *request);

#endif
