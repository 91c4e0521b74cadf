/*
 * The requests of a journal.
 */
#include "history.h"

#include <stdlib.h>
#include <string.h>

#include "kinds.h"
#include "layout.h"
#include "tool.h"

void begin_history(struct history *history)
{
    memset(history, 0, sizeof *history);
    history->slot_count = 1024;
    history->slots = allocate(history->slot_count * sizeof *history->slots);
    memset(history->slots, 0, history->slot_count * sizeof *history->slots);
}

void end_history(struct history *history)
{
    free(history->list);
    free(history->slots);
}

/* ---- Equal requests ---- */

static int is_equal(const struct request *left, const struct request *right)
{
    return left->kind == right->kind && left->side == right->side &&
           memcmp(left->key, right->key, sizeof left->key) == 0;
}

static size_t start_of(const struct history *history, const struct request *request)
{
    uint64_t sum = request->kind * 2 + request->side;

    for (size_t place = 0; place < sizeof request->key / sizeof *request->key; place++)
        sum = (sum ^ request->key[place]) * UINT64_C(0x9e3779b97f4a7c15) + (sum >> 29);
    return (size_t)(sum >> 20) & (history->slot_count - 1);
}

/* The slot of the requests equal to one of the list: theirs, or a free one. */
static size_t *slot_of(struct history *history, const struct request *request)
{
    size_t slot = start_of(history, request);

    while (history->slots[slot] && !is_equal(&history->list[history->slots[slot] - 1], request))
        slot = (slot + 1) & (history->slot_count - 1);
    return &history->slots[slot];
}

static void forget_slots(struct history *history)
{
    memset(history->slots, 0, history->slot_count * sizeof *history->slots);
    history->slots_used = 0;
}

/* More slots when half of them are used; each kind of request keeps its last one. */
static void widen_slots(struct history *history)
{
    if (history->slots_used * 2 < history->slot_count)
        return;
    history->slot_count *= 2;
    history->slots = allocate_again(history->slots, history->slot_count * sizeof *history->slots);
    forget_slots(history);
    for (size_t place = history->opening; place < history->count; place++) {
        size_t *slot = slot_of(history, &history->list[place]);
        history->slots_used += *slot == 0;
        *slot = place + 1;
    }
}

/* ---- The list ---- */

static struct request *add_request(struct history *history, const struct request *request)
{
    size_t *slot;

    if (history->count == history->room) {
        history->room = history->room ? history->room * 2 : 1024;
        history->list = allocate_again(history->list, history->room * sizeof *history->list);
    }
    history->list[history->count] = *request;
    slot = slot_of(history, request);
    history->slots_used += *slot == 0;
    history->list[history->count].earlier = *slot;
    *slot = ++history->count;
    widen_slots(history);
    return &history->list[history->count - 1];
}

const struct request *request_numbered(const struct history *history, uint64_t number)
{
    uint64_t count = history->count - history->opening;

    return number >= 1 && number <= count ? &history->list[history->opening + number - 1] : NULL;
}

const struct request *earlier_equal(const struct history *history, const struct request *request)
{
    return request->earlier ? &history->list[request->earlier - 1] : NULL;
}

/* ---- Calls ---- */

static void set_fate(struct history *history, uint64_t number, enum fate fate, uint64_t place,
                     uint64_t partner)
{
    struct request *request = &history->list[history->opening + number - 1];

    request->fate = fate;
    request->fate_place = place;
    request->partner = partner;
}

/* The requests that waited and do so no more leave the list of those that wait. */
static void sift_waiting(struct history *history)
{
    size_t kept = 0;

    for (size_t place = 0; place < history->waiting_count; place++)
        if (history->list[history->waiting[place]].fate == WAITS)
            history->waiting[kept++] = history->waiting[place];
    history->waiting_count = kept;
}

static struct request from_record(const struct entry *entry)
{
    struct record record = plain_fields(entry->record);
    int is_fop = record.kind == 6;
    struct request request = {.place = entry->place, .kind = record.kind,
                              .side = record.fields[0]};

    memcpy(request.key, record.fields + 1, 5 * sizeof *request.key);
    request.key[5] = is_fop ? record.fields[6] : 0;
    request.reference = record.fields[is_fop ? 7 : 6];
    return request;
}

/* A FOP or a return: A is its number, B its partner's; a higher B was made for it. */
static const struct request *note_request(struct history *history, const struct entry *entry)
{
    uint64_t number = entry->answer[1], partner = entry->answer[2];
    struct request request = from_record(entry);

    request.number = number;
    add_request(history, &request);
    if (!partner) {
        if (history->waiting_count < sizeof history->waiting / sizeof *history->waiting)
            history->waiting[history->waiting_count++] = history->count - 1;
        return NULL;
    }
    if (partner > number) {
        request.number = partner;
        request.side = 1;
        request.is_made = 1;
        add_request(history, &request);
    }
    return request_numbered(history, number);
}

/* After a cancel or a change of day: which of those that wait have ended or gone. */
static void note_ends(struct history *history, const struct entry *entry, const uint8_t *book)
{
    for (size_t place = 0; place < history->waiting_count; place++) {
        const struct request *request = &history->list[history->waiting[place]];
        size_t row = 0;
        while (row < REQUESTS && number_in(book, NUMBERS, row) != request->number)
            row++;
        if (row == REQUESTS)
            set_fate(history, request->number, DROPPED, entry->place, 0);
        else if (number_in(book, ENDS, row))
            set_fate(history, request->number, CANCELLED, entry->place, 0);
    }
    sift_waiting(history);
}

/* An opening: the numbers begin anew, and no earlier request is equal to a later one. */
static void note_opening(struct history *history)
{
    history->opening = history->count;
    history->waiting_count = 0;
    forget_slots(history);
}

const struct request *note_call(struct history *history, const struct entry *entry,
                                const uint8_t *book)
{
    const struct request *paired = NULL;

    switch (entry->record[0]) {
    case 0:
        note_opening(history);
        break;
    case 6:
    case 7:
        paired = note_request(history, entry);
        if (paired) {
            set_fate(history, paired->number, PAIRED, entry->place, entry->answer[2]);
            set_fate(history, entry->answer[2], PAIRED, entry->place, paired->number);
            sift_waiting(history);
        }
        break;
    case 8:
    case 12:
        note_ends(history, entry, book);
        break;
    default:
        break;
    }
    return paired;
}
