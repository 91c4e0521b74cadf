/*
 * pairs: for each pair its two requests, and why the earlier equal ones were passed over.
 */
#include <errno.h>
#include <inttypes.h>
#include <stdio.h>
#include <stdlib.h>
#include <string.h>

#include "dates.h"
#include "history.h"
#include "kinds.h"
#include "options.h"
#include "progress.h"
#include "store.h"
#include "tool.h"

static const char help[] =
    "usage: yordzepa pairs [--csv] [--request=NUMBER] [--reference=NUMBER] BOOK\n"
    "\n"
    "Answers 'why was my deal paired with that one?' from the journal. For each pair: its two\n"
    "requests, the places where they arrived, their references, and the earlier requests that were\n"
    "equal in all fields but side and reference, with what had become of each of them. Requests\n"
    "from before an opening are not compared with later ones.\n"
    "\n"
    "  -r, --request=NUMBER     only this request, paired or not\n"
    "  -f, --reference=NUMBER   only requests with this reference, paired or not\n"
    "  -c, --csv                as CSV, a line for each request that plays a part\n";

struct question {
    int as_csv;
    int has_number;
    uint64_t number;
    int has_reference;
    uint64_t reference;
    /* How much was printed. */
    uint64_t answers;
};

static int is_asked(const struct question *question, const struct request *request)
{
    return (!question->has_number || request->number == question->number) &&
           (!question->has_reference || request->reference == question->reference);
}

/* ---- Words ---- */

static void describe(const struct request *request)
{
    char settlement[DAY_TEXT], closing[DAY_TEXT];

    printf("%s, giver %" PRIu64 ", taker %" PRIu64 ", %s %" PRIu64 ", amount %" PRIu64
           ", settlement %s", kind_name(request->kind), request->key[0], request->key[1],
           request->kind == 6 ? "basket" : "exposure", request->key[2], request->key[3],
           day_text(request->key[4], settlement));
    if (request->kind == 6)
        printf(", closing %s", request->key[5] ? day_text(request->key[5], closing) : "open");
    printf("\n");
}

/* What had become of a request when a pair was made without it. */
static const char *fate_text(const struct request *request, int automatic, char text[200])
{
    switch (request->fate) {
    case PAIRED:
        snprintf(text, 200, "paired with request %" PRIu64 " at place %" PRIu64, request->partner,
                 request->fate_place);
        break;
    case CANCELLED:
        snprintf(text, 200, "cancelled at place %" PRIu64, request->fate_place);
        break;
    case DROPPED:
        snprintf(text, 200, "dropped by the change of day at place %" PRIu64,
                 request->fate_place);
        break;
    default:
        snprintf(text, 200, "%s", automatic
                     ? "waits; the taker now accepts the giver automatically, so a new taker "
                       "request was made for the giver's"
                     : "waits");
    }
    return text;
}

/* Why a request of a pair is in it. */
static const char *part_text(const struct request *request, const struct request *partner,
                             char text[200])
{
    if (request->is_made)
        snprintf(text, 200, "made for request %" PRIu64 ", since taker %" PRIu64 " accepts giver "
                 "%" PRIu64 " automatically", partner->number, request->key[1], request->key[0]);
    else if (partner->is_made || request->number > partner->number)
        snprintf(text, 200, "entered, and was paired at once");
    else
        snprintf(text, 200, "the earliest equal request that waited");
    return text;
}

static void print_request(const struct question *question, const struct request *request,
                          uint64_t pairing, const char *part, const char *reason)
{
    const char *side = words_of(SIDE)[request->side & 1];

    if (question->as_csv)
        printf("%" PRIu64 ",%s,%" PRIu64 ",%s,%" PRIu64 ",%" PRIu64 ",\"%s\"\n", pairing, part,
               request->number, side, request->place, request->reference, reason);
    else
        printf("  %-11s  %s request %" PRIu64 ", place %" PRIu64 ", reference %" PRIu64 ": %s\n",
               part, side, request->number, request->place, request->reference, reason);
}

/* ---- Pairs ---- */

/* The earlier requests equal to one of a pair, the first one first. */
static size_t print_earlier(const struct question *question, const struct history *history,
                            const struct request *paired, int automatic)
{
    const struct request *request = paired, **found = NULL;
    size_t count = 0, place;
    char text[200];

    while ((request = earlier_equal(history, request)))
        count++;
    found = allocate(count * sizeof *found);
    for (place = count, request = paired; place > 0; place--)
        found[place - 1] = request = earlier_equal(history, request);
    for (; place < count; place++)
        print_request(question, found[place], paired->fate_place, "passed over",
                      fate_text(found[place], automatic, text));
    free(found);
    return count;
}

static void print_pair(struct question *question, const struct history *history,
                       const struct request *entered)
{
    const struct request *partner = request_numbered(history, entered->partner);
    const struct request *giver = entered->side == 0 ? entered : partner;
    const struct request *taker = entered->side == 0 ? partner : entered;
    char text[200];
    size_t passed;

    if (!is_asked(question, giver) && !is_asked(question, taker))
        return;
    if (!question->as_csv) {
        printf("%splace %" PRIu64 ": requests %" PRIu64 " and %" PRIu64 " are a pair: ",
               question->answers ? "\n" : "", entered->fate_place, giver->number, taker->number);
        describe(entered);
    }
    question->answers++;
    print_request(question, giver, entered->fate_place, "paired", part_text(giver, taker, text));
    print_request(question, taker, entered->fate_place, "paired", part_text(taker, giver, text));
    passed = print_earlier(question, history, giver, partner->is_made);
    passed += print_earlier(question, history, taker, partner->is_made);
    if (!passed && !question->as_csv)
        printf("  %-11s  no earlier request was equal\n", "passed over");
}

/* A request that was asked for and has no partner. */
static void print_single(struct question *question, const struct request *request)
{
    char text[200];

    if (!question->as_csv) {
        printf("%splace %" PRIu64 ": request %" PRIu64 " has no partner: ",
               question->answers ? "\n" : "", request->place, request->number);
        describe(request);
    }
    question->answers++;
    print_request(question, request, 0, "single", fate_text(request, 0, text));
}

static void print_singles(struct question *question, const struct history *history)
{
    if (!question->has_number && !question->has_reference)
        return;
    for (size_t place = 0; place < history->count; place++)
        if (history->list[place].fate != PAIRED && is_asked(question, &history->list[place]))
            print_single(question, &history->list[place]);
}

/* ---- The whole ---- */

static int note_entry(struct question *question, const struct store *store,
                      struct history *history, const struct entry *entry, uint8_t *book)
{
    uint64_t answer[YORDZEPA_ANSWER];
    const struct request *paired;

    if (!replay(book, entry, answer)) {
        complain_of_answer(store, entry, answer);
        return DAMAGED;
    }
    if (entry->type != CALL || entry->answer[0] != YORDZEPA_OK)
        return DONE;
    paired = note_call(history, entry, book);
    if (paired)
        print_pair(question, history, paired);
    return DONE;
}

static int walk_pairs(struct question *question, const struct store *store,
                      struct history *history)
{
    uint8_t *book = allocate(YORDZEPA_BOOK), chain[DIGEST];
    struct progress progress;
    struct walk walk;
    struct entry entry;
    const char *why = NULL;
    enum step step;
    int status = DONE;

    memset(book, 0, YORDZEPA_BOOK);
    first_chain(chain);
    begin_walk(&walk, &store->journal, 0, chain);
    begin_progress(&progress, store->journal.places);
    while (status == DONE && (step = next_entry(&walk, &entry, &why)) == WALKED) {
        status = note_entry(question, store, history, &entry, book);
        show_progress(&progress, entry.place, entry.place);
    }
    end_progress(&progress);
    if (status == DONE && step != AT_END) {
        complain("%s, place %" PRIu64 ": %s; see 'yordzepa audit'", store->journal_path,
                 walk.place, step == WRONG ? why : strerror(errno));
        status = step == WRONG ? DAMAGED : SYSTEM;
    }
    end_walk(&walk);
    free(book);
    return status;
}

static int answer_question(struct question *question, const struct store *store)
{
    struct history history;
    int status;

    begin_history(&history);
    if (question->as_csv)
        printf("pairing place,part,request,side,arrival place,reference,reason\n");
    status = walk_pairs(question, store, &history);
    if (status == DONE)
        print_singles(question, &history);
    end_history(&history);
    if (status == DONE && !question->answers && (question->has_number || question->has_reference)) {
        complain("no request of %s has this number or reference", store->book_path);
        status = BAD_INPUT;
    }
    return status == DONE ? end_output() : status;
}

static int open_and_answer(struct question *question, const char *path)
{
    struct store *store = allocate(sizeof *store);
    int status = open_store(store, path, 0);

    if (status == DONE)
        status = reconcile(store, 0);
    if (status == DONE)
        status = answer_question(question, store);
    close_store(store);
    free(store);
    return status;
}

int pairs_command(int count, char **words)
{
    struct question question = {0};
    const char *number = NULL, *reference = NULL;
    const struct choice choices[] = {{"csv", 'c', &question.as_csv, NULL},
                                     {"request", 'r', NULL, &number},
                                     {"reference", 'f', NULL, &reference},
                                     {NULL, 0, NULL, NULL}};
    const struct usage usage = {help, choices, 1, 1};
    int status = read_words(&usage, &count, words);

    if (status == GO_ON)
        status = read_choice("request", number, 1, 999999999, &question.number);
    if (status == GO_ON)
        status = read_choice("reference", reference, 0, UINT64_MAX, &question.reference);
    if (status != GO_ON)
        return status;
    question.has_number = number != NULL;
    question.has_reference = reference != NULL;
    return open_and_answer(&question, words[0]);
}
