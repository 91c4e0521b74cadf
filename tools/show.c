/*
 * show: what stands in a book, as tables. What the library reads, it reads; the rest is taken from
 * the book's bytes as docs/LAYOUT.md has them.
 */
#define _POSIX_C_SOURCE 200809L
#include <inttypes.h>
#include <stdio.h>
#include <stdlib.h>
#include <string.h>
#include <sys/stat.h>

#include "dates.h"
#include "kinds.h"
#include "layout.h"
#include "options.h"
#include "store.h"
#include "table.h"
#include "tool.h"

static const char help[] =
    "usage: yordzepa show [--csv] BOOK [TABLE ..]\n"
    "\n"
    "Prints a book's tables: participants, securities, baskets, accounts, requests, exposures,\n"
    "positions; all of them, or those named. The book is the one at the journal's end. Nominals\n"
    "are in whole euros, amounts and values in cents. A bare book of 49,152 bytes, as a host lends\n"
    "it, can be shown too.\n"
    "\n"
    "  -c, --csv   one table as CSV, with its headings\n";

/* ---- Cells ---- */

static void add_day(struct table *table, uint64_t day)
{
    char text[DAY_TEXT];

    add_text(table, day_text(day, text));
}

static void add_closing(struct table *table, uint64_t day)
{
    if (day)
        add_day(table, day);
    else
        add_text(table, "open");
}

static void add_yes(struct table *table, uint64_t value)
{
    add_text(table, value ? "yes" : "no");
}

/* The places of the bits that are 1, with spaces between. */
static void add_bits(struct table *table, uint64_t bits)
{
    char text[256] = "none";
    size_t used = 0;

    for (unsigned bit = 0; bit < 64; bit++)
        if (bits >> bit & 1)
            used += (size_t)snprintf(text + used, sizeof text - used, "%s%u", used ? " " : "", bit);
    add_text(table, text);
}

static void add_mode(struct table *table, uint64_t mode)
{
    static const char *const names[] = {"-", "automatic", "list", "by-hand"};

    add_text(table, names[mode < 4 ? mode : 0]);
}

/* ---- Values ---- */

static uint64_t value_of(const uint8_t *book, size_t security, uint64_t nominal)
{
    return valuation_value(nominal, number_in(book, PRICES, security),
                           number_in(book, HAIRCUTS, security)).value;
}

static uint64_t age_of(const uint8_t *book, size_t security)
{
    return calendar_price_age(number_in(book, QUOTES, security), number_in(book, TODAY, 0)).value;
}

static int is_eligible(const uint8_t *book, size_t security, size_t basket)
{
    uint64_t lot = number_in(book, LOTS, security);

    return lot && number_in(book, MAPS, basket) >> security & 1 &&
           age_of(book, security) <= number_in(book, AGES, basket) &&
           value_of(book, security, lot) > 0;
}

/* The nominal that a position has of a security, by the library's read. */
static uint64_t position_in(const uint8_t *book, size_t exposure, size_t security)
{
    uint64_t answer[YORDZEPA_NOMINAL_ANSWER];

    if (!number_in(book, LOTS, security))
        return 0;
    reads_position(book, YORDZEPA_BOOK, exposure, security, answer);
    return answer[1];
}

static uint64_t position_value(const uint8_t *book, size_t exposure)
{
    uint64_t sum = 0;

    for (size_t security = 0; security < SECURITIES; security++) {
        uint64_t nominal = position_in(book, exposure, security);
        sum += nominal ? value_of(book, security, nominal) : 0;
    }
    return sum;
}

/* ---- Tables ---- */

static void show_participants(const uint8_t *book, int as_csv)
{
    static const char *const headings[] = {">participant", "mode", "partial", "list",
                                           "next mode", "next partial", "next list", NULL};
    struct table table;

    begin_table(&table, "participants", headings);
    for (size_t row = 0; row < PARTICIPANTS; row++) {
        uint64_t waiting = number_in(book, WAITING_MODES, row);
        if (!number_in(book, MODES, row))
            continue;
        add_number(&table, row);
        add_mode(&table, number_in(book, MODES, row));
        add_yes(&table, number_in(book, PARTIALS, row));
        add_bits(&table, number_in(book, LISTS, row));
        add_mode(&table, waiting);
        if (waiting) {
            add_yes(&table, number_in(book, WAITING_PARTIALS, row));
            add_bits(&table, number_in(book, WAITING_LISTS, row));
        } else {
            add_text(&table, "-");
            add_text(&table, "-");
        }
    }
    end_table(&table, as_csv);
}

static void show_securities(const uint8_t *book, int as_csv)
{
    static const char *const headings[] = {">security", ">lot", ">price", ">haircut", "quote day",
                                           ">age", ">value of a lot", NULL};
    struct table table;

    begin_table(&table, "securities", headings);
    for (size_t row = 0; row < SECURITIES; row++) {
        if (!number_in(book, LOTS, row))
            continue;
        add_number(&table, row);
        add_number(&table, number_in(book, LOTS, row));
        add_number(&table, number_in(book, PRICES, row));
        add_number(&table, number_in(book, HAIRCUTS, row));
        add_day(&table, number_in(book, QUOTES, row));
        add_number(&table, age_of(book, row));
        add_number(&table, value_of(book, row, number_in(book, LOTS, row)));
    }
    end_table(&table, as_csv);
}

static void show_baskets(const uint8_t *book, int as_csv)
{
    static const char *const headings[] = {">basket", ">greatest age", ">securities", ">lowest",
                                           "map", NULL};
    struct table table;

    begin_table(&table, "baskets", headings);
    for (size_t row = 0; row < BASKETS; row++) {
        uint64_t answer[YORDZEPA_BASKET_ANSWER];
        reads_basket(book, YORDZEPA_BOOK, row, answer);
        if (answer[0] != YORDZEPA_OK)
            continue;
        add_number(&table, row);
        add_number(&table, answer[2]);
        add_number(&table, answer[3]);
        add_number(&table, answer[4]);
        add_bits(&table, answer[1]);
    }
    end_table(&table, as_csv);
}

static void show_accounts(const uint8_t *book, int as_csv)
{
    static const char *const headings[] = {">participant", ">security", ">nominal", ">value",
                                           NULL};
    struct table table;

    begin_table(&table, "accounts", headings);
    for (size_t row = 0; row < PARTICIPANTS * SECURITIES; row++) {
        size_t participant = row / SECURITIES, security = row % SECURITIES;
        uint64_t answer[YORDZEPA_NOMINAL_ANSWER];
        if (!number_in(book, ACCOUNTS, row))
            continue;
        reads_account(book, YORDZEPA_BOOK, participant, security, answer);
        add_number(&table, participant);
        add_number(&table, security);
        add_number(&table, answer[1]);
        add_number(&table, value_of(book, security, answer[1]));
    }
    end_table(&table, as_csv);
}

/* A request in one word, from the library's read. */
static const char *state_of(const uint64_t answer[YORDZEPA_REQUEST_ANSWER])
{
    uint64_t amount = answer[6], settled = answer[10];

    if (settled == amount)
        return "settled";
    if (answer[14])
        return "ended";
    if (settled)
        return "settled in part";
    return answer[11] ? "paired" : "waits";
}

static void add_request(struct table *table, uint64_t number,
                        const uint64_t answer[YORDZEPA_REQUEST_ANSWER])
{
    int is_fop = answer[1] == 6;

    add_number(table, number);
    add_text(table, kind_name(answer[1]));
    add_text(table, words_of(SIDE)[answer[2] & 1]);
    add_number(table, answer[3]);
    add_number(table, answer[4]);
    if (is_fop)
        add_number(table, answer[5]);
    else
        add_text(table, "-");
    if (is_fop)
        add_text(table, "-");
    else
        add_number(table, answer[5]);
    add_number(table, answer[6]);
    add_day(table, answer[7]);
    if (is_fop)
        add_closing(table, answer[8]);
    else
        add_text(table, "-");
    add_number(table, answer[9]);
    add_text(table, state_of(answer));
    add_number(table, answer[10]);
    if (answer[11])
        add_number(table, answer[11]);
    else
        add_text(table, "none");
    add_yes(table, answer[12]);
    add_yes(table, answer[13]);
}

static int by_number(const void *left, const void *right)
{
    uint64_t a = *(const uint64_t *)left, b = *(const uint64_t *)right;

    return (a > b) - (a < b);
}

static void show_requests(const uint8_t *book, int as_csv)
{
    static const char *const headings[] = {
        ">request", "kind", "side", ">giver", ">taker", ">basket", ">exposure", ">amount",
        "settlement", "closing", ">reference", "state", ">settled", ">partner", "partial",
        "cancelled", NULL};
    struct table table;
    uint64_t numbers[REQUESTS];

    for (size_t row = 0; row < REQUESTS; row++)
        numbers[row] = number_in(book, NUMBERS, row);
    qsort(numbers, REQUESTS, sizeof *numbers, by_number);
    begin_table(&table, "requests", headings);
    for (size_t row = 0; row < REQUESTS; row++) {
        uint64_t answer[YORDZEPA_REQUEST_ANSWER];
        if (!numbers[row])
            continue;
        reads_request(book, YORDZEPA_BOOK, numbers[row], answer);
        if (answer[0] == YORDZEPA_OK)
            add_request(&table, numbers[row], answer);
    }
    end_table(&table, as_csv);
}

/* What a position is worth of an amount, in percent with two places, rounded down. */
static void add_coverage(struct table *table, uint64_t value, uint64_t amount)
{
    char text[48];
    uint64_t part = amount ? value * 10000 / amount : 0;

    snprintf(text, sizeof text, "%" PRIu64 ".%02" PRIu64 "%%", part / 100, part % 100);
    add_text(table, amount ? text : "-");
}

static void show_exposures(const uint8_t *book, int as_csv)
{
    static const char *const headings[] = {">exposure", ">giver", ">taker", ">basket", "closing",
                                           ">amount", ">value", ">coverage", ">shortfall", NULL};
    struct table table;

    begin_table(&table, "exposures", headings);
    for (size_t row = 0; row < EXPOSURE_ROWS; row++) {
        uint64_t answer[YORDZEPA_EXPOSURE_ANSWER], value;
        reads_exposure(book, YORDZEPA_BOOK, row, answer);
        if (answer[0] != YORDZEPA_OK)
            continue;
        value = position_value(book, row);
        add_number(&table, row);
        add_number(&table, answer[1]);
        add_number(&table, answer[2]);
        add_number(&table, answer[3]);
        add_closing(&table, answer[4]);
        add_number(&table, answer[5]);
        add_number(&table, value);
        add_coverage(&table, value, answer[5]);
        add_number(&table, value < answer[5] ? answer[5] - value : 0);
    }
    end_table(&table, as_csv);
}

static void show_positions(const uint8_t *book, int as_csv)
{
    static const char *const headings[] = {">exposure", ">security", ">nominal", ">value",
                                           "eligible", NULL};
    struct table table;

    begin_table(&table, "positions", headings);
    for (size_t row = 0; row < EXPOSURE_ROWS * SECURITIES; row++) {
        size_t exposure = row / SECURITIES, security = row % SECURITIES;
        uint64_t nominal;
        if (!number_in(book, POSITIONS, row))
            continue;
        nominal = position_in(book, exposure, security);
        add_number(&table, exposure);
        add_number(&table, security);
        add_number(&table, nominal);
        add_number(&table, value_of(book, security, nominal));
        add_yes(&table, (uint64_t)is_eligible(book, security,
                                              number_in(book, EXPOSURE_BASKETS, exposure)));
    }
    end_table(&table, as_csv);
}

/* ---- The whole ---- */

struct part {
    const char *name;
    void (*show)(const uint8_t *book, int as_csv);
};

static const struct part parts[] = {
    {"participants", show_participants}, {"securities", show_securities},
    {"baskets", show_baskets},           {"accounts", show_accounts},
    {"requests", show_requests},         {"exposures", show_exposures},
    {"positions", show_positions},
};

enum { PARTS = sizeof parts / sizeof *parts };

static const struct part *part_named(const char *name)
{
    for (size_t place = 0; place < PARTS; place++)
        if (strcmp(parts[place].name, name) == 0)
            return &parts[place];
    complain("'%s' is no table; there are participants, securities, baskets, accounts, requests, "
             "exposures, positions", name);
    return NULL;
}

static void print_head(const char *path, const struct store *store)
{
    char day[DAY_TEXT];

    printf("%s: today is %s (day %" PRIu64 "), tolerance %" PRIu64 ", next request %" PRIu64,
           path, day_text(number_in(store->book, TODAY, 0), day),
           number_in(store->book, TODAY, 0), number_in(store->book, TOLERANCE, 0),
           number_in(store->book, NEXT_NUMBER, 0));
    if (store->journal.file >= 0)
        printf(", place %" PRIu64, store->journal.places);
    printf("\n");
}

static int show_parts(const char *path, const struct store *store, int as_csv, int count,
                      char **names)
{
    if (!as_csv)
        print_head(path, store);
    for (int place = 0; place < (count ? count : PARTS); place++) {
        const struct part *part = count ? part_named(names[place]) : &parts[place];
        if (!as_csv)
            printf("\n");
        part->show(store->book, as_csv);
    }
    return end_output();
}

/* The library's word on the book: a read of any row tells 2 for a book that is not sound. */
static int check_sound(const struct store *store)
{
    uint64_t answer[YORDZEPA_EXPOSURE_ANSWER];

    reads_exposure(store->book, YORDZEPA_BOOK, 0, answer);
    if (answer[0] != YORDZEPA_UNSOUND)
        return DONE;
    complain("%s is not sound%s", store->book_path,
             store->journal.file >= 0 && number_in(store->book, NEXT_NUMBER, 0) == 0
                 ? ": it has no opening yet; load one" : "; see 'yordzepa audit'");
    return DAMAGED;
}

/* A bare book has no journal. */
static int read_bare(struct store *store, const char *path)
{
    struct bytes bytes = {0};
    int status = read_input(path, &bytes);

    memset(store, 0, sizeof *store);
    store->journal.file = -1;
    store->book_path = joined(path, "");
    if (status == DONE && bytes.length == YORDZEPA_BOOK)
        memcpy(store->book, bytes.data, YORDZEPA_BOOK);
    free(bytes.data);
    return status;
}

static int is_bare(const char *path)
{
    struct stat facts;

    return stat(path, &facts) == 0 && S_ISREG(facts.st_mode) && facts.st_size == YORDZEPA_BOOK;
}

static int show_book(const char *path, int as_csv, int count, char **names)
{
    struct store *store = allocate(sizeof *store);
    int status;

    if (is_bare(path)) {
        status = read_bare(store, path);
    } else {
        status = open_store(store, path, 0);
        if (status == DONE)
            status = reconcile(store, 0);
    }
    if (status == DONE)
        status = check_sound(store);
    if (status == DONE)
        status = show_parts(path, store, as_csv, count, names);
    close_store(store);
    free(store);
    return status;
}

int show_command(int count, char **words)
{
    int as_csv = 0;
    const struct choice choices[] = {{"csv", 'c', &as_csv, NULL}, {NULL, 0, NULL, NULL}};
    const struct usage usage = {help, choices, 1, 1 + PARTS};
    int status = read_words(&usage, &count, words);

    if (status != GO_ON)
        return status;
    for (int place = 1; place < count; place++)
        if (!part_named(words[place]))
            return USAGE;
    if (as_csv && count != 2) {
        complain("--csv prints one table; name it, as in 'yordzepa show --csv %s requests'",
                 words[0]);
        return USAGE;
    }
    return show_book(words[0], as_csv, count - 1, words + 1);
}
