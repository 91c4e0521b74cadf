/*
 * A minimal host: each part of the library asked once or twice, one line printed for each answer.
 *
 *   cc -std=c11 -Iinclude examples/host.c build/libyordzepa.a -o host
 *   cc -std=c11 examples/host.c $(pkg-config --cflags --libs yordzepa) -o host     (installed)
 */
#include <inttypes.h>
#include <stdio.h>

#include "yordzepa.h"

/* Puts a security into the table's four columns. */
static void set_up(uint64_t columns[YORDZEPA_COLUMNS * YORDZEPA_SECURITIES], unsigned security,
                   uint64_t lot, uint64_t price, uint64_t haircut, uint64_t quote)
{
    columns[security] = lot;
    columns[YORDZEPA_SECURITIES + security] = price;
    columns[2 * YORDZEPA_SECURITIES + security] = haircut;
    columns[3 * YORDZEPA_SECURITIES + security] = quote;
}

static void calendar(void)
{
    /* Day 86 is the Thursday before Easter 2002, day 91 the Tuesday after. */
    struct yordzepa_answer answer = calendar_is_open(86);
    printf("day 86: code %" PRIu64 ", open %" PRIu64 "\n", answer.code, answer.value);
    answer = calendar_is_open(87);
    printf("day 87: code %" PRIu64 ", open %" PRIu64 "\n", answer.code, answer.value);
    answer = calendar_is_open(YORDZEPA_LAST_DAY + 1);
    printf("past the last day: code %" PRIu64 "\n", answer.code);
    answer = calendar_next_open_day(86);
    printf("next open day after 86: code %" PRIu64 ", day %" PRIu64 "\n", answer.code, answer.value);
    answer = calendar_price_age(86, 91);
    printf("age on 91 of a quote of 86: code %" PRIu64 ", %" PRIu64 " open day\n", answer.code,
           answer.value);
}

static void valuation(void)
{
    struct yordzepa_answer answer = valuation_value(1000, 1000000, 500);
    printf("value of 1000 at par, haircut 500: code %" PRIu64 ", %" PRIu64 " cents\n", answer.code,
           answer.value);
}

static void baskets(void)
{
    struct yordzepa_report report = baskets_report(0x8014);
    printf("basket of map 0x8014: code %" PRIu64 ", %" PRIu64 " securities, the lowest %" PRIu64 "\n",
           report.code, report.count, report.lowest);
}

static void picking(void)
{
    uint64_t columns[YORDZEPA_COLUMNS * YORDZEPA_SECURITIES] = {0};
    uint64_t account[YORDZEPA_SECURITIES] = {0};
    struct yordzepa_pick pick;
    struct yordzepa_free freed;

    set_up(columns, 2, 1000, 1000000, 500, 86);
    set_up(columns, 4, 1000, 990000, 1000, 91);
    account[2] = 8000;
    account[4] = 50000;

    pick = picking_pick(account, columns, 0x8014, 5, 91, 1000000);
    printf("pick of 1000000 cents: code %" PRIu64 ", %" PRIu64 " cents in %" PRIu64
           " securities, %" PRIu64 " of security 2, %" PRIu64 " of security 4\n",
           pick.code, pick.value, pick.count, pick.nominals[2], pick.nominals[4]);

    /* The pick becomes the position; the exposure has fallen since. */
    freed = picking_free(pick.nominals, columns, 800000);
    printf("free down to 800000 cents: code %" PRIu64 ", %" PRIu64 " cents left, %" PRIu64
           " security gave back, %" PRIu64 " of security 4\n",
           freed.code, freed.left, freed.count, freed.nominals[4]);
}

static void records(void)
{
    /* A FOP: side, giver, taker, basket, amount, settlement, closing, reference. */
    const uint64_t fields[YORDZEPA_FIELDS] = {0, 1, 2, 0, 1000000, 91, 0, 7};
    uint8_t part[YORDZEPA_LONGEST_RECORD];
    uint64_t code = records_write(6, fields, part, sizeof part);
    struct yordzepa_reading reading;

    printf("FOP written: code %" PRIu64 ", bytes", code);
    for (size_t place = 0; place < sizeof part; place++)
        printf(" %02x", (unsigned)part[place]);
    printf("\n");

    reading = records_read(part, sizeof part);
    printf("FOP read: code %" PRIu64 ", kind %" PRIu64 ", amount %" PRIu64 ", reference %" PRIu64 "\n",
           reading.code, reading.kind, reading.fields[4], reading.fields[7]);
    reading = records_read(part, sizeof part - 1);
    printf("FOP cut short: code %" PRIu64 "\n", reading.code);
}

/* One record for the book: its bytes are written by the proved writer, then the book is called. */
static void call(uint8_t book[YORDZEPA_BOOK], unsigned kind, const uint64_t fields[YORDZEPA_FIELDS])
{
    static const size_t lengths[YORDZEPA_KINDS] = {9, 16, 8, 11, 7, 7, 29, 25, 6, 1, 1, 8, 1};
    uint8_t record[YORDZEPA_LONGEST_RECORD];
    uint64_t answer[YORDZEPA_ANSWER];

    if (records_write(kind, fields, record, lengths[kind]) != YORDZEPA_OK) {
        printf("record of kind %u: a field is out of its range\n", kind);
        return;
    }
    engine_call(book, YORDZEPA_BOOK, record, lengths[kind], answer);
    printf("kind %u: code %" PRIu64 ", A %" PRIu64 ", B %" PRIu64 ", M %" PRIu64 "\n", kind, answer[0],
           answer[1], answer[2], answer[3]);
}

static void the_book(void)
{
    static uint8_t book[YORDZEPA_BOOK];
    uint64_t exposure[YORDZEPA_EXPOSURE_ANSWER];
    uint64_t position[YORDZEPA_NOMINAL_ANSWER];

    call(book, 9, (uint64_t[YORDZEPA_FIELDS]){0});                          /* no opening yet */
    call(book, 0, (uint64_t[YORDZEPA_FIELDS]){1, 10000});                   /* opening on day 1 */
    call(book, 1, (uint64_t[YORDZEPA_FIELDS]){0, 1000, 1000000, 500, 1});   /* price */
    call(book, 2, (uint64_t[YORDZEPA_FIELDS]){1, 2, 0, 1});                 /* giver 1, by hand */
    call(book, 2, (uint64_t[YORDZEPA_FIELDS]){2, 0, 0, 1});                 /* taker 2, automatic */
    call(book, 3, (uint64_t[YORDZEPA_FIELDS]){0, 1, 5});                    /* basket */
    call(book, 4, (uint64_t[YORDZEPA_FIELDS]){1, 0, 100000});               /* deposit */
    call(book, 6, (uint64_t[YORDZEPA_FIELDS]){0, 1, 2, 0, 1000000, 1, 0, 7}); /* FOP, paired at once */
    call(book, 9, (uint64_t[YORDZEPA_FIELDS]){0});                          /* settle */

    reads_exposure(book, YORDZEPA_BOOK, 0, exposure);
    printf("exposure 0: code %" PRIu64 ", giver %" PRIu64 ", taker %" PRIu64 ", amount %" PRIu64 "\n",
           exposure[0], exposure[1], exposure[2], exposure[5]);
    reads_position(book, YORDZEPA_BOOK, 0, 0, position);
    printf("exposure 0 holds of security 0: code %" PRIu64 ", nominal %" PRIu64 "\n", position[0],
           position[1]);
}

int main(void)
{
    calendar();
    valuation();
    baskets();
    picking();
    records();
    the_book();
    return 0;
}
