/*
 * A host that lends every exported function heap blocks of exactly the sizes that the header names, on
 * valid, damaged and random input. It is built with AddressSanitizer and UndefinedBehaviorSanitizer.
 *
 * The proved libraries are not instrumented: the sanitizers see what this host does, its calls and the
 * structs it gets back, and the memcpy and memset that the libraries call (AddressSanitizer has its
 * own). What else the libraries read or write is caught by the inaccessible pages that tests/src/guarded.rs
 * puts around the memory lent in every comparison.
 *
 * It checks by itself that a refused call leaves the book and gives zeros, that no call changes the
 * record, and that no read changes the book; the right codes and books are the comparisons' matter.
 */
#include <stdio.h>
#include <stdlib.h>
#include <string.h>

#include "yordzepa.h"

enum { LONGEST = 40, ROUNDS = 40, CALLS = 600 };

static const size_t lengths[YORDZEPA_KINDS] = {9, 16, 8, 11, 7, 7, 29, 25, 6, 1, 1, 8, 1};

static uint64_t state = 0x9e3779b97f4a7c15u;
static unsigned long accepted, refused, counts[YORDZEPA_NOT_COVERED + 1];

static void demand(int holds, const char *what)
{
    if (!holds) {
        fprintf(stderr, "guard: %s\n", what);
        exit(1);
    }
}

/* Random numbers, the same on every run (xorshift64*). */
static uint64_t bits(void)
{
    state ^= state >> 12;
    state ^= state << 25;
    state ^= state >> 27;
    return state * 0x2545f4914f6cdd1du;
}

static uint64_t below(uint64_t end)
{
    return bits() % end;
}

/* A block of exactly this size with a copy of these bytes, or of random ones. */
static void *block(const void *bytes, size_t size)
{
    uint8_t *lent = malloc(size);

    demand(lent != NULL, "no memory");
    if (bytes && size > 0)
        memcpy(lent, bytes, size);
    for (size_t i = 0; !bytes && i < size; i++)
        lent[i] = (uint8_t)bits();
    return lent;
}

/* A call on a book of any length. */
static uint64_t call(uint8_t *book, size_t book_length, const uint8_t *bytes, size_t length)
{
    uint8_t *before = block(book, book_length);
    uint8_t *record = block(bytes, length);
    uint64_t *answer = malloc(YORDZEPA_ANSWER * sizeof *answer);
    uint64_t code;

    demand(answer != NULL, "no memory");
    engine_call(book, book_length, record, length, answer);
    code = answer[0];
    demand(code <= YORDZEPA_NOT_COVERED, "a code above 16");
    counts[code]++;
    demand(length == 0 || memcmp(record, bytes, length) == 0, "a call has changed the record");
    if (code != YORDZEPA_OK) {
        refused++;
        demand(answer[1] == 0 && answer[2] == 0 && answer[3] == 0, "a refusal with numbers");
        demand(book_length == 0 || memcmp(book, before, book_length) == 0, "a refusal has written");
    } else {
        accepted++;
    }
    free(answer);
    free(record);
    free(before);
    return code;
}

/* The five reads, each with an answer of its own length. */
static void ask(const uint8_t *book, size_t book_length, uint64_t first, uint64_t second)
{
    static const size_t numbers[] = {YORDZEPA_NOMINAL_ANSWER, YORDZEPA_NOMINAL_ANSWER,
                                     YORDZEPA_EXPOSURE_ANSWER, YORDZEPA_REQUEST_ANSWER,
                                     YORDZEPA_BASKET_ANSWER};
    uint8_t *lent = block(book, book_length);

    for (size_t which = 0; which < sizeof numbers / sizeof *numbers; which++) {
        uint64_t *answer = malloc(numbers[which] * sizeof *answer);

        demand(answer != NULL, "no memory");
        switch (which) {
        case 0: reads_account(lent, book_length, first, second, answer); break;
        case 1: reads_position(lent, book_length, first, second, answer); break;
        case 2: reads_exposure(lent, book_length, first, answer); break;
        case 3: reads_request(lent, book_length, first, answer); break;
        default: reads_basket(lent, book_length, first, answer); break;
        }
        demand(answer[0] <= YORDZEPA_UNKNOWN, "a read's code above 5");
        for (size_t i = 1; i < numbers[which]; i++)
            demand(answer[0] == YORDZEPA_OK || answer[i] == 0, "a refused read with numbers");
        free(answer);
    }
    demand(book_length == 0 || memcmp(lent, book, book_length) == 0, "a read has written");
    free(lent);
}

/* Writes a record of a kind into a block of its length and reads it back. The code. */
static uint64_t write_and_read(uint64_t kind, const uint64_t *values, uint8_t *bytes)
{
    size_t length = lengths[kind];
    uint64_t *fields = block(values, YORDZEPA_FIELDS * sizeof *values);
    uint8_t *part = block(NULL, length);
    uint64_t code = records_write(kind, fields, part, length);

    if (code == YORDZEPA_OK) {
        struct yordzepa_reading reading = records_read(part, length);

        demand(reading.code == YORDZEPA_OK && reading.kind == kind, "a record does not read back");
        demand(memcmp(reading.fields, fields, sizeof reading.fields) == 0, "other fields");
        memcpy(bytes, part, length);
    }
    free(part);
    free(fields);
    return code;
}

/* A legal record, small numbers, so that many are accepted. Its length. */
static size_t legal(uint64_t kind, uint64_t today, uint8_t *bytes)
{
    uint64_t giver = below(3), day = today + below(4), closing = below(2) ? 0 : day + below(9);
    uint64_t s = below(4), amount = 10000 * (1 + below(9)), number = below(60);
    const uint64_t values[YORDZEPA_KINDS][YORDZEPA_FIELDS] = {
        {1, 10000},
        {s, 100, 900000 + 50000 * below(5), 100 * below(5), today - below(2)},
        {giver, below(3), below(8), below(2)},
        {below(3), 1 + below(15), below(4)},
        {giver, s, 100 * (1 + below(30))},
        {giver, s, 100 * (1 + below(9))},
        {below(2), giver, (giver + 1) % 3, below(3), amount, day, closing, number},
        {below(2), giver, (giver + 1) % 3, below(4), amount, day, number},
        {giver, number},
        {0},
        {0},
        {giver, below(4), s, 100 * (1 + below(3))},
        {0},
    };

    demand(write_and_read(kind, values[kind], bytes) == YORDZEPA_OK, "a legal record was refused");
    return lengths[kind];
}

/* Opens a book and sets some of it up. */
static void set_up(uint8_t *book)
{
    uint8_t bytes[YORDZEPA_LONGEST_RECORD];
    size_t length = legal(0, 1, bytes);

    demand(call(book, YORDZEPA_BOOK, bytes, length) == YORDZEPA_OK, "an opening was refused");
    for (uint64_t kind = 1; kind <= 4; kind++)
        for (int i = 0; i < 20; i++) {
            length = legal(kind, 1, bytes);
            call(book, YORDZEPA_BOOK, bytes, length);
        }
}

/* A sound book, on which legal, cut, spoiled and random records follow each other. */
static void sound_books(void)
{
    static const uint8_t often[] = {1, 2, 4, 4, 5, 6, 6, 6, 6, 6, 7, 7, 8, 9, 9, 10, 11, 11};
    uint8_t bytes[LONGEST];

    for (int round = 0; round < ROUNDS; round++) {
        uint8_t *book = block(NULL, YORDZEPA_BOOK);

        set_up(book);
        for (int i = 0; i < CALLS; i++) {
            uint64_t today = (uint64_t)book[0] << 24 | book[1] << 16 | book[2] << 8 | book[3];
            uint64_t kind = below(30) ? often[below(sizeof often)] : 12;
            size_t length = legal(kind, today, bytes);

            switch (below(12)) {
            case 0: length = below(length + 1); break;
            case 1: bytes[below(length)] ^= (uint8_t)(1u << below(8)); break;
            case 2:
                length = below(LONGEST + 1);
                for (size_t place = 0; place < length; place++)
                    bytes[place] = (uint8_t)(bits() >> below(8));
                break;
            default: break;
            }
            call(book, YORDZEPA_BOOK, bytes, length);
            if (i % 20 == 0)
                ask(book, YORDZEPA_BOOK, below(70), below(70));
        }
        free(book);
    }
}

/* A busy book with changed bytes, books of other lengths, books of random bytes. */
static void damaged_books(void)
{
    uint8_t *book = block(NULL, YORDZEPA_BOOK);
    uint8_t bytes[LONGEST];

    set_up(book);
    for (int i = 0; i < 200; i++) {
        size_t length = legal(6, 1, bytes);

        call(book, YORDZEPA_BOOK, bytes, length);
        if (i % 50 == 49) {
            length = legal(9, 1, bytes);
            call(book, YORDZEPA_BOOK, bytes, length);
        }
    }
    for (int i = 0; i < 4000; i++) {
        uint8_t *damaged = block(book, YORDZEPA_BOOK);
        size_t length = legal(1 + below(YORDZEPA_KINDS - 1), 1, bytes);

        for (uint64_t burst = 1 + below(8), from = below(YORDZEPA_BOOK - 8); burst > 0; burst--)
            damaged[from + burst - 1] = (uint8_t)bits();
        call(damaged, YORDZEPA_BOOK, bytes, length);
        ask(damaged, YORDZEPA_BOOK, below(300), below(64));
        free(damaged);
    }
    for (size_t size = 0; size <= YORDZEPA_BOOK + 70; size++) {
        uint8_t *other;

        if (size == 71)
            size = YORDZEPA_BOOK - 70;
        if (size == YORDZEPA_BOOK)
            continue;
        other = block(size < YORDZEPA_BOOK ? book : NULL, size);
        for (uint64_t kind = 0; kind < YORDZEPA_KINDS; kind++) {
            size_t length = legal(kind, 1, bytes);

            demand(call(other, size, bytes, length) == YORDZEPA_LENGTH, "another length");
        }
        ask(other, size, 0, 0);
        free(other);
    }
    for (int i = 0; i < 50; i++) {
        uint8_t *random = block(NULL, YORDZEPA_BOOK);

        demand(call(random, YORDZEPA_BOOK, (const uint8_t[]){9}, 1) == YORDZEPA_UNSOUND, "random bytes");
        ask(random, YORDZEPA_BOOK, below(64), below(64));
        free(random);
    }
    free(book);
}

/* Reader and writer at every length up to the longest and beyond, every kind. */
static void records(void)
{
    for (size_t length = 0; length <= LONGEST; length++)
        for (unsigned kind = 0; kind < 256; kind++) {
            uint8_t *bytes = block(NULL, length);
            uint64_t *fields = block(NULL, YORDZEPA_FIELDS * sizeof *fields);
            struct yordzepa_reading reading;

            if (length > 0)
                bytes[0] = (uint8_t)kind;
            reading = records_read(bytes, length);
            demand(reading.code == YORDZEPA_OK || reading.code == YORDZEPA_SHAPE ||
                       reading.code == YORDZEPA_RANGE,
                   "a reader's code");
            if (below(2))
                memcpy(fields, reading.fields, sizeof reading.fields);
            records_write(kind, fields, bytes, length);
            free(fields);
            free(bytes);
        }
}

/* The parts without the book: numbers, and blocks of 64 and 256 numbers. */
static void parts(void)
{
    for (int i = 0; i < 20000; i++) {
        uint64_t *account = malloc(YORDZEPA_SECURITIES * sizeof *account);
        uint64_t *columns = malloc(YORDZEPA_COLUMNS * YORDZEPA_SECURITIES * sizeof *columns);
        uint64_t day = below(200000), spoiled = below(4), amount = below(100000000);
        struct yordzepa_pick picked;
        struct yordzepa_free freed;
        struct yordzepa_answer open = calendar_is_open(day);

        demand(account != NULL && columns != NULL, "no memory");
        demand(calendar_next_open_day(day).code == YORDZEPA_DAY || open.value == 1, "a closed day");
        calendar_price_age(bits(), bits());
        calendar_price_age(day, day + below(9));
        valuation_value(below(600000000), below(4000000), below(12000));
        demand(baskets_report(bits()).count <= YORDZEPA_SECURITIES, "a count above 64");
        for (size_t s = 0; s < YORDZEPA_SECURITIES; s++) {
            account[s] = below(100000);
            columns[s] = 1 + below(100);
            columns[YORDZEPA_SECURITIES + s] = 1 + below(3000000);
            columns[2 * YORDZEPA_SECURITIES + s] = below(10000);
            columns[3 * YORDZEPA_SECURITIES + s] = 1;
        }
        if (spoiled == 0)
            columns[below(YORDZEPA_COLUMNS * YORDZEPA_SECURITIES)] = bits();
        picked = picking_pick(account, columns, bits(), below(300), 1 + below(3), amount);
        freed = picking_free(account, columns, amount);
        demand(picked.value <= amount && picked.count <= YORDZEPA_SECURITIES, "a pick above its amount");
        demand(freed.count <= YORDZEPA_SECURITIES, "a count above 64");
        for (size_t s = 0; s < YORDZEPA_SECURITIES; s++)
            demand(picked.nominals[s] <= account[s] && freed.nominals[s] <= account[s], "too much");
        free(columns);
        free(account);
    }
}

int main(void)
{
    static const unsigned reached[] = {0, 1, 2, 3, 4, 5, 6, 7, 9, 10, 12, 13, 16};

    parts();
    records();
    sound_books();
    damaged_books();
    for (size_t i = 0; i < sizeof reached / sizeof *reached; i++)
        demand(counts[reached[i]] > 0, "a code was never reached");
    printf("guard: %lu calls accepted, %lu refused\n", accepted, refused);
    for (size_t code = 0; code <= YORDZEPA_NOT_COVERED; code++)
        printf("  %zu: %lu\n", code, counts[code]);
    return 0;
}
