/*
 * How much stack a call needs: each kind of record and each read runs on a stack of its own that was
 * filled with a pattern, and what no longer holds the pattern was used. Fails above the limit that
 * docs/ARCHITECTURE.md names.
 */
#define _GNU_SOURCE
#include <stdio.h>
#include <stdlib.h>
#include <string.h>
#include <ucontext.h>

#include "yordzepa.h"

enum { STACK = 1 << 20, LIMIT = 32768, PATTERN = 0xA5 };

static uint8_t stack[STACK];
static uint8_t book[YORDZEPA_BOOK];
static ucontext_t here, there;
static unsigned kind;
static uint64_t fields[YORDZEPA_FIELDS];

/* Applies the record. */
static void apply(void)
{
    static const size_t lengths[YORDZEPA_KINDS] = {9, 16, 8, 11, 7, 7, 29, 25, 6, 1, 1, 8, 1};
    static uint8_t record[YORDZEPA_LONGEST_RECORD];
    static uint64_t answer[YORDZEPA_ANSWER];

    records_write(kind, fields, record, lengths[kind]);
    engine_call(book, sizeof book, record, lengths[kind], answer);
    if (answer[0] != YORDZEPA_OK) {
        fprintf(stderr, "stack: kind %u gave code %u\n", kind, (unsigned)answer[0]);
        exit(1);
    }
}

/* Asks every read once. */
static void ask(void)
{
    static uint64_t answer[YORDZEPA_REQUEST_ANSWER];

    reads_account(book, sizeof book, 1, 0, answer);
    reads_position(book, sizeof book, 0, 0, answer);
    reads_exposure(book, sizeof book, 0, answer);
    reads_basket(book, sizeof book, 0, answer);
    reads_request(book, sizeof book, 1, answer);
}

/* The bytes of stack that a function uses. */
static size_t used_by(void (*function)(void))
{
    size_t untouched = 0;

    memset(stack, PATTERN, sizeof stack);
    getcontext(&there);
    there.uc_stack.ss_sp = stack;
    there.uc_stack.ss_size = sizeof stack;
    there.uc_link = &here;
    makecontext(&there, function, 0);
    swapcontext(&here, &there);
    while (untouched < sizeof stack && stack[untouched] == PATTERN)
        untouched++;
    return sizeof stack - untouched;
}

/* Runs a record on its own stack and keeps the greatest use. */
static void call(size_t *greatest, unsigned number, const uint64_t values[YORDZEPA_FIELDS])
{
    size_t used;

    kind = number;
    memcpy(fields, values, sizeof fields);
    used = used_by(apply);
    if (used > *greatest)
        *greatest = used;
}

#define FIELDS(...) ((const uint64_t[YORDZEPA_FIELDS]){__VA_ARGS__})

int main(void)
{
    size_t greatest = 0, reads;

    call(&greatest, 0, FIELDS(1, 10000));
    call(&greatest, 1, FIELDS(0, 1000, 1000000, 500, 1));
    call(&greatest, 1, FIELDS(1, 1000, 1000000, 500, 1));
    call(&greatest, 2, FIELDS(1, 2, 0, 1));
    call(&greatest, 2, FIELDS(2, 0, 0, 1));
    call(&greatest, 3, FIELDS(0, 3, 5));
    call(&greatest, 4, FIELDS(1, 0, 100000));
    call(&greatest, 4, FIELDS(1, 1, 100000));
    call(&greatest, 5, FIELDS(1, 1, 1000));
    call(&greatest, 6, FIELDS(0, 1, 2, 0, 1000000, 1, 0, 7));
    call(&greatest, 6, FIELDS(0, 1, 2, 0, 2000000, 1, 0, 8));
    call(&greatest, 9, FIELDS(0));
    call(&greatest, 7, FIELDS(0, 1, 2, 0, 500000, 1, 9));
    call(&greatest, 9, FIELDS(0));
    call(&greatest, 1, FIELDS(0, 1000, 900000, 500, 1));
    call(&greatest, 10, FIELDS(0));
    call(&greatest, 11, FIELDS(1, 0, 0, 1000));
    call(&greatest, 6, FIELDS(0, 1, 2, 0, 3000000, 2, 0, 8));
    call(&greatest, 8, FIELDS(1, 7));
    reads = used_by(ask);
    call(&greatest, 12, FIELDS(0));
    printf("stack: a call uses up to %zu bytes, a read up to %zu\n", greatest, reads);
    return greatest > LIMIT || reads > LIMIT;
}
