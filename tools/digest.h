/*
 * Checksums: SHA-256 for the journal's chain, and a quick one of 64 bits for the book, which is
 * taken after every call.
 */
#ifndef DIGEST_H
#define DIGEST_H

#include <stddef.h>
#include <stdint.h>

enum { DIGEST = 32 };

/* SHA-256 of two parts, one after the other; the second may be empty. */
void digest(const void *first, size_t first_length, const void *second, size_t second_length,
            uint8_t out[DIGEST]);

/* The sum of a book of YORDZEPA_BOOK bytes. A change within one word of 8 bytes always changes it. */
uint64_t book_sum(const uint8_t *book);

/* Numbers in bytes, big-endian. */
uint64_t load_number(const uint8_t *bytes, size_t width);
void store_number(uint8_t *bytes, size_t width, uint64_t number);

#endif
