/*
 * Checksums.
 */
#include "digest.h"

#include <string.h>

#include "yordzepa.h"

uint64_t load_number(const uint8_t *bytes, size_t width)
{
    uint64_t number = 0;

    for (size_t place = 0; place < width; place++)
        number = number << 8 | bytes[place];
    return number;
}

void store_number(uint8_t *bytes, size_t width, uint64_t number)
{
    for (size_t place = width; place > 0; place--) {
        bytes[place - 1] = (uint8_t)number;
        number >>= 8;
    }
}

/* ---- SHA-256, FIPS 180-4 ---- */

static const uint32_t round_numbers[64] = {
    0x428a2f98, 0x71374491, 0xb5c0fbcf, 0xe9b5dba5, 0x3956c25b, 0x59f111f1, 0x923f82a4, 0xab1c5ed5,
    0xd807aa98, 0x12835b01, 0x243185be, 0x550c7dc3, 0x72be5d74, 0x80deb1fe, 0x9bdc06a7, 0xc19bf174,
    0xe49b69c1, 0xefbe4786, 0x0fc19dc6, 0x240ca1cc, 0x2de92c6f, 0x4a7484aa, 0x5cb0a9dc, 0x76f988da,
    0x983e5152, 0xa831c66d, 0xb00327c8, 0xbf597fc7, 0xc6e00bf3, 0xd5a79147, 0x06ca6351, 0x14292967,
    0x27b70a85, 0x2e1b2138, 0x4d2c6dfc, 0x53380d13, 0x650a7354, 0x766a0abb, 0x81c2c92e, 0x92722c85,
    0xa2bfe8a1, 0xa81a664b, 0xc24b8b70, 0xc76c51a3, 0xd192e819, 0xd6990624, 0xf40e3585, 0x106aa070,
    0x19a4c116, 0x1e376c08, 0x2748774c, 0x34b0bcb5, 0x391c0cb3, 0x4ed8aa4a, 0x5b9cca4f, 0x682e6ff3,
    0x748f82ee, 0x78a5636f, 0x84c87814, 0x8cc70208, 0x90befffa, 0xa4506ceb, 0xbef9a3f7, 0xc67178f2};

static uint32_t turned(uint32_t word, unsigned bits)
{
    return word >> bits | word << (32 - bits);
}

/* The 64 words of a block's schedule. */
static void spread(const uint8_t *block, uint32_t words[64])
{
    for (size_t place = 0; place < 16; place++)
        words[place] = (uint32_t)load_number(block + 4 * place, 4);
    for (size_t place = 16; place < 64; place++) {
        uint32_t near = words[place - 2], far = words[place - 15];
        words[place] = words[place - 16] + words[place - 7] +
                       (turned(far, 7) ^ turned(far, 18) ^ far >> 3) +
                       (turned(near, 17) ^ turned(near, 19) ^ near >> 10);
    }
}

static void take_block(uint32_t state[8], const uint8_t *block)
{
    uint32_t words[64];
    uint32_t a = state[0], b = state[1], c = state[2], d = state[3];
    uint32_t e = state[4], f = state[5], g = state[6], h = state[7];

    spread(block, words);
    for (size_t place = 0; place < 64; place++) {
        uint32_t first = h + (turned(e, 6) ^ turned(e, 11) ^ turned(e, 25)) +
                         ((e & f) ^ (~e & g)) + round_numbers[place] + words[place];
        uint32_t second = (turned(a, 2) ^ turned(a, 13) ^ turned(a, 22)) +
                          ((a & b) ^ (a & c) ^ (b & c));
        h = g;
        g = f;
        f = e;
        e = d + first;
        d = c;
        c = b;
        b = a;
        a = first + second;
    }
    state[0] += a;
    state[1] += b;
    state[2] += c;
    state[3] += d;
    state[4] += e;
    state[5] += f;
    state[6] += g;
    state[7] += h;
}

/* A message that comes in parts. */
struct message {
    uint32_t state[8];
    uint8_t block[64];
    size_t used;
    uint64_t length;
};

static void take_part(struct message *message, const uint8_t *bytes, size_t length)
{
    message->length += length;
    while (length) {
        size_t count = 64 - message->used < length ? 64 - message->used : length;
        memcpy(message->block + message->used, bytes, count);
        message->used += count;
        bytes += count;
        length -= count;
        if (message->used == 64) {
            take_block(message->state, message->block);
            message->used = 0;
        }
    }
}

static void end_message(struct message *message, uint8_t out[DIGEST])
{
    static const uint8_t stop[64] = {0x80};
    uint8_t bits[8];

    store_number(bits, 8, message->length * 8);
    take_part(message, stop, 1 + (119 - message->used) % 64);
    take_part(message, bits, 8);
    for (size_t place = 0; place < 8; place++)
        store_number(out + 4 * place, 4, message->state[place]);
}

void digest(const void *first, size_t first_length, const void *second, size_t second_length,
            uint8_t out[DIGEST])
{
    struct message message = {
        .state = {0x6a09e667, 0xbb67ae85, 0x3c6ef372, 0xa54ff53a, 0x510e527f, 0x9b05688c,
                  0x1f83d9ab, 0x5be0cd19}};

    take_part(&message, first, first_length);
    if (second_length)
        take_part(&message, second, second_length);
    end_message(&message, out);
}

/* ---- The book's sum ---- */

/* The odd number nearest to 2^64 over the golden ratio: it spreads every bit of a word upwards. */
static const uint64_t spreader = UINT64_C(0x9e3779b97f4a7c15);

/* For each sum a permutation of the words, and for each word one of the sums. */
static inline uint64_t stirred(uint64_t sum, uint64_t word)
{
    sum = (sum ^ word) * spreader;
    return sum << 29 | sum >> 35;
}

/* The next word, in a form that becomes one instruction. */
static inline uint64_t word_at(const uint8_t *bytes)
{
    return (uint64_t)bytes[0] << 56 | (uint64_t)bytes[1] << 48 | (uint64_t)bytes[2] << 40 |
           (uint64_t)bytes[3] << 32 | (uint64_t)bytes[4] << 24 | (uint64_t)bytes[5] << 16 |
           (uint64_t)bytes[6] << 8 | bytes[7];
}

/* Four sums side by side, so that the processor need not wait for each product. */
uint64_t book_sum(const uint8_t *book)
{
    uint64_t first = 1, second = 2, third = 3, fourth = 4, all;

    for (size_t at = 0; at < YORDZEPA_BOOK; at += 32) {
        first = stirred(first, word_at(book + at));
        second = stirred(second, word_at(book + at + 8));
        third = stirred(third, word_at(book + at + 16));
        fourth = stirred(fourth, word_at(book + at + 24));
    }
    all = stirred(stirred(stirred(stirred(0, first), second), third), fourth);
    return stirred(all ^ all >> 32, 0);
}
