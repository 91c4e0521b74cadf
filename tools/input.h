/*
 * Records as they come from a file or a pipe.
 */
#ifndef INPUT_H
#define INPUT_H

#include <signal.h>
#include <stddef.h>
#include <stdint.h>

struct input {
    int file;
    const char *name;
    uint8_t buffer[65536];
    size_t start;
    size_t end;
    /* No more bytes come. */
    int ended;
    /* Bytes taken so far, and all there are if that is known, else 0. */
    uint64_t taken;
    uint64_t total;
};

/* What stands at the front of the input. */
enum front {
    /* A whole record of a known kind. */
    WHOLE,
    /* A cut record or an unknown kind, which ends the input. */
    CUT,
    /* More bytes have to be read before it is known. */
    MORE,
    /* Nothing. */
    NOTHING
};

/* Opens; the status is DONE, or SYSTEM with a message. */
int begin_input(struct input *input, const char *path);
void end_input(struct input *input);

/* The front and its bytes; of an unknown kind, the byte of the kind alone. */
enum front front_of(const struct input *input, const uint8_t **bytes, size_t *length);

/* Passes over bytes of the front. */
void take_bytes(struct input *input, size_t length);

/* Reads more once. 0, or -1 with errno set; EINTR where a signal came. */
int read_more(struct input *input);

/* Whether read_more would not have to wait. */
int has_more(const struct input *input);

/* Waits for more with these signals held back and no others. 0, or -1 with errno set, EINTR where
 * a signal came. */
int await_more(const struct input *input, const sigset_t *held);

#endif
