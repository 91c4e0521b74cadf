/*
 * Files: read whole, written whole, replaced whole or not at all.
 */
#ifndef FILES_H
#define FILES_H

#include <stddef.h>
#include <stdint.h>

/* Bytes that grow. Zero it to begin; free data to end. */
struct bytes {
    uint8_t *data;
    size_t length;
    size_t room;
};

void append(struct bytes *bytes, const void *more, size_t length);

/* A name to print for a path; "-" and NULL are standard input. */
const char *input_name(const char *path);

/* Opens to read. -1 with a message if it cannot be. */
int open_input(const char *path);

/* 1, with a message, where an input of records would be typed on a terminal. */
int refuse_terminal(const char *path);

/* Reads all of an input. The status is DONE, or SYSTEM with a message. */
int read_input(const char *path, struct bytes *bytes);

/* Reads up to length bytes, fewer only at the end. -1 on an error, with errno set. */
long read_fully(int file, void *bytes, size_t length);

/* Writes all bytes. 0, or -1 with errno set. */
int write_fully(int file, const void *bytes, size_t length);

/*
 * Replaces a file, or makes it: a new one is written beside it, flushed, renamed, and the folder
 * flushed. The status is DONE, or SYSTEM with a message, and then the old file stands.
 */
int replace_file(const char *path, const void *bytes, size_t length);

/* Flushes the folder that a file stands in, so that its name outlasts a crash. 0 or -1. */
int flush_folder(const char *path);

/*
 * Writes bytes to a file by its path, or to standard output where the path is NULL. A plain file is
 * replaced whole; a device or a pipe is written to.
 */
int write_output(const char *path, const struct bytes *bytes);

#endif
