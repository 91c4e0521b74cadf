/*
 * Records as they come from a file or a pipe.
 */
#define _POSIX_C_SOURCE 200809L
#include "input.h"

#include <poll.h>
#include <string.h>
#include <sys/select.h>
#include <sys/stat.h>
#include <unistd.h>

#include "files.h"
#include "kinds.h"
#include "tool.h"

int begin_input(struct input *input, const char *path)
{
    struct stat facts;

    memset(input, 0, sizeof *input);
    input->name = input_name(path);
    input->file = open_input(path);
    if (input->file < 0)
        return SYSTEM;
    if (fstat(input->file, &facts) == 0 && S_ISREG(facts.st_mode))
        input->total = (uint64_t)facts.st_size;
    return DONE;
}

void end_input(struct input *input)
{
    if (input->file >= 0)
        close(input->file);
    input->file = -1;
}

enum front front_of(const struct input *input, const uint8_t **bytes, size_t *length)
{
    size_t left = input->end - input->start;

    *bytes = input->buffer + input->start;
    *length = 1;
    if (left == 0)
        return input->ended ? NOTHING : MORE;
    if (record_length(*bytes) == 0)
        return CUT;
    *length = record_length(*bytes);
    if (*length <= left)
        return WHOLE;
    *length = left;
    return input->ended ? CUT : MORE;
}

void take_bytes(struct input *input, size_t length)
{
    input->start += length;
    input->taken += length;
}

int read_more(struct input *input)
{
    size_t left = input->end - input->start;
    ssize_t count;

    memmove(input->buffer, input->buffer + input->start, left);
    input->start = 0;
    input->end = left;
    count = read(input->file, input->buffer + left, sizeof input->buffer - left);
    if (count < 0)
        return -1;
    input->ended = count == 0;
    input->end += (size_t)count;
    return 0;
}

int has_more(const struct input *input)
{
    struct pollfd ready = {.fd = input->file, .events = POLLIN};

    return poll(&ready, 1, 0) > 0;
}

int await_more(const struct input *input, const sigset_t *held)
{
    fd_set files;

    FD_ZERO(&files);
    FD_SET(input->file, &files);
    return pselect(input->file + 1, &files, NULL, NULL, NULL, held) < 0 ? -1 : 0;
}
