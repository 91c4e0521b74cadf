/*
 * Files: read whole, written whole, replaced whole or not at all.
 */
#define _DEFAULT_SOURCE
#define _XOPEN_SOURCE 700
#include "files.h"

#include <errno.h>
#include <fcntl.h>
#include <stdio.h>
#include <stdlib.h>
#include <string.h>
#include <sys/stat.h>
#include <unistd.h>

#include "tool.h"

void append(struct bytes *bytes, const void *more, size_t length)
{
    if (length > bytes->room - bytes->length) {
        size_t room = bytes->room ? bytes->room : 4096;
        while (length > room - bytes->length)
            room *= 2;
        bytes->data = allocate_again(bytes->data, room);
        bytes->room = room;
    }
    if (length)
        memcpy(bytes->data + bytes->length, more, length);
    bytes->length += length;
}

static int is_standard_input(const char *path)
{
    return !path || strcmp(path, "-") == 0;
}

const char *input_name(const char *path)
{
    return is_standard_input(path) ? "standard input" : path;
}

int open_input(const char *path)
{
    int file = is_standard_input(path) ? dup(STDIN_FILENO) : open(path, O_RDONLY | O_CLOEXEC);

    if (file < 0)
        complain_of_file("open", input_name(path));
    return file;
}

int refuse_terminal(const char *path)
{
    if (!is_standard_input(path) || !isatty(STDIN_FILENO))
        return 0;
    complain("records are no text to be typed; name a file, or send them by a pipe");
    return 1;
}

int read_input(const char *path, struct bytes *bytes)
{
    uint8_t part[65536];
    int file = open_input(path);
    long count;

    if (file < 0)
        return SYSTEM;
    while ((count = read_fully(file, part, sizeof part)) > 0)
        append(bytes, part, (size_t)count);
    if (count < 0)
        complain_of_file("read", input_name(path));
    close(file);
    return count < 0 ? SYSTEM : DONE;
}

long read_fully(int file, void *bytes, size_t length)
{
    size_t done = 0;

    while (done < length) {
        ssize_t count = read(file, (uint8_t *)bytes + done, length - done);
        if (count == 0)
            break;
        if (count < 0 && errno != EINTR)
            return -1;
        if (count > 0)
            done += (size_t)count;
    }
    return (long)done;
}

int write_fully(int file, const void *bytes, size_t length)
{
    size_t done = 0;

    while (done < length) {
        ssize_t count = write(file, (const uint8_t *)bytes + done, length - done);
        if (count < 0 && errno != EINTR)
            return -1;
        if (count > 0)
            done += (size_t)count;
    }
    return 0;
}

int flush_folder(const char *path)
{
    const char *slash = strrchr(path, '/');
    char *folder = joined(slash ? path : ".", "");
    int file, result;

    if (slash)
        folder[slash == path ? 1 : slash - path] = '\0';
    file = open(folder, O_RDONLY | O_DIRECTORY | O_CLOEXEC);
    free(folder);
    if (file < 0)
        return -1;
    result = fsync(file);
    close(file);
    return result;
}

/* The rights of the file that is replaced, or the usual ones for a new file. */
static mode_t rights_of(const char *path)
{
    struct stat facts;

    return stat(path, &facts) == 0 ? facts.st_mode & 07777 : 0;
}

static int write_beside(const char *path, mode_t rights, const void *bytes, size_t length)
{
    int file = open(path, O_WRONLY | O_CREAT | O_TRUNC | O_CLOEXEC, 0666);
    int result, kept;

    if (file < 0)
        return -1;
    result = write_fully(file, bytes, length);
    if (result == 0 && rights)
        result = fchmod(file, rights);
    if (result == 0)
        result = fsync(file);
    kept = errno;
    if (close(file) != 0 && result == 0)
        return -1;
    errno = kept;
    return result;
}

int replace_file(const char *path, const void *bytes, size_t length)
{
    char *beside = joined(path, ".new");
    int status = SYSTEM;

    if (write_beside(beside, rights_of(path), bytes, length) != 0) {
        complain_of_file("write", beside);
        unlink(beside);
    } else if (rename(beside, path) != 0) {
        complain_of_file("replace", path);
        unlink(beside);
    } else if (flush_folder(path) != 0) {
        complain_of_file("flush the folder of", path);
    } else {
        status = DONE;
    }
    free(beside);
    return status;
}

static int write_to(int file, const char *name, const struct bytes *bytes)
{
    if (write_fully(file, bytes->data, bytes->length) == 0)
        return DONE;
    complain("cannot write to %s: %s; what was written is not whole", name, strerror(errno));
    return SYSTEM;
}

/* A device or a pipe, which must not be replaced by a file. */
static int write_special(const char *path, const struct bytes *bytes)
{
    int file = open(path, O_WRONLY | O_CLOEXEC);
    int status;

    if (file < 0) {
        complain_of_file("write", path);
        return SYSTEM;
    }
    status = write_to(file, path, bytes);
    close(file);
    return status;
}

int write_output(const char *path, const struct bytes *bytes)
{
    struct stat facts;
    char *real;
    int status;

    if (!path)
        return write_to(STDOUT_FILENO, "standard output", bytes);
    if (stat(path, &facts) == 0 && !S_ISREG(facts.st_mode))
        return write_special(path, bytes);
    /* Through a link the file that it leads to is replaced, not the link. */
    real = realpath(path, NULL);
    status = replace_file(real ? real : path, bytes->data, bytes->length);
    free(real);
    return status;
}
