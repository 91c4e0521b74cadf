/*
 * Put before the C library in the tests of crashes: the n-th call that changes a file ends the
 * process as a crash would, or fails. The environment says which:
 *
 *   CRASH_AT    n, from 1
 *   CRASH_HOW   before, after: the process is killed before or after the call
 *               half: a write is done by half, then the process is killed
 *               lose: killed before the call, and what no call has flushed is lost too
 *               a number: the call fails with this errno
 *   CRASH_LOG   a file that gets a letter for each such call: w write, p pwrite, f fsync,
 *               d fdatasync, t ftruncate, r rename, u unlink
 */
#define _GNU_SOURCE
#include <dlfcn.h>
#include <errno.h>
#include <fcntl.h>
#include <signal.h>
#include <stdio.h>
#include <stdlib.h>
#include <string.h>
#include <sys/stat.h>
#include <unistd.h>

enum { FILES = 64 };

/* The flushed length of each file that was written. */
static off_t flushed[FILES];
static int is_written[FILES];

static void *real(const char *name)
{
    return dlsym(RTLD_NEXT, name);
}

static void die(void)
{
    kill(getpid(), SIGKILL);
    pause();
}

static const char *how(void)
{
    const char *text = getenv("CRASH_HOW");

    return text ? text : "";
}

/* Cuts every file back to what was flushed of it. */
static void lose(void)
{
    int (*cut)(int, off_t) = (int (*)(int, off_t))real("ftruncate");

    for (int file = 0; file < FILES; file++)
        if (is_written[file])
            cut(file, flushed[file]);
}

/* Counts a call; 1 if it is the one. */
static int is_the_one(char letter)
{
    static long count;
    const char *at = getenv("CRASH_AT"), *log = getenv("CRASH_LOG");

    count++;
    if (log) {
        int file = open(log, O_WRONLY | O_CREAT | O_APPEND, 0666);
        ssize_t (*put)(int, const void *, size_t) =
            (ssize_t(*)(int, const void *, size_t))real("write");
        put(file, &letter, 1);
        close(file);
    }
    return at && count == atol(at);
}

/* Before the call: 1 if it is to fail. */
static int begin(int is_one)
{
    if (!is_one)
        return 0;
    if (strcmp(how(), "before") == 0)
        die();
    if (strcmp(how(), "lose") == 0) {
        lose();
        die();
    }
    if (atoi(how())) {
        errno = atoi(how());
        return 1;
    }
    return 0;
}

static void end(int is_one)
{
    if (is_one && (strcmp(how(), "after") == 0 || strcmp(how(), "half") == 0))
        die();
}

static void note_write(int file)
{
    struct stat facts;

    if (file >= 0 && file < FILES && !is_written[file] && fstat(file, &facts) == 0 &&
        S_ISREG(facts.st_mode)) {
        is_written[file] = 1;
        flushed[file] = facts.st_size;
    }
}

static void note_flush(int file)
{
    struct stat facts;

    if (file >= 0 && file < FILES && fstat(file, &facts) == 0)
        flushed[file] = facts.st_size;
}

/* How much of a write is done. */
static size_t part(int is_one, size_t length)
{
    return is_one && strcmp(how(), "half") == 0 ? length / 2 : length;
}

ssize_t write(int file, const void *bytes, size_t length)
{
    ssize_t (*put)(int, const void *, size_t) =
        (ssize_t(*)(int, const void *, size_t))real("write");
    int is_one;
    ssize_t result;

    if (file == 1 || file == 2)
        return put(file, bytes, length);
    note_write(file);
    is_one = is_the_one('w');
    if (begin(is_one))
        return -1;
    result = put(file, bytes, part(is_one, length));
    end(is_one);
    return result;
}

ssize_t pwrite(int file, const void *bytes, size_t length, off_t at)
{
    ssize_t (*put)(int, const void *, size_t, off_t) =
        (ssize_t(*)(int, const void *, size_t, off_t))real("pwrite");
    int is_one = is_the_one('p');
    ssize_t result;

    note_write(file);
    if (begin(is_one))
        return -1;
    result = put(file, bytes, part(is_one, length), at);
    end(is_one);
    return result;
}

static int flush(const char *name, char letter, int file)
{
    int (*flush_real)(int) = (int (*)(int))real(name);
    int is_one = is_the_one(letter), result;

    if (begin(is_one))
        return -1;
    result = flush_real(file);
    if (result == 0)
        note_flush(file);
    end(is_one);
    return result;
}

int fsync(int file)
{
    return flush("fsync", 'f', file);
}

int fdatasync(int file)
{
    return flush("fdatasync", 'd', file);
}

int ftruncate(int file, off_t length)
{
    int (*cut)(int, off_t) = (int (*)(int, off_t))real("ftruncate");
    int is_one = is_the_one('t'), result;

    note_write(file);
    if (begin(is_one))
        return -1;
    result = cut(file, length);
    if (file < FILES && flushed[file] > length)
        flushed[file] = length;
    end(is_one);
    return result;
}

int rename(const char *old, const char *new)
{
    int (*move)(const char *, const char *) = (int (*)(const char *, const char *))real("rename");
    int is_one = is_the_one('r'), result;

    if (begin(is_one))
        return -1;
    result = move(old, new);
    end(is_one);
    return result;
}

int unlink(const char *path)
{
    int (*take)(const char *) = (int (*)(const char *))real("unlink");
    int is_one = is_the_one('u'), result;

    if (begin(is_one))
        return -1;
    result = take(path);
    end(is_one);
    return result;
}
