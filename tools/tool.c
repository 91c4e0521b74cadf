/*
 * Messages and memory.
 */
#include "tool.h"

#include <errno.h>
#include <stdarg.h>
#include <stdio.h>
#include <stdlib.h>
#include <string.h>

const char *command_name = "";

void complain(const char *form, ...)
{
    va_list list;

    fprintf(stderr, "yordzepa%s%s: ", *command_name ? " " : "", command_name);
    va_start(list, form);
    vfprintf(stderr, form, list);
    va_end(list);
    fputc('\n', stderr);
}

void complain_of_file(const char *tried, const char *path)
{
    complain("cannot %s %s: %s", tried, path, strerror(errno));
}

void *allocate_again(void *old, size_t size)
{
    void *memory = realloc(old, size ? size : 1);

    if (!memory) {
        complain("no memory for %zu bytes; end other programs and run this again", size);
        exit(SYSTEM);
    }
    return memory;
}

void *allocate(size_t size)
{
    return allocate_again(NULL, size);
}

char *joined(const char *first, const char *second)
{
    size_t length = strlen(first) + strlen(second) + 1;
    char *text = allocate(length);

    snprintf(text, length, "%s%s", first, second);
    return text;
}

int read_number(const char *text, uint64_t *number)
{
    uint64_t value = 0;

    if (!*text)
        return 0;
    for (; *text; text++) {
        unsigned digit = (unsigned)(*text - '0');
        if (*text < '0' || *text > '9' || value > (UINT64_MAX - digit) / 10)
            return 0;
        value = value * 10 + digit;
    }
    *number = value;
    return 1;
}

int end_output(void)
{
    if (fflush(stdout) == 0 && !ferror(stdout))
        return DONE;
    complain("cannot write to standard output: %s; what was printed is not whole", strerror(errno));
    return SYSTEM;
}
