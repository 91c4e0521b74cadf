/*
 * The time of the calls alone: applies a file of whole records to a book in memory and prints the
 * seconds that the calls took. tests/tool/run.sh holds the time of a load to it.
 */
#define _POSIX_C_SOURCE 200809L
#include <stdio.h>
#include <time.h>

#include "kinds.h"
#include "yordzepa.h"

int main(int count, char **words)
{
    static uint8_t book[YORDZEPA_BOOK], records[1 << 22];
    uint64_t answer[YORDZEPA_ANSWER];
    struct timespec begin, end;
    FILE *file = count > 1 ? fopen(words[1], "rb") : NULL;
    size_t length;

    if (!file)
        return 1;
    length = fread(records, 1, sizeof records, file);
    fclose(file);
    clock_gettime(CLOCK_PROCESS_CPUTIME_ID, &begin);
    for (size_t at = 0; at < length; at += record_length(records + at))
        engine_call(book, YORDZEPA_BOOK, records + at, record_length(records + at), answer);
    clock_gettime(CLOCK_PROCESS_CPUTIME_ID, &end);
    printf("%.6f\n", (double)(end.tv_sec - begin.tv_sec) +
                         (double)(end.tv_nsec - begin.tv_nsec) / 1e9);
    return 0;
}
