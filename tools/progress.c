/*
 * A bar on standard error.
 */
#define _POSIX_C_SOURCE 200809L
#include "progress.h"

#include <inttypes.h>
#include <stdio.h>
#include <string.h>
#include <unistd.h>

enum {
    BAR = 40,
    /* Nothing is shown of work that ends sooner; then the bar moves ten times a second. */
    FIRST_WAIT = 300000000,
    NEXT_WAIT = 100000000
};

static void wait_from_now(struct progress *progress, long nanoseconds)
{
    clock_gettime(CLOCK_MONOTONIC, &progress->next);
    progress->next.tv_nsec += nanoseconds;
    progress->next.tv_sec += progress->next.tv_nsec / 1000000000;
    progress->next.tv_nsec %= 1000000000;
}

static int is_due(const struct progress *progress)
{
    struct timespec now;

    clock_gettime(CLOCK_MONOTONIC, &now);
    return now.tv_sec > progress->next.tv_sec ||
           (now.tv_sec == progress->next.tv_sec && now.tv_nsec >= progress->next.tv_nsec);
}

void begin_progress(struct progress *progress, uint64_t total)
{
    memset(progress, 0, sizeof *progress);
    progress->wanted = isatty(STDERR_FILENO) && !isatty(STDOUT_FILENO);
    progress->total = total;
    if (progress->wanted)
        wait_from_now(progress, FIRST_WAIT);
}

void show_progress(struct progress *progress, uint64_t done, uint64_t records)
{
    static const char full[] = "########################################";
    static const char empty[] = "........................................";
    int part;

    if (!progress->wanted || !is_due(progress))
        return;
    if (progress->total) {
        done = done < progress->total ? done : progress->total;
        part = (int)((double)done / (double)progress->total * BAR);
        fprintf(stderr, "\r[%.*s%.*s] %3d%%  %" PRIu64 " records", part, full, BAR - part, empty,
                part * 100 / BAR, records);
    } else {
        fprintf(stderr, "\r%" PRIu64 " records", records);
    }
    progress->shown = 1;
    wait_from_now(progress, NEXT_WAIT);
}

void end_progress(struct progress *progress)
{
    if (progress->shown)
        fputs("\r\033[K", stderr);
    progress->shown = 0;
}
