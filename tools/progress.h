/*
 * A bar on standard error for work that takes long, where standard error is a terminal and the
 * lines of the work do not go to one.
 */
#ifndef PROGRESS_H
#define PROGRESS_H

#include <stdint.h>
#include <time.h>

struct progress {
    int wanted;
    int shown;
    /* What is done when the work is; 0 if not known. */
    uint64_t total;
    struct timespec next;
};

void begin_progress(struct progress *progress, uint64_t total);

/* Done so far, and a count of records to print. */
void show_progress(struct progress *progress, uint64_t done, uint64_t records);

/* Takes the bar away. */
void end_progress(struct progress *progress);

#endif
