/*
 * Days as dates of the Gregorian calendar, 2002-01-01 being day 0.
 */
#ifndef DATES_H
#define DATES_H

#include <stdint.h>

/* Bytes of a day as text, with the end. */
enum { DAY_TEXT = 24 };

/* Whether a text has the form of a date, 2026-11-16, right or wrong. */
int looks_like_date(const char *text);

/* The day of a date from 2002-01-01 to 2401-12-31; 0 if there is no such date. */
int read_date(const char *text, uint64_t *day);

/* A day as a date; a number past the last day as itself. */
const char *day_text(uint64_t day, char text[DAY_TEXT]);

#endif
