/*
 * Days as dates.
 */
#include "dates.h"

#include <inttypes.h>
#include <stdio.h>
#include <string.h>

#include "yordzepa.h"

enum { FIRST_YEAR = 2002, LAST_YEAR = 2401 };

static int is_leap(unsigned year)
{
    return year % 4 == 0 && (year % 100 != 0 || year % 400 == 0);
}

static unsigned month_days(unsigned year, unsigned month)
{
    static const unsigned char days[12] = {31, 28, 31, 30, 31, 30, 31, 31, 30, 31, 30, 31};

    return month == 2 && is_leap(year) ? 29 : days[month - 1];
}

int looks_like_date(const char *text)
{
    static const char form[] = "dddd-dd-dd";

    if (strlen(text) != sizeof form - 1)
        return 0;
    for (size_t place = 0; form[place]; place++)
        if (form[place] == 'd' ? text[place] < '0' || text[place] > '9' : text[place] != '-')
            return 0;
    return 1;
}

/* The number in some digits. */
static unsigned digits(const char *text, size_t count)
{
    unsigned number = 0;

    for (size_t place = 0; place < count; place++)
        number = number * 10 + (unsigned)(text[place] - '0');
    return number;
}

int read_date(const char *text, uint64_t *day)
{
    unsigned year, month, of_month;
    uint64_t count = 0;

    if (!looks_like_date(text))
        return 0;
    year = digits(text, 4);
    month = digits(text + 5, 2);
    of_month = digits(text + 8, 2);
    if (year < FIRST_YEAR || year > LAST_YEAR || month < 1 || month > 12 || of_month < 1 ||
        of_month > month_days(year, month))
        return 0;
    for (unsigned before = FIRST_YEAR; before < year; before++)
        count += is_leap(before) ? 366 : 365;
    for (unsigned before = 1; before < month; before++)
        count += month_days(year, before);
    *day = count + of_month - 1;
    return 1;
}

const char *day_text(uint64_t day, char text[DAY_TEXT])
{
    unsigned year = FIRST_YEAR, month = 1;
    uint64_t left = day;

    if (day > YORDZEPA_LAST_DAY) {
        snprintf(text, DAY_TEXT, "%" PRIu64, day);
        return text;
    }
    for (; left >= (is_leap(year) ? 366u : 365u); year++)
        left -= is_leap(year) ? 366 : 365;
    for (; left >= month_days(year, month); month++)
        left -= month_days(year, month);
    snprintf(text, DAY_TEXT, "%04u-%02u-%02u", year, month, (unsigned)left + 1);
    return text;
}
