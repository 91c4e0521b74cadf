/*
 * A table, printed aligned or as CSV.
 */
#include "table.h"

#include <inttypes.h>
#include <stdio.h>
#include <stdlib.h>
#include <string.h>

#include "tool.h"

void begin_table(struct table *table, const char *title, const char *const *headings)
{
    memset(table, 0, sizeof *table);
    table->title = title;
    table->headings = headings;
    while (headings[table->columns])
        table->columns++;
}

void add_text(struct table *table, const char *text)
{
    append(&table->cells, text, strlen(text) + 1);
    table->count++;
}

void add_number(struct table *table, uint64_t number)
{
    char text[24];

    snprintf(text, sizeof text, "%" PRIu64, number);
    add_text(table, text);
}

static int is_right(const char *heading)
{
    return heading[0] == '>';
}

static const char *plain(const char *heading)
{
    return heading + is_right(heading);
}

/* The width of each column: its longest cell or heading. */
static size_t *widths_of(const struct table *table)
{
    size_t *widths = allocate(table->columns * sizeof *widths);
    const char *cell = (const char *)table->cells.data;

    for (size_t column = 0; column < table->columns; column++)
        widths[column] = strlen(plain(table->headings[column]));
    for (size_t place = 0; place < table->count; place++) {
        size_t length = strlen(cell), column = place % table->columns;
        if (length > widths[column])
            widths[column] = length;
        cell += length + 1;
    }
    return widths;
}

static void print_cell(const struct table *table, const size_t *widths, size_t column,
                       const char *cell)
{
    int is_last = column + 1 == table->columns, width = (int)widths[column];

    if (is_right(table->headings[column]))
        printf("%*s", width, cell);
    else
        printf("%-*s", is_last ? 0 : width, cell);
    fputs(is_last ? "\n" : "  ", stdout);
}

static void print_aligned(const struct table *table)
{
    size_t *widths = widths_of(table);
    const char *cell = (const char *)table->cells.data;

    printf("%s\n", table->title);
    for (size_t column = 0; column < table->columns; column++)
        print_cell(table, widths, column, plain(table->headings[column]));
    for (size_t place = 0; place < table->count; place++) {
        print_cell(table, widths, place % table->columns, cell);
        cell += strlen(cell) + 1;
    }
    free(widths);
}

/* A cell is quoted where a reader of CSV would else take it apart. */
static void print_value(const char *cell, int is_last)
{
    if (!strpbrk(cell, ",\"\n\r")) {
        fputs(cell, stdout);
    } else {
        putchar('"');
        for (; *cell; cell++)
            printf(*cell == '"' ? "\"\"" : "%c", *cell);
        putchar('"');
    }
    putchar(is_last ? '\n' : ',');
}

static void print_csv(const struct table *table)
{
    const char *cell = (const char *)table->cells.data;

    for (size_t column = 0; column < table->columns; column++)
        print_value(plain(table->headings[column]), column + 1 == table->columns);
    for (size_t place = 0; place < table->count; place++) {
        print_value(cell, (place + 1) % table->columns == 0);
        cell += strlen(cell) + 1;
    }
}

void end_table(struct table *table, int as_csv)
{
    if (as_csv)
        print_csv(table);
    else
        print_aligned(table);
    free(table->cells.data);
    table->cells.data = NULL;
}
