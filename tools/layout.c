/*
 * The book's tables.
 */
#include "layout.h"

#include "digest.h"

const struct table_place table_places[TABLES] = {
    {"today", 0, 1, 4},
    {"tolerance", 4, 1, 4},
    {"nextNumber", 8, 1, 4},
    {"lots", 12, 64, 4},
    {"prices", 268, 64, 4},
    {"haircuts", 524, 64, 4},
    {"quoteDays", 780, 64, 4},
    {"modes", 1036, 32, 4},
    {"lists", 1164, 32, 4},
    {"partials", 1292, 32, 4},
    {"waitingModes", 1420, 32, 4},
    {"waitingLists", 1548, 32, 4},
    {"waitingPartials", 1676, 32, 4},
    {"maps", 1804, 16, 8},
    {"greatestAges", 1932, 16, 4},
    {"numbers", 1996, 256, 4},
    {"requestKinds", 3020, 256, 4},
    {"sides", 4044, 256, 4},
    {"givers", 5068, 256, 4},
    {"takers", 6092, 256, 4},
    {"basketsOrExposures", 7116, 256, 4},
    {"amounts", 8140, 256, 8},
    {"settlements", 10188, 256, 4},
    {"closings", 11212, 256, 4},
    {"references", 12236, 256, 8},
    {"settledAmounts", 14284, 256, 8},
    {"partners", 16332, 256, 4},
    {"pairPartials", 17356, 256, 4},
    {"cancels", 18380, 256, 4},
    {"ends", 19404, 256, 4},
    {"inUse", 20428, 64, 4},
    {"exposureGivers", 20684, 64, 4},
    {"exposureTakers", 20940, 64, 4},
    {"exposureBaskets", 21196, 64, 4},
    {"exposureClosings", 21452, 64, 4},
    {"exposureAmounts", 21708, 64, 8},
    {"accounts", 22220, 2048, 4},
    {"positions", 30412, 4096, 4},
    {"spares", 46796, 589, 4},
};

uint64_t number_in(const uint8_t *book, enum table_of_book table, size_t row)
{
    const struct table_place *place = &table_places[table];

    return load_number(book + place->begin + place->width * row, place->width);
}

const struct table_place *table_at(size_t byte, size_t *row)
{
    size_t table = TABLES - 1;

    while (table_places[table].begin > byte)
        table--;
    *row = (byte - table_places[table].begin) / table_places[table].width;
    return &table_places[table];
}
