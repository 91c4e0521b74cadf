/*
 * Holds include/yordzepa.h to the layout that the libraries use. It is only compiled.
 */
#include "yordzepa.h"

/* A member stands at this place and has this many bytes. */
#define MEMBER(type, member, place, size)                                      \
    _Static_assert(offsetof(struct type, member) == (place) &&                 \
                       sizeof(((struct type *)0)->member) == (size),           \
                   #type "." #member)

_Static_assert(sizeof(void *) == 8 && sizeof(size_t) == 8, "x86-64");

_Static_assert(sizeof(struct yordzepa_answer) == 16, "answer");
MEMBER(yordzepa_answer, code, 0, 8);
MEMBER(yordzepa_answer, value, 8, 8);

_Static_assert(sizeof(struct yordzepa_report) == 24, "report");
MEMBER(yordzepa_report, code, 0, 8);
MEMBER(yordzepa_report, count, 8, 8);
MEMBER(yordzepa_report, lowest, 16, 8);

_Static_assert(sizeof(struct yordzepa_pick) == 536, "pick");
MEMBER(yordzepa_pick, code, 0, 8);
MEMBER(yordzepa_pick, nominals, 8, 512);
MEMBER(yordzepa_pick, value, 520, 8);
MEMBER(yordzepa_pick, count, 528, 8);

_Static_assert(sizeof(struct yordzepa_free) == 536, "free");
MEMBER(yordzepa_free, code, 0, 8);
MEMBER(yordzepa_free, nominals, 8, 512);
MEMBER(yordzepa_free, left, 520, 8);
MEMBER(yordzepa_free, count, 528, 8);

_Static_assert(sizeof(struct yordzepa_reading) == 80, "reading");
MEMBER(yordzepa_reading, code, 0, 8);
MEMBER(yordzepa_reading, kind, 8, 8);
MEMBER(yordzepa_reading, fields, 16, 64);

_Static_assert(YORDZEPA_OK == 0 && YORDZEPA_LENGTH == 1 && YORDZEPA_UNSOUND == 2, "codes");
_Static_assert(YORDZEPA_SHAPE == 3 && YORDZEPA_RANGE == 4 && YORDZEPA_UNKNOWN == 5, "codes");
_Static_assert(YORDZEPA_AGAIN == 6 && YORDZEPA_DAY == 7 && YORDZEPA_SAME_PARTY == 8, "codes");
_Static_assert(YORDZEPA_AUTOMATIC == 9 && YORDZEPA_TOO_MUCH == 10, "codes");
_Static_assert(YORDZEPA_TOO_LARGE == 11 && YORDZEPA_NONE_SUCH == 12, "codes");
_Static_assert(YORDZEPA_SETTLED == 13 && YORDZEPA_NO_ROW == 14, "codes");
_Static_assert(YORDZEPA_NO_EXPOSURE == 15 && YORDZEPA_NOT_COVERED == 16, "codes");
_Static_assert(YORDZEPA_BOOK == 49152 && YORDZEPA_ANSWER == 4, "sizes");
_Static_assert(YORDZEPA_NOMINAL_ANSWER == 2 && YORDZEPA_EXPOSURE_ANSWER == 6, "sizes");
_Static_assert(YORDZEPA_REQUEST_ANSWER == 15 && YORDZEPA_BASKET_ANSWER == 5, "sizes");
_Static_assert(YORDZEPA_SECURITIES == 64 && YORDZEPA_COLUMNS == 4, "sizes");
_Static_assert(YORDZEPA_FIELDS == 8 && YORDZEPA_KINDS == 13, "sizes");
_Static_assert(YORDZEPA_LONGEST_RECORD == 29 && YORDZEPA_LAST_DAY == 146096, "sizes");

int main(void)
{
    return 0;
}
