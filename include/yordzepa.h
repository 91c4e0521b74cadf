/*
 * yordzepa.h: the pledged-bond book, and the calendar, valuation, baskets, picking and records
 * that it stands on.
 *
 * The functions are in one static library for x86-64, libyordzepa.a:
 *
 *   engine      engine_call
 *   reads       reads_account, reads_position, reads_exposure, reads_request, reads_basket
 *   calendar    calendar_is_open, calendar_next_open_day, calendar_price_age
 *   valuation   valuation_value
 *   baskets     baskets_report
 *   picking     picking_pick, picking_free
 *   records     records_read, records_write
 *
 * They keep nothing between calls, allocate nothing, open nothing and call nothing but memcpy and
 * memset of the C library, so they may be called from several threads at once.
 *
 * Money is in euro cents, a nominal in whole euros, a price in millionths of par (1,000,000 is
 * par), a haircut in hundredths of a percent. Day 0 is Tuesday 1 January 2002; the last day is
 * 146,096, Monday 31 December 2401. All numbers are unsigned.
 *
 * Every function answers for all values of its numbers: each call that keeps the rules below ends
 * and gives the answer that is described here. A refused call has its code in the answer, 0 in all
 * other numbers of the answer, and writes to no other memory that was lent.
 *
 * Rules for the caller:
 *
 *   - A pointer is not null, also where the length passed with it is 0. An empty record is any
 *     pointer that is not null, with length 0.
 *   - A pointer to uint64_t is aligned as the type demands and points to as many numbers as the
 *     declaration names. A pointer to bytes points to as many bytes as the length says; the length
 *     is that of the memory lent.
 *   - Memory that is written overlaps no other memory of the same call. Memory that is only read
 *     may overlap.
 *   - No other thread writes to lent memory during a call.
 */
#ifndef YORDZEPA_H
#define YORDZEPA_H

#include <stddef.h>
#include <stdint.h>

#ifdef __cplusplus
extern "C" {
#endif

/*
 * The codes. Where several apply, the lowest is given.
 */
enum yordzepa_code {
    /* Accepted. */
    YORDZEPA_OK = 0,
    /* A book of another length than YORDZEPA_BOOK. */
    YORDZEPA_LENGTH = 1,
    /* A book that is not sound; not tested for an opening. */
    YORDZEPA_UNSOUND = 2,
    /* No kind or an unknown kind, or a record of another length than its kind has. */
    YORDZEPA_SHAPE = 3,
    /* A field out of its range, or a recall of a security not in its whole lots. */
    YORDZEPA_RANGE = 4,
    /* A participant, security or basket that is not set up; in a read, a row not in use. */
    YORDZEPA_UNKNOWN = 5,
    /* A basket set up again, or a price with another lot. */
    YORDZEPA_AGAIN = 6,
    /* A day that is not open or is above YORDZEPA_LAST_DAY, a quote after today, a settlement before
     * today, a closing not after the settlement, or no next day. */
    YORDZEPA_DAY = 7,
    /* The giver is the taker. */
    YORDZEPA_SAME_PARTY = 8,
    /* A taker's own request where it accepts that giver automatically. */
    YORDZEPA_AUTOMATIC = 9,
    /* More than the account or position holds. */
    YORDZEPA_TOO_MUCH = 10,
    /* A deposit that takes account plus positions above 500,000,000. */
    YORDZEPA_TOO_LARGE = 11,
    /* No such live request of that owner, or no used exposure of that giver (and taker). */
    YORDZEPA_NONE_SUCH = 12,
    /* A cancel of a request that has settled in part or whole. */
    YORDZEPA_SETTLED = 13,
    /* Too few request rows, or request numbers above 999,999,999. */
    YORDZEPA_NO_ROW = 14,
    /* A pair that needs an exposure row, and none is free. */
    YORDZEPA_NO_EXPOSURE = 15,
    /* A recall that the substitutes do not cover. */
    YORDZEPA_NOT_COVERED = 16
};

/*
 * The sizes.
 */
enum yordzepa_size {
    /* Bytes of a book. */
    YORDZEPA_BOOK = 49152,
    /* Numbers of the answers of a call and of each read, the code first. */
    YORDZEPA_ANSWER = 4,
    YORDZEPA_NOMINAL_ANSWER = 2,
    YORDZEPA_EXPOSURE_ANSWER = 6,
    YORDZEPA_REQUEST_ANSWER = 15,
    YORDZEPA_BASKET_ANSWER = 5,
    /* Securities, numbered 0 to 63. */
    YORDZEPA_SECURITIES = 64,
    /* Columns of a table of securities: lots, prices, haircuts, quote days. */
    YORDZEPA_COLUMNS = 4,
    /* Fields of an answer that holds a record; the FOP uses them all. */
    YORDZEPA_FIELDS = 8,
    /* Kinds of records, numbered 0 to 12. */
    YORDZEPA_KINDS = 13,
    /* Bytes of the longest record, the FOP's, with its byte of kind. */
    YORDZEPA_LONGEST_RECORD = 29,
    /* The last day. */
    YORDZEPA_LAST_DAY = 146096
};

/* A code and one number. */
struct yordzepa_answer {
    uint64_t code;
    uint64_t value;
};

/* What a basket holds. */
struct yordzepa_report {
    uint64_t code;
    /* The number of securities. */
    uint64_t count;
    /* The lowest of them. */
    uint64_t lowest;
};

/* What a Pick takes from an account. */
struct yordzepa_pick {
    uint64_t code;
    /* The nominal taken from each security. */
    uint64_t nominals[YORDZEPA_SECURITIES];
    /* The value found: the sum of the values of these nominals. */
    uint64_t value;
    /* The number of securities whose nominal is not 0. */
    uint64_t count;
};

/* What a Free gives back from a position. */
struct yordzepa_free {
    uint64_t code;
    /* The nominal given back of each security. */
    uint64_t nominals[YORDZEPA_SECURITIES];
    /* The value of the position that is left. */
    uint64_t left;
    /* The number of securities whose nominal given back is not 0. */
    uint64_t count;
};

/* A record that was read. */
struct yordzepa_reading {
    uint64_t code;
    uint64_t kind;
    /* The fields in the order of the table at records_read; 0 past the last. */
    uint64_t fields[YORDZEPA_FIELDS];
};

/* ---- Calendar ------------------------------------------------------------------------------- */

/*
 * Tells whether TARGET is open on a day. The value is 1 if it is open and 0 if it is closed.
 *
 * Closed are Saturdays, Sundays, 1 January, Good Friday, Easter Monday, 1 May, 25 and 26 December.
 *
 * Code 7: the day is above YORDZEPA_LAST_DAY.
 */
struct yordzepa_answer calendar_is_open(uint64_t day);

/*
 * Gives the first open day after an open day.
 *
 * Code 7: the day is not open or is above YORDZEPA_LAST_DAY, or no open day comes after it, which
 * is so for YORDZEPA_LAST_DAY alone.
 */
struct yordzepa_answer calendar_next_open_day(uint64_t day);

/*
 * Gives the age of a price: the number of open days after its quote day up to and including today.
 * A price quoted today is 0 days old.
 *
 * Code 7: one of the days is not open or is above YORDZEPA_LAST_DAY, or the quote day is after
 * today.
 */
struct yordzepa_answer calendar_price_age(uint64_t quote, uint64_t today);

/* ---- Valuation ------------------------------------------------------------------------------ */

/*
 * Gives the value of a nominal in cents: nominal x price x (10,000 - haircut) / 100,000,000,
 * rounded down.
 *
 * Code 4: the nominal is above 500,000,000, the price is not 1 to 3,000,000, or the haircut is
 * above 9,999.
 */
struct yordzepa_answer valuation_value(uint64_t nominal, uint64_t price, uint64_t haircut);

/* ---- Baskets -------------------------------------------------------------------------------- */

/*
 * Reports on a basket: how many securities its map holds, and the lowest of them. Bit n of the map
 * is security n, bit 0 the least significant.
 *
 * Code 4: the map is 0.
 */
struct yordzepa_report baskets_report(uint64_t map);

/* ---- Picking -------------------------------------------------------------------------------- */

/*
 * The table of securities is four columns of 64 numbers, one after the other: the lots, the
 * prices, the haircuts, the quote days. The numbers of security n are columns[n], columns[64 + n],
 * columns[128 + n] and columns[192 + n]. A security is either not set up, all four being 0, or has
 * a lot of 1 to 1,000,000, a price of 1 to 3,000,000 and a haircut of 0 to 9,999.
 */

/*
 * Picks an amount in cents from a giver's account, which has the nominal held of each security.
 * Nothing that is lent is changed.
 *
 * A security is eligible when it is in the map (bit n is security n) and set up, the age of its
 * price, as calendar_price_age gives it for its quote day and today, is not above oldest, and one
 * lot, as valuation_value gives it, is worth 1 cent or more.
 *
 * The eligible securities are taken by rising number. From each comes the largest count of whole
 * lots in the account whose value is not above what remains of the amount; that value lowers what
 * remains. All other nominals of the answer are 0. The value found is never above the amount.
 *
 * Code 4: a nominal of the account is above 500,000,000, a security is neither not set up nor in
 * the ranges above, the map is 0, oldest is above 255, or the amount is above 10^13. This is so
 * for all 64 nominals and securities, whether in the map or not.
 * Code 7: today is not open or is above YORDZEPA_LAST_DAY, or the quote day of a security that is
 * set up, in the map or not, is not open or is after today.
 */
struct yordzepa_pick picking_pick(const uint64_t account[YORDZEPA_SECURITIES],
                                  const uint64_t columns[YORDZEPA_COLUMNS * YORDZEPA_SECURITIES],
                                  uint64_t map, uint64_t oldest, uint64_t today, uint64_t amount);

/*
 * Frees what a position, which has the nominal held of each security, has above an exposure in
 * cents. Nothing that is lent is changed.
 *
 * The value of a position is the sum of the values of its securities, each at its whole nominal; a
 * security that is not set up is worth 0.
 *
 * If the position is worth less than the exposure, nothing goes back. Else, by falling number of
 * the securities that are set up, the largest count of whole lots goes back that leaves the
 * position worth the exposure or more. Lots whose going back costs no cent go back too. Whether a
 * price is old, or the security in some basket, plays no part, and the quote days of securities
 * that are set up may be any numbers.
 *
 * Code 4: a nominal of the position is above 500,000,000, a security is neither not set up nor in
 * the ranges above, or the exposure is above 10^13.
 */
struct yordzepa_free picking_free(const uint64_t position[YORDZEPA_SECURITIES],
                                  const uint64_t columns[YORDZEPA_COLUMNS * YORDZEPA_SECURITIES],
                                  uint64_t exposure);

/* ---- Records -------------------------------------------------------------------------------- */

/*
 * Reads one record: a byte of kind, then the fields, big-endian and without gaps. The bytes are
 * not changed.
 *
 *   kind            bytes   fields in order: bits (range, all values if none is named)
 *    0 opening        9     day 32, tolerance 32 (1 to 100,000,000)
 *    1 price         16     security 8 (0 to 63), lot 32 (1 to 1,000,000), price 32 (1 to
 *                           3,000,000), haircut 16 (0 to 9,999), quote day 32
 *    2 participant    8     number 8 (0 to 31), mode 8 (0 automatic, 1 list, 2 by hand), list 32
 *                           (bit n is giver n), partial 8 (0, 1)
 *    3 basket        11     number 8 (0 to 15), map 64 (not 0; bit n is security n), greatest
 *                           age 8
 *    4 deposit        7     participant 8 (0 to 31), security 8 (0 to 63), nominal 32 (1 to
 *                           500,000,000)
 *    5 withdrawal     7     as a deposit
 *    6 FOP           29     side 8 (0 giver, 1 taker), giver 8 (0 to 31), taker 8 (0 to 31),
 *                           basket 8 (0 to 15), amount 64 (1 to 10^12), settlement 32, closing 32
 *                           (0 is open-ended), reference 64
 *    7 return        25     side 8 (0, 1), giver 8 (0 to 31), taker 8 (0 to 31), exposure 8 (0 to
 *                           63), amount 64 (1 to 10^12), settlement 32, reference 64
 *    8 cancel         6     participant 8 (0 to 31), request number 32
 *    9 settle         1     none
 *   10 mark           1     none
 *   11 recall         8     giver 8 (0 to 31), exposure 8 (0 to 63), security 8 (0 to 63), nominal
 *                           32 (1 or more)
 *   12 next day       1     none
 *
 * The bytes are those of the whole record with its kind. Days are not looked at: any 32 bits are
 * read. Fields past the kind's last are 0 in the answer.
 *
 * Code 3: the length is 0, the kind is unknown, or the length is not that of the kind.
 * Code 4: a field is out of its range. The kind in the answer is then 0, as in all refusals.
 */
struct yordzepa_reading records_read(const uint8_t *bytes, size_t length);

/*
 * Writes one whole record with its byte of kind into the part lent, whose length must be that of
 * the kind in the table above. Returns the code. What it writes, records_read reads back as the
 * same kind and fields.
 *
 * Code 3: the kind is unknown, or the part has another length than the kind.
 * Code 4: a field is out of its range, or a number past the kind's last field is not 0.
 * A refused call leaves the part as it was.
 */
uint64_t records_write(uint64_t kind, const uint64_t fields[YORDZEPA_FIELDS], uint8_t *part,
                       size_t length);

/* ---- The book ------------------------------------------------------------------------------- */

/*
 * Applies one record to a book. The book is YORDZEPA_BOOK bytes that the host keeps; it begins with
 * an opening (kind 0), which is accepted whatever the book held, where its day is open. The record is
 * as at records_read; a FOP's amount below the book's tolerance gives 4 too.
 *
 * The answer is code, A, B, M. A, B and M are 0 but for:
 *
 *   6 FOP, 7 return   A the request's number, B the number of the request it is paired with (or 0)
 *   9 settle          A FOPs changed, B returns changed, M cents settled by both
 *   10 mark           A exposures that gave back, B exposures that took in, M cents missing after
 *   11 recall         B securities picked, M the value found in cents
 *   12 next day       A the new day, B request rows dropped, M cents closed
 *
 * A refused call has its code, 1 to 16, in the answer and 0 in the other numbers, and leaves every
 * byte of the book as it was.
 */
void engine_call(uint8_t *book, size_t book_length, const uint8_t *record, size_t record_length,
                 uint64_t answer[YORDZEPA_ANSWER]);

/*
 * The reads. None changes the book. Each answer begins with the code, and its other numbers are 0
 * in a refusal. Codes of all reads: 1, 2, 4 for a number out of its range, 5 for what is not set up
 * or not in use (a request's number has no range: it never gives 4).
 */

/* The nominal of one security in a participant's account: code, nominal. */
void reads_account(const uint8_t *book, size_t book_length, uint64_t participant,
                   uint64_t security, uint64_t answer[YORDZEPA_NOMINAL_ANSWER]);

/* The nominal of one security in an exposure's position: code, nominal. */
void reads_position(const uint8_t *book, size_t book_length, uint64_t exposure, uint64_t security,
                    uint64_t answer[YORDZEPA_NOMINAL_ANSWER]);

/* An exposure: code, giver, taker, basket, closing day (0 is open-ended), amount. */
void reads_exposure(const uint8_t *book, size_t book_length, uint64_t exposure,
                    uint64_t answer[YORDZEPA_EXPOSURE_ANSWER]);

/*
 * A request by its number: code, kind (6 or 7), side, giver, taker, basket or exposure, amount,
 * settlement day, closing day (0 for a return), reference, settled amount, number of its partner
 * (0 if unpaired), 1 if both parties allowed partial settlement when they paired, 1 if its owner
 * has cancelled it while paired, 1 if it has ended.
 */
void reads_request(const uint8_t *book, size_t book_length, uint64_t number,
                   uint64_t answer[YORDZEPA_REQUEST_ANSWER]);

/* A basket: code, map, greatest age, how many securities it holds, the lowest of them. */
void reads_basket(const uint8_t *book, size_t book_length, uint64_t basket,
                  uint64_t answer[YORDZEPA_BASKET_ANSWER]);

#ifdef __cplusplus
}
#endif

#endif
