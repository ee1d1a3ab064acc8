/* Girderbasil: earthquake diagnosis sheets of Japanese wooden houses, scored (general diagnosis, method 1).
 *
 * Seven functions. Three go from a sheet's bytes to its report's by steps: read, score, write report. The
 * fourth, diagnose, goes all the way at once, and for a refused sheet has the line that tells the refusal. The
 * other three are for changes on site: start, and then add wall and delete wall, each with the new scores.
 * Each is proved to answer what the customer's papers (documents 01 and 02) define, for every input, and to
 * leave lent storage as they define. None keeps anything between calls, allocates, or calls the system, so any
 * threads may call them.
 *
 * What the caller has to see to, as with any C function: a pointer is aligned for its type and stands for as
 * many elements as the length beside it says, and storage that is lent to be filled overlaps no other
 * argument. With length 0 the pointer may be null. A pointer with no length beside it is never null: `totals`
 * stands for one struct, and `wall` for eight numbers. A call takes some 12 KB of stack at most, and one of
 * diagnose, which holds a table of its own, some 26 KB; in the first call the system may need more, to load
 * memcpy.
 *
 * Link libgirderbasil.a: target/archive/TARGET/ has it after `tools/archive TARGET`, for x86-64 Linux as
 * x86_64-linux-gnu, and for ARM64 too (docs/PHONE.md).
 */
#ifndef GIRDERBASIL_H
#define GIRDERBASIL_H

#include <stddef.h>
#include <stdint.h>

/* The version of this header and of the library that belongs to it. */
#define GIRDERBASIL_VERSION "0.7.0"

#ifdef __cplusplus
extern "C" {
#endif

/* Refusals, by the numbers of documents 01 and 02. docs/REFUSALS.md explains each. */
enum {
    GIRDERBASIL_SHEET_LENGTH = 1,
    GIRDERBASIL_MISPRINT = 2,
    GIRDERBASIL_ROW_OUT_OF_ORDER = 3,
    GIRDERBASIL_OUT_OF_RANGE = 4,
    GIRDERBASIL_TOO_MANY_WALLS = 5,
    GIRDERBASIL_ENDS_EXCEED_STOREY = 6,
    GIRDERBASIL_MARK_ON_ABSENT_PART = 7,
    GIRDERBASIL_NO_PARTS = 8,
    GIRDERBASIL_LENT_SPACE_SHORT = 9,
    GIRDERBASIL_NO_SUCH_DAY = 10,
    GIRDERBASIL_DATES_OUT_OF_ORDER = 11,
    GIRDERBASIL_NO_SUCH_WALL = 12
};

/* A function that the header has itself is inline where the language, or else the compiler, has a word for that. */
#if defined(__cplusplus) || (defined(__STDC_VERSION__) && __STDC_VERSION__ >= 199901L)
#define girderbasil_inline inline
#elif defined(__GNUC__) || defined(_MSC_VER)
#define girderbasil_inline __inline
#else
#define girderbasil_inline
#endif

/* The trade's words for an answer's number, those of docs/REFUSALS.md; `accepted` for 0, and `unknown` for a number
 * that no answer has. It is the header's own, and not in the archive.
 */
static girderbasil_inline const char *girderbasil_refusal_words(uint32_t number)
{
    static const char *const words[] = {
        "accepted",
        "sheet length",
        "misprint",
        "row out of order",
        "out of range",
        "too many walls",
        "ends exceed storey",
        "mark on absent part",
        "no parts",
        "lent space short",
        "no such day",
        "dates out of order",
        "no such wall",
    };
    return number < sizeof words / sizeof words[0] ? words[number] : "unknown";
}
#undef girderbasil_inline

/* The bytes of a line, the numbers of a row; the most walls of a house; and the most rows and bytes that are
 * ever needed. The longest sheet has the house, three storeys, six lines of ends, the walls, the parts and the
 * dates.
 */
enum {
    GIRDERBASIL_LINE = 65,
    GIRDERBASIL_ROW = 8,
    GIRDERBASIL_MOST_WALLS = 300,
    GIRDERBASIL_MOST_ROWS = 1 + 3 + 6 + GIRDERBASIL_MOST_WALLS + 1 + 1,
    GIRDERBASIL_MOST_REPORT_BYTES = 7 * GIRDERBASIL_LINE
};

/* Every answer begins with the same three fields: a refusal's number, its row and its column. */

/* A count or a refusal. */
typedef struct {
    uint32_t number; /* 0 where accepted, else the refusal's number */
    uint32_t row;    /* the refusal's place, counted from 1; 0 where it has none */
    uint32_t column;
    uint32_t count; /* rows read or bytes written; 0 where refused */
} girderbasil_answer;

/* A record or a refusal. What has six places goes ground storey X, ground storey Y, next storey X, ..; unused places
 * are 0.
 *
 * The last three fields tell what a score is rounded down from: hundredths * divisor + remainder is what was divided,
 * 1000 * held * layout * the upper number of the deterioration fraction, with what is held in 0.000001 kN and the
 * layout factor in hundredths. It fits into 64 bits for every house. The divisor is what is required, in
 * 0.000000001 kN, times the lower number of that fraction, which is not reduced: 1 where no mark counts, 10 where the
 * fraction is under 7/10, else the points of the parts present. Of a house already repaired the fraction is 9/10 where
 * it would be more, so that the lower number is 10 then, also where no mark counts.
 */
typedef struct {
    uint32_t number; /* 0 where scored, else the refusal's number; then the record is all 0 */
    uint32_t row;
    uint32_t column;
    uint32_t scores[6]; /* in hundredths, at most 999 */
    uint32_t count;     /* how many scores there are: two a storey */
    uint32_t verdict;   /* 1 to 4 */
    uint32_t started_by_31_may_1981; /* 1 where work on the house started on that day or before; else 0 */
    uint64_t hundredths[6]; /* the whole hundredths of each score, without its limit of 999 */
    uint64_t remainders[6]; /* what was left over, smaller than the divisor */
    uint64_t divisors[6];
} girderbasil_scoring;

/* What the scoring program prints for a sheet. */
typedef struct {
    uint32_t number; /* 0 where it is the report, else the refusal's number; then it is the refusal's line */
    uint32_t row;
    uint32_t column;
    uint32_t count; /* how many bytes are printed, for a refusal too; the bytes after them are 0 */
    uint8_t bytes[GIRDERBASIL_MOST_REPORT_BYTES];
} girderbasil_output;

/* What a surveyor keeps on site beside the table: the record of its rows in use and of what its walls hold. The caller
 * sets `rows`, and start fills in `held`; then each change keeps both up. What has six places goes as in a scoring.
 */
typedef struct girderbasil_totals {
    uint64_t held[6]; /* the held strength of each storey and direction, in 0.000001 kN */
    uint32_t rows;    /* how many of the table's rows are in use, from its first */
} girderbasil_totals;

/* The structs as the library has them. A compiler of C11 or C++11 refuses this header where its own differ. */
#if defined(__cplusplus)
#if __cplusplus >= 201103L
#define girderbasil_assert(fact) static_assert(fact, #fact)
#endif
#elif defined(__STDC_VERSION__) && __STDC_VERSION__ >= 201112L
#define girderbasil_assert(fact) _Static_assert(fact, #fact)
#endif
#ifdef girderbasil_assert
girderbasil_assert(sizeof(girderbasil_answer) == 16);
girderbasil_assert(offsetof(girderbasil_answer, number) == 0);
girderbasil_assert(offsetof(girderbasil_answer, row) == 4);
girderbasil_assert(offsetof(girderbasil_answer, column) == 8);
girderbasil_assert(offsetof(girderbasil_answer, count) == 12);
girderbasil_assert(sizeof(girderbasil_scoring) == 192);
girderbasil_assert(offsetof(girderbasil_scoring, number) == 0);
girderbasil_assert(offsetof(girderbasil_scoring, row) == 4);
girderbasil_assert(offsetof(girderbasil_scoring, column) == 8);
girderbasil_assert(offsetof(girderbasil_scoring, scores) == 12);
girderbasil_assert(offsetof(girderbasil_scoring, count) == 36);
girderbasil_assert(offsetof(girderbasil_scoring, verdict) == 40);
girderbasil_assert(offsetof(girderbasil_scoring, started_by_31_may_1981) == 44);
girderbasil_assert(offsetof(girderbasil_scoring, hundredths) == 48);
girderbasil_assert(offsetof(girderbasil_scoring, remainders) == 96);
girderbasil_assert(offsetof(girderbasil_scoring, divisors) == 144);
girderbasil_assert(sizeof(girderbasil_output) == 472);
girderbasil_assert(offsetof(girderbasil_output, number) == 0);
girderbasil_assert(offsetof(girderbasil_output, row) == 4);
girderbasil_assert(offsetof(girderbasil_output, column) == 8);
girderbasil_assert(offsetof(girderbasil_output, count) == 12);
girderbasil_assert(offsetof(girderbasil_output, bytes) == 16);
girderbasil_assert(sizeof(girderbasil_totals) == 56);
girderbasil_assert(offsetof(girderbasil_totals, held) == 0);
girderbasil_assert(offsetof(girderbasil_totals, rows) == 48);
#undef girderbasil_assert
#endif

/* Reads a sheet into a lent table, eight numbers a line.
 *
 * Accepted: `count` rows were read, and stand in the first 8 * count numbers; later numbers are unchanged.
 * Refused, with 1, 9 or 2, tested in that order: no number of the table is changed.
 * A table of 8 * GIRDERBASIL_MOST_ROWS numbers has room for any sheet.
 */
girderbasil_answer girderbasil_read(const uint8_t *sheet, size_t sheet_length,
                                    uint32_t *table, size_t table_length);

/* Scores a table: its record, or a refusal with one of 1, 3, 4, 5, 6, 7, 8, 10, 11. Writes nothing.
 * The length is in numbers: after reading, 8 times the count of rows.
 */
girderbasil_scoring girderbasil_score(const uint32_t *table, size_t table_length);

/* Writes a table's report into lent bytes, a line for each storey and direction and one for the verdict.
 *
 * Accepted: `count` bytes were written, at the front; later bytes are unchanged.
 * Refused, as scoring refuses, or else with 9 where the report is longer than what was lent: no byte is
 * changed. GIRDERBASIL_MOST_REPORT_BYTES bytes have room for any report.
 */
girderbasil_answer girderbasil_write_report(const uint32_t *table, size_t table_length,
                                            uint8_t *report, size_t report_length);

/* What the scoring program prints for a sheet: its report, or the line of its refusal alone. Writes nothing.
 *
 * Print the first `count` bytes in either case, so a host puts no line together itself. A sheet may be
 * refused with any number but 9, as reading and then scoring refuse: there is always room.
 */
girderbasil_output girderbasil_diagnose(const uint8_t *sheet, size_t sheet_length);

/* Changes on site. The table is lent whole and may have any length; its first `totals->rows` rows are in use, and
 * numbers after them are not read. Each of the three functions first judges the rows in use as girderbasil_score does,
 * with 1 also where they are more than the table has. Then it answers the scores of what `totals` says is held; all
 * else is that of the rows. A refusal changes neither the table nor the totals.
 *
 * From a start that is accepted on, with nothing else written between, the totals are the sums over the walls, and
 * each answer is what girderbasil_score gives for the rows in use. From other totals each change moves them by its
 * wall's share alone. Of a storey that the house lacks they are neither looked at nor changed, but by start, which
 * sets them to 0.
 */

/* Fills in what the walls hold in all six places. Set `totals->rows` first: after reading, to the count of rows.
 * Refused as scoring refuses.
 */
girderbasil_scoring girderbasil_start(girderbasil_totals *totals, const uint32_t *table, size_t table_length);

/* Adds a wall, given as the eight numbers of its row. It goes after the last wall whose storey isn't above its own,
 * or with none, after the ends; the rows from there on move down one.
 *
 * Refused as scoring refuses; else with 4 for a column of the wall (a kind other than 4 is column 1), or with 5 where
 * the house has GIRDERBASIL_MOST_WALLS walls, both at the row that the wall would take; else with 9 where the table has
 * no eight numbers more than the rows in use; else with 12 where a total of the house would then be more than
 * 60,000,000,000, which never comes from totals that are the sums.
 */
girderbasil_scoring girderbasil_add_wall(girderbasil_totals *totals, uint32_t *table, size_t table_length,
                                         const uint32_t *wall);

/* Deletes the wall at a row, counted from 1. The rows after it move up one, and the last row in use is set to 0.
 *
 * Refused as scoring refuses; else with 12 at that row, column 0, where it is no wall of the rows in use; else with 12
 * without a place where its total is less than its share, or a total of the house would then be more than
 * 60,000,000,000. Neither comes from totals that are the sums.
 */
girderbasil_scoring girderbasil_delete_wall(girderbasil_totals *totals, uint32_t *table, size_t table_length,
                                            uint32_t row);

#ifdef __cplusplus
}
#endif

#endif
