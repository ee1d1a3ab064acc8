/* Every name of include/girderbasil.h against the library. Each refusal is provoked by a sheet or a table of its
 * own, made from P1 of document 01, and each size is tried at its edge. The version is compared with the one argument,
 * and the trade's words with those of the papers.
 *
 * Prints a line for each difference; the exit status is 0 where there is none. It is C and C++ at once:
 * host/tests/header.rs compiles and runs it as both.
 */
#include <stdio.h>
#include <string.h>

#include "girderbasil.h"

/* Document 01's own sizes, to make sheets by. The header's are under test. */
#define COLUMNS 8
#define FIELD 8
#define LINE (COLUMNS * FIELD + 1)
#define MOST_BYTES (7 * LINE)
/* More rows than any table here has. */
#define ROOM 400

static const uint32_t p1[12][COLUMNS] = {
    {1, 1, 2, 100, 1, 1, 0, 0},
    {2, 1, 4000, 5000, 1, 0, 0, 0},
    {3, 1, 1, 1000, 1000, 1, 1, 0},
    {3, 1, 2, 1000, 1000, 1, 1, 0},
    {4, 1, 1, 1, 20, 2000, 1, 1},
    {4, 1, 1, 2, 0, 2000, 0, 2},
    {4, 1, 1, 3, 20, 2000, 1, 1},
    {4, 1, 2, 1, 20, 2000, 1, 1},
    {4, 1, 2, 2, 20, 4000, 1, 1},
    {4, 1, 2, 3, 20, 2000, 1, 1},
    {5, 8191, 8, 0, 0, 0, 0, 0},
    {8, 19800401, 19801001, 20120401, 0, 0, 0, 0},
};

/* What a record must have. */
struct record {
    uint32_t scores[6], count, verdict, started;
    uint64_t hundredths[6], remainders[6], divisors[6];
};

/* A refused table's. */
static const struct record no_record = {
    {0, 0, 0, 0, 0, 0}, 0, 0, 0, {0, 0, 0, 0, 0, 0}, {0, 0, 0, 0, 0, 0}, {0, 0, 0, 0, 0, 0},
};

static const struct record p1_record = {
    {47, 83, 0, 0, 0, 0},
    2,
    4,
    1,
    {47, 83, 0, 0, 0, 0},
    {352000000000, 128000000000, 0, 0, 0, 0},
    {384000000000, 384000000000, 0, 0, 0, 0},
};

/* P1 with its first wall twice, and then without its window too. */
static const struct record added_record = {
    {68, 83, 0, 0, 0, 0},
    2,
    4,
    1,
    {68, 83, 0, 0, 0, 0},
    {288000000000, 128000000000, 0, 0, 0, 0},
    {384000000000, 384000000000, 0, 0, 0, 0},
};

static const struct record deleted_record = {
    {62, 83, 0, 0, 0, 0},
    2,
    4,
    1,
    {62, 83, 0, 0, 0, 0},
    {192000000000, 128000000000, 0, 0, 0, 0},
    {384000000000, 384000000000, 0, 0, 0, 0},
};

/* P1 on a hundredth of its area: both scores are at their limit. */
static const struct record small_record = {
    {999, 999, 0, 0, 0, 0},
    2,
    1,
    1,
    {4791, 8333, 0, 0, 0, 0},
    {2560000000, 1280000000, 0, 0, 0, 0},
    {3840000000, 3840000000, 0, 0, 0, 0},
};

static const char p1_report[] =
    "       6       1       1     920    1600     100      83      47\n"
    "       6       1       2    1600    1600     100      83      83\n"
    "       7       4      47       0       0       0       0       0\n";

/* The table at hand, its sheet, and what is lent to be filled. */
static uint32_t table[ROOM * COLUMNS];
static size_t rows;
static uint8_t sheet[ROOM * LINE + 1];
static size_t sheet_length;
static uint32_t lent_table[ROOM * COLUMNS];
static uint8_t lent_report[1000];

static int differences;

/* Puts a number at a row and column, counted from 1. */
static void put(size_t row, size_t column, uint32_t number)
{
    table[(row - 1) * COLUMNS + column - 1] = number;
}

/* Adds a row of P1, counted from 1. */
static void add(size_t row)
{
    memcpy(table + rows * COLUMNS, p1[row - 1], sizeof p1[0]);
    rows++;
}

static void make_p1(void)
{
    size_t row;

    rows = 0;
    for (row = 1; row <= 12; row++)
        add(row);
}

/* P1's house with so many storeys, each like its own, and so many walls, each like its last. */
static void make_house(uint32_t storeys, size_t walls)
{
    uint32_t storey, direction;

    rows = 0;
    add(1);
    put(rows, 2, storeys);
    for (storey = 1; storey <= storeys; storey++) {
        add(2);
        put(rows, 2, storey);
    }
    for (storey = 1; storey <= storeys; storey++)
        for (direction = 1; direction <= 2; direction++) {
            add(2 + direction);
            put(rows, 2, storey);
            put(rows, 6, storeys);
            put(rows, 7, storeys);
        }
    for (; walls > 0; walls--)
        add(10);
    add(11);
    add(12);
}

/* Prints the table at hand as a sheet. */
static void make_sheet(void)
{
    size_t each;

    sheet_length = 0;
    for (each = 0; each < rows * COLUMNS; each++) {
        sheet_length += (size_t)sprintf((char *)sheet + sheet_length, "%8lu", (unsigned long)table[each]);
        if (each % COLUMNS == COLUMNS - 1)
            sheet[sheet_length++] = '\n';
    }
}

/* A long has 64 bits on every machine that this is compiled for; C++98 knows no longer type. */
static void compare(const char *of_what, const char *field, uint64_t told, uint64_t due)
{
    if (told != due) {
        printf("%s: the %s is %lu where %lu is due\n", of_what, field, (unsigned long)told, (unsigned long)due);
        differences++;
    }
}

static void compare_bytes(const char *of_what, const void *found, const void *due, size_t length)
{
    if (memcmp(found, due, length) != 0) {
        printf("%s: the bytes are other than is due\n", of_what);
        differences++;
    }
}

static void compare_answer(const char *of_what, girderbasil_answer told, uint32_t number, uint32_t row, uint32_t column,
                           uint32_t count)
{
    compare(of_what, "number", told.number, number);
    compare(of_what, "row", told.row, row);
    compare(of_what, "column", told.column, column);
    compare(of_what, "count", told.count, count);
}

static void compare_scoring(const char *of_what, girderbasil_scoring told, uint32_t number, uint32_t row,
                            uint32_t column, struct record due)
{
    size_t each;

    compare(of_what, "number", told.number, number);
    compare(of_what, "row", told.row, row);
    compare(of_what, "column", told.column, column);
    compare(of_what, "count", told.count, due.count);
    compare(of_what, "verdict", told.verdict, due.verdict);
    compare(of_what, "start of work", told.started_by_31_may_1981, due.started);
    for (each = 0; each < 6; each++) {
        compare(of_what, "score", told.scores[each], due.scores[each]);
        compare(of_what, "whole hundredths", told.hundredths[each], due.hundredths[each]);
        compare(of_what, "remainder", told.remainders[each], due.remainders[each]);
        compare(of_what, "divisor", told.divisors[each], due.divisors[each]);
    }
}

/* What is held in the ground storey, and nothing in another. */
static void compare_totals(const char *of_what, girderbasil_totals kept, uint64_t x, uint64_t y, uint32_t in_use)
{
    size_t each;

    compare(of_what, "total of X", kept.held[0], x);
    compare(of_what, "total of Y", kept.held[1], y);
    for (each = 2; each < 6; each++)
        compare(of_what, "total of a storey above", kept.held[each], 0);
    compare(of_what, "count of rows in use", kept.rows, in_use);
}

/* What is printed for a sheet: the fields, the bytes from the front, and 0 in every byte after them. */
static void compare_output(const char *of_what, girderbasil_output told, uint32_t number, uint32_t row, uint32_t column,
                           uint32_t count, const void *printed)
{
    uint8_t due[MOST_BYTES] = {0};

    memcpy(due, printed, count);
    compare(of_what, "number", told.number, number);
    compare(of_what, "row", told.row, row);
    compare(of_what, "column", told.column, column);
    compare(of_what, "count", told.count, count);
    compare(of_what, "room", (uint32_t)sizeof told.bytes, MOST_BYTES);
    compare_bytes(of_what, told.bytes, due, sizeof due);
}

/* Has some bytes of the sheet at hand read into so many numbers. */
static girderbasil_answer read_sheet(size_t length, size_t numbers)
{
    return girderbasil_read(sheet, length, lent_table, numbers);
}

/* Has some numbers of the table at hand reported into so many bytes. */
static girderbasil_answer write_report(size_t numbers, size_t bytes)
{
    return girderbasil_write_report(table, numbers, lent_report, bytes);
}

/* For the sheet at hand so many bytes are printed. */
static void sheet_prints(const char *of_what, uint32_t number, uint32_t row, uint32_t column, uint32_t count,
                         const void *printed)
{
    compare_output(of_what, girderbasil_diagnose(sheet, sheet_length), number, row, column, count, printed);
}

/* The sheet at hand is refused by the reader. */
static void sheet_refused(const char *of_what, uint32_t number, uint32_t row, uint32_t column)
{
    compare_answer(of_what, read_sheet(sheet_length, ROOM * COLUMNS), number, row, column, 0);
}

/* So many numbers of the table at hand are refused, by the scoring and by the report. */
static void numbers_refused(const char *of_what, size_t numbers, uint32_t number, uint32_t row, uint32_t column)
{
    compare_scoring(of_what, girderbasil_score(table, numbers), number, row, column, no_record);
    compare_answer(of_what, write_report(numbers, sizeof lent_report), number, row, column, 0);
}

/* The table at hand is refused. */
static void table_refused(const char *of_what, uint32_t number, uint32_t row, uint32_t column)
{
    numbers_refused(of_what, rows * COLUMNS, number, row, column);
}

/* The table at hand is scored. */
static void table_scored(const char *of_what, struct record due)
{
    compare_scoring(of_what, girderbasil_score(table, rows * COLUMNS), 0, 0, 0, due);
}

/* P1 with another number at a row and column is refused. */
static void p1_refused(const char *of_what, size_t at_row, size_t at_column, uint32_t put_there, uint32_t number,
                       uint32_t row, uint32_t column)
{
    make_p1();
    put(at_row, at_column, put_there);
    table_refused(of_what, number, row, column);
}

static void try_p1(void)
{
    uint32_t bytes = (uint32_t)strlen(p1_report);

    make_p1();
    make_sheet();
    compare_answer("P1, read", read_sheet(sheet_length, ROOM * COLUMNS), 0, 0, 0, 12);
    compare_bytes("P1, read", lent_table, p1, sizeof p1);
    table_scored("P1, scored", p1_record);
    compare_answer("P1, reported", write_report(rows * COLUMNS, sizeof lent_report), 0, 0, 0, bytes);
    compare_bytes("P1, reported", lent_report, p1_report, bytes);
}

/* P1 with work that started on a day, and a completion after each day that is tried. */
static void try_start(const char *of_what, uint32_t day, uint32_t started)
{
    struct record due = p1_record;

    due.started = started;
    make_p1();
    put(12, 2, day);
    put(12, 3, 19820101);
    table_scored(of_what, due);
}

static void try_starts(void)
{
    try_start("work started on 31 May 1981", 19810531, 1);
    try_start("work started on 1 June 1981", 19810601, 0);
}

static void try_limit(void)
{
    size_t direction;

    make_p1();
    put(2, 3, 40);
    for (direction = 1; direction <= 2; direction++) {
        put(2 + direction, 4, 10);
        put(2 + direction, 5, 10);
    }
    table_scored("scores at their limit", small_record);
}

static void try_refusals(void)
{
    rows = 0;
    sheet_length = 0;
    sheet_refused("no sheet", GIRDERBASIL_SHEET_LENGTH, 0, 0);
    table_refused("no table", GIRDERBASIL_SHEET_LENGTH, 0, 0);

    make_p1();
    make_sheet();
    memcpy(sheet + 4 * LINE + 5 * FIELD, "   02000", FIELD);
    sheet_refused("a leading zero", GIRDERBASIL_MISPRINT, 5, 6);
    make_sheet();
    sheet[4 * LINE - 1] = '\r';
    sheet_refused("a line that ends otherwise", GIRDERBASIL_MISPRINT, 4, 9);

    p1_refused("the ends of X again", 4, 3, 1, GIRDERBASIL_ROW_OUT_OF_ORDER, 4, 1);
    p1_refused("a zone there is not", 1, 4, 95, GIRDERBASIL_OUT_OF_RANGE, 1, 4);
    make_house(1, GIRDERBASIL_MOST_WALLS + 1);
    table_refused("301 walls", GIRDERBASIL_TOO_MANY_WALLS, 305, 1);
    p1_refused("ends that exceed the storey", 3, 5, 3001, GIRDERBASIL_ENDS_EXCEED_STOREY, 3, 4);
    p1_refused("a marked part that is absent", 11, 2, 8183, GIRDERBASIL_MARK_ON_ABSENT_PART, 11, 3);
    make_p1();
    put(11, 2, 0);
    put(11, 3, 0);
    table_refused("no parts", GIRDERBASIL_NO_PARTS, 11, 2);
    p1_refused("29 February 1900", 12, 2, 19000229, GIRDERBASIL_NO_SUCH_DAY, 12, 2);
    p1_refused("a survey before the completion", 12, 4, 19800930, GIRDERBASIL_DATES_OUT_OF_ORDER, 12, 4);

    make_p1();
    make_sheet();
    compare_answer("no room to read", read_sheet(sheet_length, 0), GIRDERBASIL_LENT_SPACE_SHORT, 0, 0, 0);
    compare_answer("no room to report", write_report(rows * COLUMNS, 0), GIRDERBASIL_LENT_SPACE_SHORT, 0, 0, 0);
}

static void try_line_and_row(void)
{
    make_p1();
    make_sheet();
    compare_answer("a line", read_sheet(GIRDERBASIL_LINE, GIRDERBASIL_ROW), 0, 0, 0, 1);
    compare_answer("a byte less than a line", read_sheet(GIRDERBASIL_LINE - 1, GIRDERBASIL_ROW), GIRDERBASIL_SHEET_LENGTH,
                   0, 0, 0);
    compare_answer("a byte more than a line", read_sheet(GIRDERBASIL_LINE + 1, GIRDERBASIL_ROW), GIRDERBASIL_SHEET_LENGTH,
                   0, 0, 0);
    compare_answer("room for less than a row", read_sheet(GIRDERBASIL_LINE, GIRDERBASIL_ROW - 1),
                   GIRDERBASIL_LENT_SPACE_SHORT, 0, 0, 0);
    /* One row is a table, though one that ends early; a number less or more is none. */
    numbers_refused("a row", GIRDERBASIL_ROW, GIRDERBASIL_ROW_OUT_OF_ORDER, 2, 1);
    numbers_refused("a number less than a row", GIRDERBASIL_ROW - 1, GIRDERBASIL_SHEET_LENGTH, 0, 0);
    numbers_refused("a number more than a row", GIRDERBASIL_ROW + 1, GIRDERBASIL_SHEET_LENGTH, 0, 0);
}

static void try_most_rows(void)
{
    make_house(3, 300);
    make_sheet();
    compare_answer("the longest sheet", read_sheet(sheet_length, GIRDERBASIL_MOST_ROWS * GIRDERBASIL_ROW), 0, 0, 0,
                   GIRDERBASIL_MOST_ROWS);
    compare("the longest table, scored", "number", girderbasil_score(table, rows * COLUMNS).number, 0);
    compare_answer("the longest table, reported", write_report(rows * COLUMNS, GIRDERBASIL_MOST_REPORT_BYTES), 0, 0, 0,
                   GIRDERBASIL_MOST_REPORT_BYTES);

    make_house(3, 301);
    make_sheet();
    compare("a line too many", "count of rows", (uint32_t)rows, GIRDERBASIL_MOST_ROWS + 1);
    sheet_refused("a line too many", GIRDERBASIL_SHEET_LENGTH, 0, 0);
    table_refused("a row too many", GIRDERBASIL_SHEET_LENGTH, 0, 0);
}

static void try_most_report_bytes(void)
{
    make_house(3, 0);
    compare_answer("three storeys", write_report(rows * COLUMNS, GIRDERBASIL_MOST_REPORT_BYTES), 0, 0, 0,
                   GIRDERBASIL_MOST_REPORT_BYTES);
    compare_answer("a byte short", write_report(rows * COLUMNS, GIRDERBASIL_MOST_REPORT_BYTES - 1),
                   GIRDERBASIL_LENT_SPACE_SHORT, 0, 0, 0);
}

/* The longest report comes first: bytes of it that a shorter answer leaves behind would be seen. */
static void try_printed(void)
{
    make_house(3, 300);
    make_sheet();
    write_report(rows * COLUMNS, sizeof lent_report);
    sheet_prints("the longest report, printed", 0, 0, 0, MOST_BYTES, lent_report);

    make_p1();
    make_sheet();
    sheet_prints("P1, printed", 0, 0, 0, 195, p1_report);
    memcpy(sheet + 4 * LINE + 5 * FIELD, "   02000", FIELD);
    sheet_prints("a leading zero, printed", GIRDERBASIL_MISPRINT, 5, 6, LINE,
                 "       0       2       5       6       0       0       0       0\n");
    put(3, 5, 3001);
    make_sheet();
    sheet_prints("ends that exceed the storey, printed", GIRDERBASIL_ENDS_EXCEED_STOREY, 3, 4, LINE,
                 "       0       6       3       4       0       0       0       0\n");
    compare_output("no sheet, printed", girderbasil_diagnose(NULL, 0), GIRDERBASIL_SHEET_LENGTH, 0, 0, LINE,
                   "       0       1       0       0       0       0       0       0\n");
}

/* P1's first wall once more takes row 11. */
static void try_changes(void)
{
    static const uint32_t zeros[COLUMNS] = {0};
    girderbasil_totals totals;
    size_t numbers = 13 * COLUMNS;

    make_p1();
    memset(&totals, 9, sizeof totals);
    totals.rows = 12;
    compare_scoring("P1, started", girderbasil_start(&totals, table, numbers), 0, 0, 0, p1_record);
    compare_totals("P1, started", totals, 9200000, 16000000, 12);

    compare_scoring("a wall added", girderbasil_add_wall(&totals, table, numbers, p1[4]), 0, 0, 0, added_record);
    compare_totals("a wall added", totals, 13200000, 16000000, 13);
    compare_bytes("a wall added", table, p1, 10 * sizeof p1[0]);
    compare_bytes("a wall added, its row", table + 10 * COLUMNS, p1[4], sizeof p1[4]);
    compare_bytes("a wall added, the rows after it", table + 11 * COLUMNS, p1[10], 2 * sizeof p1[0]);
    compare_scoring("a wall for which no row is left", girderbasil_add_wall(&totals, table, numbers, p1[4]),
                    GIRDERBASIL_LENT_SPACE_SHORT, 0, 0, no_record);

    compare_scoring("the ends, deleted", girderbasil_delete_wall(&totals, table, numbers, 4),
                    GIRDERBASIL_NO_SUCH_WALL, 4, 0, no_record);
    compare_scoring("a wall deleted", girderbasil_delete_wall(&totals, table, numbers, 6), 0, 0, 0, deleted_record);
    compare_totals("a wall deleted", totals, 12000000, 16000000, 12);
    compare_bytes("a wall deleted", table, p1, 5 * sizeof p1[0]);
    compare_bytes("a wall deleted, the rows after it", table + 5 * COLUMNS, p1[6], 4 * sizeof p1[0]);
    compare_bytes("a wall deleted, the last row", table + 12 * COLUMNS, zeros, sizeof zeros);

    make_house(1, GIRDERBASIL_MOST_WALLS);
    totals.rows = (uint32_t)rows;
    compare_scoring("the 301st wall", girderbasil_add_wall(&totals, table, ROOM * COLUMNS, p1[4]),
                    GIRDERBASIL_TOO_MANY_WALLS, 305, 1, no_record);
}

static void compare_text(const char *of_what, const char *told, const char *due)
{
    if (strcmp(told, due) != 0) {
        printf("%s: \"%s\" where \"%s\" is due\n", of_what, told, due);
        differences++;
    }
}

/* By the numbers of the papers, and not by the header's names for them. */
static void try_words(void)
{
    static const char *const due[] = {
        "accepted",     "sheet length",       "misprint",            "row out of order", "out of range",
        "too many walls", "ends exceed storey", "mark on absent part", "no parts",         "lent space short",
        "no such day",  "dates out of order", "no such wall",        "unknown",          "unknown",
    };
    uint32_t number;

    for (number = 0; number < sizeof due / sizeof due[0]; number++)
        compare_text("a refusal's words", girderbasil_refusal_words(number), due[number]);
    compare_text("the words of no refusal", girderbasil_refusal_words(UINT32_MAX), "unknown");
}

int main(int argc, char **argv)
{
    compare_text("the version", GIRDERBASIL_VERSION, argc == 2 ? argv[1] : "");
    try_words();
    try_p1();
    try_starts();
    try_limit();
    try_refusals();
    try_line_and_row();
    try_most_rows();
    try_most_report_bytes();
    try_printed();
    try_changes();
    return differences == 0 ? 0 : 1;
}
