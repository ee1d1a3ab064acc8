/* A surveyor's visit: `site FILE` scores a sheet's house on site, and then again after each wall that is deleted or
 * added. The changes stand on standard input, a line each: a wall's eight numbers to add it, or the number of a row to
 * delete the wall there.
 *
 *     tools/archive x86_64-linux-gnu
 *     cc -std=c99 -I include examples/site.c target/archive/x86_64-linux-gnu/libgirderbasil.a -o site
 *     printf '4 1 1 2 20 2000 1 1\n6\n' | ./site examples/p1.sheet
 *
 * A change that is refused is said, and leaves the house as it was. Exit status: 0 all lines are read, 1 the sheet is
 * refused, 2 the file or a line can't be read, 3 the scores can't be printed.
 */
#include <ctype.h>
#include <errno.h>
#include <inttypes.h>
#include <stdio.h>
#include <stdlib.h>
#include <string.h>

#include "girderbasil.h"

/* One byte more than the longest sheet has, so that a longer file isn't taken for one that fits. */
static uint8_t sheet[GIRDERBASIL_MOST_ROWS * GIRDERBASIL_LINE + 1];

/* Room for the sheet's table and for every wall that may be added. Only its first `totals.rows` rows are in use. */
static uint32_t table[GIRDERBASIL_MOST_ROWS * GIRDERBASIL_ROW];
static const size_t table_length = sizeof table / sizeof table[0];

/* What the walls hold. It is the library's to keep up: from the start on nothing else writes to it, nor to the table. */
static girderbasil_totals totals;

static void say_refusal(uint32_t number, uint32_t row, uint32_t column)
{
    printf("refused: number %u, row %u, column %u\n", (unsigned)number, (unsigned)row, (unsigned)column);
}

/* Shows the scores after a call, with what is held in 0.000001 kN, or why it is refused. */
static void say(girderbasil_scoring scoring)
{
    uint32_t each;

    if (scoring.number != 0) {
        say_refusal(scoring.number, scoring.row, scoring.column);
        return;
    }
    printf("%u rows, verdict %u", (unsigned)totals.rows, (unsigned)scoring.verdict);
    for (each = 0; each < scoring.count; each++)
        printf(", storey %u %c %u.%02u (held %" PRIu64 ")", (unsigned)(each / 2 + 1), "XY"[each % 2],
               (unsigned)(scoring.scores[each] / 100), (unsigned)(scoring.scores[each] % 100), totals.held[each]);
    putchar('\n');
}

/* The numbers of a line, at most as many as a row has: how many, or 0 where it has anything else. */
static size_t numbers_of(const char *line, uint32_t numbers[GIRDERBASIL_ROW])
{
    size_t count = 0;

    for (;;) {
        char *end;
        unsigned long number;

        line += strspn(line, " \t\r\n");
        if (*line == '\0')
            return count;
        if (!isdigit((unsigned char)*line) || count == GIRDERBASIL_ROW)
            return 0;
        errno = 0;
        number = strtoul(line, &end, 10);
        if (errno != 0 || number > UINT32_MAX)
            return 0;
        numbers[count++] = (uint32_t)number;
        line = end;
    }
}

/* Reads a sheet's bytes: how many. Stops the program where they can't be read. */
static size_t read_file(const char *name)
{
    FILE *file = fopen(name, "rb");
    size_t length = file == NULL ? 0 : fread(sheet, 1, sizeof sheet, file);

    if (file == NULL || ferror(file)) {
        perror(name);
        exit(2);
    }
    fclose(file);
    return length;
}

/* Does what each line of standard input says: whether every line says something. */
static int change_by_lines(void)
{
    char line[128];
    uint32_t numbers[GIRDERBASIL_ROW];

    while (fgets(line, sizeof line, stdin) != NULL) {
        /* Of a longer line only a part was read, which says something else; the last line may end without a newline. */
        int whole = strchr(line, '\n') != NULL || feof(stdin);

        switch (whole ? numbers_of(line, numbers) : 0) {
        case GIRDERBASIL_ROW:
            say(girderbasil_add_wall(&totals, table, table_length, numbers));
            break;
        case 1:
            say(girderbasil_delete_wall(&totals, table, table_length, numbers[0]));
            break;
        default:
            fprintf(stderr, "neither a wall's eight numbers nor a row: %s", line);
            return 0;
        }
    }
    return !ferror(stdin);
}

int main(int argc, char **argv)
{
    girderbasil_answer read;
    girderbasil_scoring scoring;
    int understood;

    if (argc != 2) {
        fprintf(stderr, "usage: site FILE\n");
        return 2;
    }
    read = girderbasil_read(sheet, read_file(argv[1]), table, table_length);
    if (read.number != 0) {
        say_refusal(read.number, read.row, read.column);
        return 1;
    }

    /* The rows that were read are in use. A start judges them, fills in what the walls hold, and has the scores. */
    totals.rows = read.count;
    scoring = girderbasil_start(&totals, table, table_length);
    say(scoring);
    if (scoring.number != 0)
        return 1;

    understood = change_by_lines();
    if (fflush(stdout) != 0 || ferror(stdout)) {
        perror("standard output");
        return 3;
    }
    return understood ? 0 : 2;
}
