/* Scores a sheet: `score FILE` prints the house's report, or the line that says why the sheet is refused. Where the
 * house is scored, it also shows the scores in a way of its own, on standard error; else the trade's words for why not.
 *
 *     tools/archive x86_64-linux-gnu
 *     cc -std=c99 -I include examples/score.c target/archive/x86_64-linux-gnu/libgirderbasil.a -o score
 *     ./score examples/p1.sheet
 *
 * Exit status: 0 the house is scored, 1 its sheet is refused, 2 the file can't be read, 3 the report or the line
 * can't be printed.
 */
#include <inttypes.h>
#include <stdio.h>

#include "girderbasil.h"

/* One byte more than the longest sheet has, so that a longer file isn't taken for one that fits. */
static uint8_t sheet[GIRDERBASIL_MOST_ROWS * GIRDERBASIL_LINE + 1];

/* Room for any sheet's table. The library allocates nothing: it fills what it is lent. */
static uint32_t table[GIRDERBASIL_MOST_ROWS * GIRDERBASIL_ROW];

int main(int argc, char **argv)
{
    FILE *file;
    size_t length;
    girderbasil_output output;
    girderbasil_answer read;
    girderbasil_scoring scoring;
    uint32_t each;

    if (argc != 2) {
        fprintf(stderr, "usage: score FILE\n");
        return 2;
    }
    file = fopen(argv[1], "rb");
    if (file == NULL) {
        perror(argv[1]);
        return 2;
    }
    length = fread(sheet, 1, sizeof sheet, file);
    if (ferror(file)) {
        perror(argv[1]);
        return 2;
    }
    fclose(file);

    /* All at once: the bytes to print, the report's or those of the refusal's line. */
    output = girderbasil_diagnose(sheet, length);
    if (fwrite(output.bytes, 1, output.count, stdout) != output.count || fflush(stdout) != 0) {
        perror("standard output");
        return 3;
    }
    if (output.number != 0) {
        fprintf(stderr, "refused: %s\n", girderbasil_refusal_words(output.number));
        return 1;
    }

    /* By steps, for a host that shows the scores its own way; each step refuses what the whole way would. From bytes
     * to numbers: each line becomes a row of eight. */
    read = girderbasil_read(sheet, length, table, sizeof table / sizeof table[0]);
    if (read.number != 0)
        return 1;

    /* From numbers to scores, in hundredths: two a storey, X before Y. Beside each the record has its whole hundredths
     * without the limit of 9.99, what was left over, and what was divided by. */
    scoring = girderbasil_score(table, (size_t)read.count * GIRDERBASIL_ROW);
    if (scoring.number != 0)
        return 1;
    for (each = 0; each < scoring.count; each++)
        fprintf(stderr,
                "storey %u, direction %c: %u.%02u (%" PRIu64 " hundredths, remainder %" PRIu64 ", divisor %" PRIu64 ")\n",
                (unsigned)(each / 2 + 1), "XY"[each % 2], (unsigned)(scoring.scores[each] / 100),
                (unsigned)(scoring.scores[each] % 100), scoring.hundredths[each], scoring.remainders[each],
                scoring.divisors[each]);
    fprintf(stderr, "verdict %u\n", (unsigned)scoring.verdict);

    /* The record says one thing more. Neither this nor what was left over is in the report. */
    fprintf(stderr, "work started %s\n", scoring.started_by_31_may_1981 ? "by 31 May 1981" : "after 31 May 1981");
    return 0;
}
