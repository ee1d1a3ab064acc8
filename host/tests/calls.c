/* Answers calls of the library: takes them from standard input, and gives to standard output what each answered and what
 * it left of what it was lent. host/tests/calls.mjs does the same with the WebAssembly module.
 *
 * A call: the function's name, in 32 bytes, 0 after it; what it only reads; what it fills or changes; its totals. Each of
 * these three is three numbers, how many elements its buffer has before it, in it and after it, and then the buffer;
 * three 0s where the function has no such part. The row that a function takes by itself is what it only reads, and totals
 * are seven elements of 64 bits, the last with 0 in what fills the struct up. A buffer of no bytes is a null pointer. An
 * answer: the fields of the struct, then all three buffers as they are after the call. A number has 32 bits, or in some
 * fields 64, the lowest first, as every machine has it that this is for.
 *
 * A buffer ends where its memory does, so that reading or writing beyond it stops the program.
 */
#define _GNU_SOURCE
#include <stdio.h>
#include <stdlib.h>
#include <string.h>
#include <sys/mman.h>
#include <unistd.h>

#include "girderbasil.h"

/* More than any buffer has. */
#define ROOM (1 << 20)

struct part {
    unsigned char *buffer;
    size_t bytes;
    void *start;
    size_t length;
};

static void stop(const char *why)
{
    fprintf(stderr, "calls: %s\n", why);
    exit(1);
}

static void take(void *into, size_t bytes)
{
    if (fread(into, 1, bytes, stdin) != bytes)
        stop("a call is cut short");
}

static void give(const void *from, size_t bytes)
{
    if (fwrite(from, 1, bytes, stdout) != bytes)
        stop("an answer can't be written");
}

/* Memory that ends where nothing may be read or written: its end. */
static unsigned char *memory(void)
{
    size_t page = (size_t)sysconf(_SC_PAGESIZE);
    unsigned char *start = mmap(NULL, ROOM + page, PROT_READ | PROT_WRITE, MAP_PRIVATE | MAP_ANONYMOUS, -1, 0);

    if (start == MAP_FAILED || mprotect(start + ROOM, page, PROT_NONE) != 0)
        stop("there is no memory");
    return start + ROOM;
}

static void take_part(struct part *part, unsigned char *end, size_t element)
{
    uint32_t counts[3];

    take(counts, sizeof counts);
    part->length = counts[1];
    part->bytes = ((size_t)counts[0] + counts[1] + counts[2]) * element;
    if (part->bytes > ROOM)
        stop("a buffer is too large");
    part->buffer = end - part->bytes;
    part->start = part->bytes == 0 ? NULL : part->buffer + counts[0] * element;
    take(part->buffer, part->bytes);
}

/* The parts of a call, in their order. */
enum { GIVEN, LENT, TOTALS, PARTS };

static void give_scoring(girderbasil_scoring scoring)
{
    give(&scoring, sizeof scoring);
}

static void call_read(const struct part *part)
{
    girderbasil_answer answer =
        girderbasil_read(part[GIVEN].start, part[GIVEN].length, part[LENT].start, part[LENT].length);

    give(&answer, sizeof answer);
}

static void call_score(const struct part *part)
{
    give_scoring(girderbasil_score(part[GIVEN].start, part[GIVEN].length));
}

static void call_write_report(const struct part *part)
{
    girderbasil_answer answer =
        girderbasil_write_report(part[GIVEN].start, part[GIVEN].length, part[LENT].start, part[LENT].length);

    give(&answer, sizeof answer);
}

static void call_diagnose(const struct part *part)
{
    girderbasil_output output = girderbasil_diagnose(part[GIVEN].start, part[GIVEN].length);

    /* Without the byte that fills the struct up. */
    give(&output, offsetof(girderbasil_output, bytes) + sizeof output.bytes);
}

static void call_start(const struct part *part)
{
    give_scoring(girderbasil_start(part[TOTALS].start, part[GIVEN].start, part[GIVEN].length));
}

static void call_add_wall(const struct part *part)
{
    give_scoring(
        girderbasil_add_wall(part[TOTALS].start, part[LENT].start, part[LENT].length, part[GIVEN].start));
}

static void call_delete_wall(const struct part *part)
{
    const uint32_t *row = part[GIVEN].start;

    give_scoring(girderbasil_delete_wall(part[TOTALS].start, part[LENT].start, part[LENT].length, *row));
}

/* The bytes that fill the struct up are no field, and what they are after a call says nothing. */
static void clear_filling(const struct part *totals)
{
    size_t fields = offsetof(girderbasil_totals, rows) + sizeof(uint32_t);

    if (totals->length > 0)
        memset((unsigned char *)totals->start + fields, 0, sizeof(girderbasil_totals) - fields);
}

/* Each function, with the bytes of an element of what it reads and of what it fills. */
static const struct function {
    const char *name;
    size_t given, lent;
    void (*call)(const struct part *part);
} functions[] = {
    {"girderbasil_read", 1, 4, call_read},
    {"girderbasil_score", 4, 1, call_score},
    {"girderbasil_write_report", 4, 1, call_write_report},
    {"girderbasil_diagnose", 1, 1, call_diagnose},
    {"girderbasil_start", 4, 1, call_start},
    {"girderbasil_add_wall", 4, 4, call_add_wall},
    {"girderbasil_delete_wall", 4, 4, call_delete_wall},
};

static const struct function *function_of(const char *name)
{
    size_t each;

    for (each = 0; each < sizeof functions / sizeof functions[0]; each++)
        if (strcmp(functions[each].name, name) == 0)
            return &functions[each];
    stop("there is no such function");
    return NULL;
}

int main(void)
{
    unsigned char *ends[PARTS];
    char name[32];
    size_t each;

    for (each = 0; each < PARTS; each++)
        ends[each] = memory();
    while (fread(name, 1, sizeof name, stdin) == sizeof name) {
        const struct function *function;
        struct part parts[PARTS];

        name[sizeof name - 1] = 0;
        function = function_of(name);
        take_part(&parts[GIVEN], ends[GIVEN], function->given);
        take_part(&parts[LENT], ends[LENT], function->lent);
        take_part(&parts[TOTALS], ends[TOTALS], sizeof(uint64_t));
        function->call(parts);
        clear_filling(&parts[TOTALS]);
        for (each = 0; each < PARTS; each++)
            give(parts[each].buffer, parts[each].bytes);
    }
    return fflush(stdout) == 0 ? 0 : 1;
}
