/* How much stack each function of the library takes: a line for each, its name and the bytes, for the sheet on standard
 * input. host/tests/stack.mjs does the same with the WebAssembly module.
 *
 * Each call is made on a stack of its own, filled beforehand; the lowest byte that has changed tells how deep it went.
 * What a call of an empty function takes is left out. All are called once before, so that the C library's functions
 * are already loaded.
 */
#define _GNU_SOURCE
#include <stdio.h>
#include <string.h>
#include <ucontext.h>

#include "girderbasil.h"

#define STACK (256 * 1024)
#define FILLING 0xa5

static unsigned char stack[STACK];
static uint8_t sheet[GIRDERBASIL_MOST_ROWS * GIRDERBASIL_LINE + 1];
static size_t sheet_length;
static uint32_t table[GIRDERBASIL_MOST_ROWS * GIRDERBASIL_ROW];
static size_t table_length;
static uint8_t report[GIRDERBASIL_MOST_REPORT_BYTES];

/* The first wall of the table and its row, counted from 1, after the house, the storeys and their ends. */
static uint32_t wall[GIRDERBASIL_ROW];
static uint32_t wall_row;
static girderbasil_totals totals;

/* Answers are kept where they take no stack. */
static girderbasil_answer answer;
static girderbasil_scoring scoring, started, added, deleted;
static girderbasil_output output;

static void call_nothing(void)
{
}

static void call_read(void)
{
    answer = girderbasil_read(sheet, sheet_length, table, sizeof table / sizeof table[0]);
    table_length = (size_t)answer.count * GIRDERBASIL_ROW;
}

static void call_score(void)
{
    scoring = girderbasil_score(table, table_length);
}

static void call_write_report(void)
{
    answer = girderbasil_write_report(table, table_length, report, sizeof report);
}

static void call_diagnose(void)
{
    output = girderbasil_diagnose(sheet, sheet_length);
}

static void call_start(void)
{
    started = girderbasil_start(&totals, table, table_length);
}

static void call_add_wall(void)
{
    added = girderbasil_add_wall(&totals, table, table_length, wall);
}

static void call_delete_wall(void)
{
    deleted = girderbasil_delete_wall(&totals, table, table_length, wall_row);
}

static void take_first_wall(void)
{
    wall_row = 2 + 3 * table[1];
    memcpy(wall, table + (wall_row - 1) * GIRDERBASIL_ROW, sizeof wall);
    totals.rows = (uint32_t)(table_length / GIRDERBASIL_ROW);
}

static size_t stack_of(void (*call)(void))
{
    static ucontext_t here, there;
    size_t untouched = 0;

    memset(stack, FILLING, sizeof stack);
    getcontext(&there);
    there.uc_stack.ss_sp = stack;
    there.uc_stack.ss_size = sizeof stack;
    there.uc_link = &here;
    makecontext(&there, call, 0);
    swapcontext(&here, &there);
    while (untouched < sizeof stack && stack[untouched] == FILLING)
        untouched++;
    return sizeof stack - untouched;
}

int main(void)
{
    size_t nothing = stack_of(call_nothing);

    sheet_length = fread(sheet, 1, sizeof sheet, stdin);
    call_read();
    call_score();
    call_write_report();
    call_diagnose();
    printf("girderbasil_read %zu\n", stack_of(call_read) - nothing);
    printf("girderbasil_score %zu\n", stack_of(call_score) - nothing);
    printf("girderbasil_write_report %zu\n", stack_of(call_write_report) - nothing);
    printf("girderbasil_diagnose %zu\n", stack_of(call_diagnose) - nothing);

    /* These change the table that was read. There is room for a wall once one is deleted. */
    take_first_wall();
    call_start();
    call_delete_wall();
    call_add_wall();
    call_delete_wall();
    printf("girderbasil_start %zu\n", stack_of(call_start) - nothing);
    printf("girderbasil_add_wall %zu\n", stack_of(call_add_wall) - nothing);
    printf("girderbasil_delete_wall %zu\n", stack_of(call_delete_wall) - nothing);
    return scoring.number + answer.number + output.number + started.number + added.number + deleted.number == 0 ? 0 : 1;
}
