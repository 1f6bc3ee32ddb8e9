/* measure STORES [CALL]: what a call through board.h takes on a table of so many stores, each
 * nested in the one before it, with 32 threads and 31 stacks.
 *
 * For each call it prints its report and the bytes of stack that it takes in all: it is made on a
 * stack of its own that was painted before. Linked with nothing.c, it prints the caller's share.
 * With CALL it makes that one alone, so that a counter of instructions can be set on `measured`. */
#define _XOPEN_SOURCE 700 /* for the painted stack */
#include "board.h"

#include <stdio.h>
#include <stdlib.h>
#include <string.h>
#include <ucontext.h>

static struct board_table table;
static uint8_t stores[4096], stacks[1024];
static const struct board_area store_area = {4096, sizeof stores},
                               stack_area = {16384, sizeof stacks};
static const board_thread_id first = {1}, last = {32};
static board_store_id root, deepest, found;
static board_stack_id stack;
static uint32_t number, count;
static uint8_t *run;
static unsigned report;

/* ---- the tables */

/* The chain; the threads are in the root, and the last one in the deepest store. */
static void chain(void)
{
    table = board_zeros();
    board_start_on(&table, store_area, stack_area, &root);
    for (uint32_t i = 1; i <= 32; i++)
        board_add_thread_on(&table, (board_thread_id){i}, root);
    deepest = root;
    for (uint32_t i = 1; i < count; i++) {
        board_free_on(&table, deepest, &number);
        board_make_store_on(&table, last, number - 48, &deepest);
        board_set_context_on(&table, last, deepest);
    }
    for (unsigned i = 0; i < 31; i++)
        board_make_stack_on(&table, 8, &stack);
}

/* A store less, so that there is a line for another one. */
static void shorter_chain(void)
{
    if (count > 1)
        count--;
    chain();
}

/* No thread but the first. */
static void one_thread(void)
{
    chain();
    for (uint32_t i = 2; i <= 32; i++)
        board_remove_thread_on(&table, (board_thread_id){i});
}

static void last_thread_missing(void)
{
    chain();
    board_remove_thread_on(&table, last);
}

/* The first thread in a store of its own beside the chain, all others in the deepest store of the
 * chain. */
static void store_beside(void)
{
    shorter_chain();
    for (uint32_t i = 2; i <= 32; i++)
        board_set_context_on(&table, (board_thread_id){i}, deepest);
    board_make_store_on(&table, first, 0, &found);
    board_set_context_on(&table, first, found);
}

/* ---- the calls */

#define CALL(name, made) \
    static __attribute__((noinline)) void name(void) \
    { \
        report = (made); \
    }

CALL(broken_rule, board_broken_rule_on(&table))
CALL(start, board_start_on(&table, store_area, stack_area, &root))
CALL(ask_root, board_root_on(&table, &root))
CALL(context, board_context_on(&table, last, &found))
CALL(set_context, board_set_context_on(&table, first, deepest))
CALL(total, board_total_on(&table, deepest, &number))
CALL(used, board_used_on(&table, deepest, &number))
CALL(ask_free, board_free_on(&table, deepest, &number))
CALL(find, board_find_on(&table, deepest.address, &found, &number))
CALL(allocate, board_allocate_on(&table, stores, sizeof stores, last, 4, &number))
CALL(make_store, board_make_store_on(&table, last, 4, &found))
CALL(clear, board_clear_on(&table, first))
CALL(resize, board_resize_on(&table, deepest, 4))
CALL(make_stack, board_make_stack_on(&table, 8, &stack))
CALL(destroy_stack, board_destroy_stack_on(&table, stack))
CALL(add_thread, board_add_thread_on(&table, last, root))
CALL(remove_thread, board_remove_thread_on(&table, last))
CALL(ask_run, board_run_on(&table, stores, sizeof stores, stacks, sizeof stacks, 4096, 64, &run))

static const struct {
    const char *name;
    void (*prepare)(void);
    void (*call)(void);
} calls[] = {
    {"broken_rule", chain, broken_rule},
    {"start", chain, start},
    {"root", chain, ask_root},
    {"context", chain, context},
    {"set_context", chain, set_context},
    {"total", chain, total},
    {"used", chain, used},
    {"free", chain, ask_free},
    {"find", chain, find},
    {"allocate", chain, allocate},
    {"make_store", shorter_chain, make_store},
    {"clear", one_thread, clear},
    {"clear_beside", store_beside, clear},
    {"resize", chain, resize},
    {"make_stack", chain, make_stack},
    {"destroy_stack", chain, destroy_stack},
    {"add_thread", last_thread_missing, add_thread},
    {"remove_thread", chain, remove_thread},
    {"run", chain, ask_run},
};

/* ---- the painted stack */

static uint8_t painted[1 << 20];
static void (*chosen)(void);

static __attribute__((noinline)) void measured(void)
{
    chosen();
}

static size_t stack_of(void (*call)(void))
{
    ucontext_t here, there;
    size_t untouched = 0;
    chosen = call;
    memset(painted, 0xA5, sizeof painted);
    getcontext(&there);
    there.uc_stack.ss_sp = painted;
    there.uc_stack.ss_size = sizeof painted;
    there.uc_link = &here;
    makecontext(&there, measured, 0);
    swapcontext(&here, &there);
    while (untouched < sizeof painted && painted[untouched] == 0xA5)
        untouched++;
    return sizeof painted - untouched;
}

int main(int argc, char **argv)
{
    const int wanted = argc > 1 ? atoi(argv[1]) : 0;
    if (wanted < 1 || wanted > 64) {
        fprintf(stderr, "measure STORES [CALL]: 1 to 64 stores\n");
        return 2;
    }
    for (size_t i = 0; i < sizeof calls / sizeof *calls; i++) {
        if (argc > 2 && strcmp(argv[2], calls[i].name) != 0)
            continue;
        count = (uint32_t)wanted;
        calls[i].prepare();
        size_t taken = stack_of(calls[i].call);
        printf("%s %u %zu\n", calls[i].name, report, taken);
    }
    return 0;
}
