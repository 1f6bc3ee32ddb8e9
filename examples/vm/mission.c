/* A tiny mission, as a virtual machine would run it: a start, a thread, a store for the mission,
 * blocks written and read in place, and a clear at its end. */
#include "board.h"

#include <inttypes.h>
#include <stdio.h>
#include <string.h>

/* What the board gives to the line's program, at the addresses that the program sees. The machine
 * keeps them, and the table beside them. */
static uint8_t stores[1024];
static uint8_t stacks[256];
static struct board_table table;

/* Whether a call was refused, which is told. */
static int refused(const char *what, enum board_report report)
{
    if (report != BOARD_ACCEPTED)
        printf("%s: refused by %u\n", what, (unsigned)report);
    return report != BOARD_ACCEPTED;
}

/* n bytes from an address of the line's program on, in the machine's memory */
static uint8_t *at(uint32_t address, uint32_t n)
{
    uint8_t *run;
    refused("run",
            board_run_on(&table, stores, sizeof stores, stacks, sizeof stacks, address, n, &run));
    return run;
}

/* Puts a text into a new block of the thread's store, and tells its address. */
static uint32_t put(board_thread_id thread, const char *words)
{
    uint32_t n = (uint32_t)strlen(words) + 1, address;
    refused("allocate", board_allocate_on(&table, stores, sizeof stores, thread, n, &address));
    uint8_t *block = at(address, n);
    if (block != NULL)
        memcpy(block, words, n);
    return address;
}

/* the text of n bytes at an address */
static const char *text(uint32_t address, uint32_t n)
{
    const uint8_t *block = at(address, n);
    return block != NULL ? (const char *)block : "?";
}

int main(void)
{
    const struct board_area store_area = {0x1000, sizeof stores};
    const struct board_area stack_area = {0x8000, sizeof stacks};
    const board_thread_id printer = {7};
    board_store_id root, mission, found;
    board_stack_id stack;
    uint32_t free_before, free_after, steps;

    /* One store, the root, over the whole store area; then the printer's thread, which allocates in
     * it, and its stack. */
    table = board_zeros();
    if (refused("start", board_start_on(&table, store_area, stack_area, &root)) ||
        refused("add thread", board_add_thread_on(&table, printer, root)) ||
        refused("make stack", board_make_stack_on(&table, 120, &stack)))
        return 1;
    printf("root at %" PRIu32 ", stack at %" PRIu32 "\n", root.address, stack.address);

    /* What is put into the root stays for as long as the line runs. */
    uint32_t label = put(printer, "best before");

    /* A store for the mission; the printer allocates in it from now on. */
    if (refused("make store", board_make_store_on(&table, printer, 400, &mission)) ||
        refused("set context", board_set_context_on(&table, printer, mission)))
        return 1;
    board_free_on(&table, mission, &free_before);
    uint32_t day = put(printer, "16 Nov"), batch = put(printer, "batch 4");
    printf("%s %s, %s\n", text(label, 12), text(day, 7), text(batch, 8));

    /* Whose block is it? */
    board_find_on(&table, batch, &found, &steps);
    printf("%" PRIu32 " is in the store %" PRIu32 ", %" PRIu32 " step below the root\n", batch,
           found.address, steps);

    /* The mission ends: all that it allocated is free again, and the label is still there. */
    if (refused("clear", board_clear_on(&table, printer)))
        return 1;
    board_free_on(&table, mission, &free_after);
    printf("free in the mission's store: %" PRIu32 " before, %" PRIu32 " after; %s\n", free_before,
           free_after, text(label, 12));

    /* A request that is too large is refused, and nothing is lost. */
    uint32_t address;
    enum board_report report =
        board_allocate_on(&table, stores, sizeof stores, printer, 401, &address);
    printf("a block of 401 bytes: report %u, broken rule %" PRIu32 "\n", (unsigned)report,
           board_broken_rule_on(&table));
    return 0;
}
