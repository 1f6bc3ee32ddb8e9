/* Document 01's example list, call by call: it prints the bench's 18 lines, code, report and value
 * of each call. */
#include "board.h"

#include <inttypes.h>
#include <stdio.h>

static struct board_table table;
static uint8_t area[256];

static void line(unsigned code, uint32_t report, uint32_t value)
{
    printf("%u %" PRIu32 " %" PRIu32 "\n", code, report, value);
}

static void change(unsigned code, struct board_answer answer)
{
    table = answer.table;
    line(code, answer.report, answer.value);
}

static void question(unsigned code, struct board_reply reply)
{
    line(code, reply.report, reply.value);
}

int main(void)
{
    const board_thread_id thread = {1};
    const board_store_id root = {4096}, store = {4136};
    const board_stack_id first = {8192}, second = {8224};

    table = board_zeros();
    change(0, board_start(table, (struct board_area){4096, 256}, (struct board_area){8192, 64}));
    change(14, board_add_thread(table, thread, root));
    change(8, board_allocate(table, area, sizeof area, thread, 20));
    change(9, board_make_store(table, thread, 100));
    question(5, board_used(table, root));
    change(3, board_set_context(table, thread, store));
    change(8, board_allocate(table, area, sizeof area, thread, 96));
    change(8, board_allocate(table, area, sizeof area, thread, 0));
    struct board_found found = board_find(table, 4251);
    line(7, found.report, found.value);
    change(11, board_resize(table, store, 50));
    change(10, board_clear(table, thread));
    change(11, board_resize(table, store, 200));
    question(6, board_free(table, root));
    change(12, board_make_stack(table, 24));
    change(12, board_make_stack(table, 24));
    change(13, board_destroy_stack(table, first));
    change(12, board_make_stack(table, 25));
    change(13, board_destroy_stack(table, second));
    return 0;
}
