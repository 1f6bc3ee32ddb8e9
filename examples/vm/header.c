/* Whether board.h is the archive's: every field of the table stands where the archive puts it,
 * every report, value and place has the number that the header gives it, and the functions on a
 * pointer do what those on a value do. It prints a line for each that differs, and ends with status
 * 1 if one does. */
#include "board.h"

#include <inttypes.h>
#include <stdio.h>
#include <string.h>

static unsigned compared, differ;

static void same(const char *what, uint32_t found, uint32_t expected)
{
    compared++;
    if (found != expected) {
        differ++;
        printf("%s is %" PRIu32 ", not %" PRIu32 "\n", what, found, expected);
    }
}

/* The words of this table are 1, 2, 3 and so on. */
static void table_words(void)
{
    struct board_table t = board_numbered();
    uint32_t word = 0;
    same("areas.stores.start", t.areas.stores.start, ++word);
    same("areas.stores.length", t.areas.stores.length, ++word);
    same("areas.stacks.start", t.areas.stacks.start, ++word);
    same("areas.stacks.length", t.areas.stacks.length, ++word);
    same("free.start", t.free.start, ++word);
    same("free.length", t.free.length, ++word);
    same("stores.count", t.stores.count, ++word);
    for (unsigned i = 0; i < 64; i++) {
        same("a store's id", t.stores.lines[i].id.address, ++word);
        same("a store's total", t.stores.lines[i].total, ++word);
        same("a store's used", t.stores.lines[i].used, ++word);
        same("a store's parent", t.stores.lines[i].parent.address, ++word);
    }
    same("threads.count", t.threads.count, ++word);
    for (unsigned i = 0; i < 32; i++) {
        same("a thread's id", t.threads.lines[i].id.number, ++word);
        same("a thread's context", t.threads.lines[i].context.address, ++word);
    }
    same("stacks.count", t.stacks.count, ++word);
    for (unsigned i = 0; i < 32; i++) {
        same("a stack's id", t.stacks.lines[i].id.address, ++word);
        same("a stack's total", t.stacks.lines[i].total, ++word);
    }
    same("the last word", word, sizeof t / sizeof word);
}

/* One call for each report but BOARD_CANNOT_SHRINK, which no call is known to give, and each field
 * of what calls give back. */
static void answers(void)
{
    static uint8_t stores[256], stacks[64];
    const struct board_area home = {4096, 256}, away = {8192, 64};
    const board_thread_id one = {1}, two = {2};
    const board_store_id root = {4096}, nowhere = {1};

    struct board_table zeros = board_zeros();
    same("the rule of zeros", board_broken_rule(zeros), 1);
    same("unsound table", board_root(zeros).report, BOARD_UNSOUND_TABLE);
    same("size too small", board_start(zeros, (struct board_area){4096, 15}, away).report,
         BOARD_SIZE_TOO_SMALL);
    same("bad area", board_start(zeros, home, home).report, BOARD_BAD_AREA);

    struct board_answer a = board_start(zeros, home, away);
    same("accepted", a.report, BOARD_ACCEPTED);
    same("an answer's value", a.value, 4096);
    same("an answer's table", a.table.areas.stacks.start, 8192);
    same("no such store", board_used(a.table, nowhere).report, BOARD_NO_SUCH_STORE);
    same("no thread context", board_context(a.table, one).report, BOARD_NO_THREAD_CONTEXT);
    same("root resize", board_resize(a.table, root, 8).report, BOARD_ROOT_RESIZE);
    same("no such stack", board_destroy_stack(a.table, (board_stack_id){8192}).report,
         BOARD_NO_SUCH_STACK);
    same("unknown address", board_find(a.table, 1).report, BOARD_UNKNOWN_ADDRESS);

    a = board_add_thread(a.table, one, root);
    same("out of memory", board_make_store(a.table, one, 241).report, BOARD_OUT_OF_MEMORY);
    a = board_make_store(a.table, one, 16);
    const board_store_id child = {a.value};
    struct board_reply reply = board_total(a.table, child);
    same("a reply's report", reply.report, BOARD_ACCEPTED);
    same("a reply's value", reply.value, 32);
    struct board_found found = board_find(a.table, child.address + 31);
    same("find's report", found.report, BOARD_ACCEPTED);
    same("find's value", found.value, child.address);
    same("find's steps", found.steps, 1);

    struct board_table two_threads = board_add_thread(a.table, two, child).table;
    same("store in use", board_clear(two_threads, one).report, BOARD_STORE_IN_USE);
    struct board_table filled = board_allocate(two_threads, stores, sizeof stores, two, 4).table;
    same("not empty", board_resize(filled, child, 8).report, BOARD_NOT_EMPTY);
    struct board_table siblings = board_make_store(a.table, one, 8).table;
    same("not only child", board_resize(siblings, child, 8).report, BOARD_NOT_ONLY_CHILD);
    struct board_table behind = board_allocate(a.table, stores, sizeof stores, one, 4).table;
    same("fragmentation", board_resize(behind, child, 8).report, BOARD_FRAGMENTATION);
    struct board_table full = a.table;
    for (uint32_t i = 2; i <= 32; i++)
        full = board_add_thread(full, (board_thread_id){i}, root).table;
    same("table full", board_add_thread(full, (board_thread_id){33}, root).report,
         BOARD_TABLE_FULL);

    struct board_run run =
        board_run(a.table, stores, sizeof stores, stacks, sizeof stacks, 8200, 3);
    same("a run's report", run.report, BOARD_ACCEPTED);
    same("a run's area", run.area, BOARD_STACKS);
    same("a run's offset", run.offset, 8);
    same("a run's length", run.length, 3);
    run = board_run(a.table, stores, sizeof stores, stacks, sizeof stacks, 4101, 2);
    same("a run's area", run.area, BOARD_STORES);
    same("a run's offset", run.offset, 5);
    run = board_run(a.table, stores, 255, stacks, sizeof stacks, 4101, 2);
    same("a refused run's report", run.report, BOARD_BAD_AREA);
    same("a refused run's length", run.length, 0);
}

/* The function on a pointer has left the table and given the report and the value of the one on a
 * value. */
static void kept(const char *what, const struct board_table *table, struct board_answer answer,
                 uint32_t report, uint32_t value)
{
    same(what, report, answer.report);
    same(what, value, answer.value);
    same(what, memcmp(table, &answer.table, sizeof *table) != 0, 0);
}

static void told(const char *what, struct board_reply reply, uint32_t report, uint32_t value)
{
    same(what, report, reply.report);
    same(what, value, reply.value);
}

/* Each function on a pointer beside the one on a value. */
static void on_pointers(void)
{
    static uint8_t stores[256], stacks[64];
    const struct board_area home = {4096, 256}, away = {8192, 64};
    const board_thread_id one = {1};
    struct board_table t = board_zeros();
    struct board_answer a;
    board_store_id root, store, found;
    board_stack_id stack;
    uint32_t report, number;

    a = board_start(t, home, away);
    report = board_start_on(&t, home, away, &root);
    kept("board_start_on", &t, a, report, root.address);
    a = board_add_thread(t, one, root);
    kept("board_add_thread_on", &t, a, board_add_thread_on(&t, one, root), 0);
    a = board_make_store(t, one, 40);
    report = board_make_store_on(&t, one, 40, &store);
    kept("board_make_store_on", &t, a, report, store.address);
    a = board_resize(t, store, 60);
    kept("board_resize_on", &t, a, board_resize_on(&t, store, 60), store.address);
    a = board_set_context(t, one, store);
    kept("board_set_context_on", &t, a, board_set_context_on(&t, one, store), 0);
    a = board_allocate(t, stores, sizeof stores, one, 20);
    report = board_allocate_on(&t, stores, sizeof stores, one, 20, &number);
    kept("board_allocate_on", &t, a, report, number);
    a = board_make_stack(t, 24);
    report = board_make_stack_on(&t, 24, &stack);
    kept("board_make_stack_on", &t, a, report, stack.address);

    same("board_broken_rule_on", board_broken_rule_on(&t), 0);
    report = board_root_on(&t, &found);
    told("board_root_on", board_root(t), report, found.address);
    report = board_context_on(&t, one, &found);
    told("board_context_on", board_context(t, one), report, found.address);
    report = board_total_on(&t, store, &number);
    told("board_total_on", board_total(t, store), report, number);
    report = board_used_on(&t, store, &number);
    told("board_used_on", board_used(t, store), report, number);
    report = board_free_on(&t, store, &number);
    told("board_free_on", board_free(t, store), report, number);
    struct board_found f = board_find(t, store.address);
    report = board_find_on(&t, store.address, &found, &number);
    told("board_find_on", (struct board_reply){f.report, f.value}, report, found.address);
    same("board_find_on", number, f.steps);
    uint8_t *run;
    report = board_run_on(&t, stores, sizeof stores, stacks, sizeof stacks, 4101, 2, &run);
    same("board_run_on", report, BOARD_ACCEPTED);
    same("board_run_on", run == stores + 5, 1);
    report = board_run_on(&t, stores, sizeof stores, stacks, sizeof stacks, 8200, 3, &run);
    same("board_run_on", run == stacks + 8, 1);
    report = board_run_on(&t, stores, sizeof stores, stacks, sizeof stacks, 1, 0, &run);
    same("board_run_on", report, BOARD_UNKNOWN_ADDRESS);
    same("board_run_on", run == NULL, 1);

    a = board_clear(t, one);
    kept("board_clear_on", &t, a, board_clear_on(&t, one), 0);
    a = board_destroy_stack(t, stack);
    kept("board_destroy_stack_on", &t, a, board_destroy_stack_on(&t, stack), 0);
    a = board_remove_thread(t, one);
    kept("board_remove_thread_on", &t, a, board_remove_thread_on(&t, one), 0);
    a = board_make_store(t, one, 40);
    report = board_make_store_on(&t, one, 40, &store);
    kept("a refused board_make_store_on", &t, a, report, store.address);
}

int main(void)
{
    table_words();
    answers();
    on_pointers();
    printf("board.h: %u compared, %u differ\n", compared, differ);
    return differ != 0;
}
