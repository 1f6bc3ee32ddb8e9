/*
 * The memory manager, for a virtual machine in C. Link target/staticlib/libboard.a, which
 * `examples/vm/archive` builds.
 *
 * A table says what is handed out: backing stores, one nested in the other, the threads with the
 * store that each allocates in, and thread stacks. It is a plain value of 1,572 bytes that the
 * caller keeps. The archive keeps nothing: it has no data of its own that changes, and it needs
 * memcpy and memset alone.
 *
 * Every call gives a report, 0 where it is accepted, and a value. A refused call has the value 0
 * and leaves the table and every byte of the areas as they were. The archive's functions take the
 * table by value and give the new one back; those whose names end in _on take a pointer to the
 * table, keep the new one there, and give the report.
 *
 * What the caller must see to:
 * - A pointer to lent bytes leads to as many bytes as the length beside it says, and is not NULL
 *   even where that is 0. The store area and the stack area do not overlap, and nobody else uses
 *   them during a call that is lent them.
 * - On one table, or one area, there is one call at a time. Tables that have their own areas may be
 *   used by several threads at once.
 * - Before its first start a table is that of board_zeros(). From then on calls alone change it. A
 *   table that was damaged is refused by report 16 where it breaks one of the eight rules.
 * - There is stack enough: docs/BOARD.md says what each call takes.
 *
 * What is proved, and what is not: of each function of the archive, as it stands in its source, it
 * is proved that it returns, that it touches no memory but what it is given, and that it answers
 * and changes table and bytes as the specification says, for every table and every argument. The
 * stack that it takes and its translation into the archive are not covered. This header is C, and
 * so are the _on functions: nothing is proved of them. That the structs here are laid out as the
 * archive's, and that the numbers mean the same, is seen by examples/vm/header.c alone, which reads
 * every field and provokes every report but 11.
 */
#ifndef BOARD_H
#define BOARD_H

#include <stddef.h>
#include <stdint.h>

/* ---- reports */

enum board_report {
    BOARD_ACCEPTED = 0,
    BOARD_OUT_OF_MEMORY = 1,
    BOARD_NOT_EMPTY = 2,
    BOARD_SIZE_TOO_SMALL = 4,
    BOARD_NO_SUCH_STORE = 5,
    BOARD_STORE_IN_USE = 6,
    BOARD_ROOT_RESIZE = 7,
    BOARD_NOT_ONLY_CHILD = 8,
    BOARD_UNKNOWN_ADDRESS = 9,
    BOARD_NO_SUCH_STACK = 10,
    BOARD_CANNOT_SHRINK = 11,
    BOARD_NO_THREAD_CONTEXT = 12,
    BOARD_FRAGMENTATION = 13,
    BOARD_TABLE_FULL = 14,
    BOARD_BAD_AREA = 15,
    BOARD_UNSOUND_TABLE = 16
};

/* ---- names: three types, so that the compiler refuses one where another is meant */

/* a store's first address */
typedef struct {
    uint32_t address;
} board_store_id;

/* a stack's first address */
typedef struct {
    uint32_t address;
} board_stack_id;

/* any number */
typedef struct {
    uint32_t number;
} board_thread_id;

/* ---- the table */

struct board_area {
    uint32_t start;
    uint32_t length;
};

struct board_store {
    board_store_id id;
    uint32_t total;
    uint32_t used;
    board_store_id parent;
};

struct board_thread {
    board_thread_id id;
    board_store_id context;
};

struct board_stack {
    board_stack_id id;
    uint32_t total;
};

struct board_areas {
    struct board_area stores;
    struct board_area stacks;
};

/* A list: the lines in use come first, by rising id; those behind them are zeros. */
struct board_stores {
    uint32_t count;
    struct board_store lines[64];
};

struct board_threads {
    uint32_t count;
    struct board_thread lines[32];
};

struct board_stacks {
    uint32_t count;
    struct board_stack lines[32];
};

struct board_table {
    struct board_areas areas;
    struct board_area free; /* the free run of the stack area */
    struct board_stores stores;
    struct board_threads threads;
    struct board_stacks stacks;
};

/* ---- what calls give back */

/* of a change */
struct board_answer {
    struct board_table table;
    uint32_t report;
    uint32_t value;
};

/* of a question: the table stays as it is */
struct board_reply {
    uint32_t report;
    uint32_t value;
};

/* of find: how many steps the store lies below the root, too */
struct board_found {
    uint32_t report;
    uint32_t value;
    uint32_t steps;
};

/* the two lent areas, by number */
enum board_lent { BOARD_STORES = 0, BOARD_STACKS = 1 };

/* of the run question: the run is `length` bytes from `offset` on in one of the areas; at a refusal
 * all but the report is 0 */
struct board_run {
    uint32_t report;
    uint32_t area;
    uint32_t offset;
    uint32_t length;
};

/* ---- the layout: words of 32 bits, in the order written, nothing between them */

#define BOARD_SIZE(type, bytes) _Static_assert(sizeof(type) == (bytes), "size of " #type)
#define BOARD_PLACE(type, field, bytes) \
    _Static_assert(offsetof(type, field) == (bytes), "place of " #type "." #field)

BOARD_SIZE(board_store_id, 4);
BOARD_SIZE(board_stack_id, 4);
BOARD_SIZE(board_thread_id, 4);
BOARD_SIZE(struct board_area, 8);
BOARD_PLACE(struct board_area, start, 0);
BOARD_PLACE(struct board_area, length, 4);
BOARD_SIZE(struct board_store, 16);
BOARD_PLACE(struct board_store, id, 0);
BOARD_PLACE(struct board_store, total, 4);
BOARD_PLACE(struct board_store, used, 8);
BOARD_PLACE(struct board_store, parent, 12);
BOARD_SIZE(struct board_thread, 8);
BOARD_PLACE(struct board_thread, id, 0);
BOARD_PLACE(struct board_thread, context, 4);
BOARD_SIZE(struct board_stack, 8);
BOARD_PLACE(struct board_stack, id, 0);
BOARD_PLACE(struct board_stack, total, 4);
BOARD_SIZE(struct board_areas, 16);
BOARD_PLACE(struct board_areas, stores, 0);
BOARD_PLACE(struct board_areas, stacks, 8);
BOARD_SIZE(struct board_stores, 1028);
BOARD_PLACE(struct board_stores, count, 0);
BOARD_PLACE(struct board_stores, lines, 4);
BOARD_SIZE(struct board_threads, 260);
BOARD_PLACE(struct board_threads, count, 0);
BOARD_PLACE(struct board_threads, lines, 4);
BOARD_SIZE(struct board_stacks, 260);
BOARD_PLACE(struct board_stacks, count, 0);
BOARD_PLACE(struct board_stacks, lines, 4);
BOARD_SIZE(struct board_table, 1572);
BOARD_PLACE(struct board_table, areas, 0);
BOARD_PLACE(struct board_table, free, 16);
BOARD_PLACE(struct board_table, stores, 24);
BOARD_PLACE(struct board_table, threads, 1052);
BOARD_PLACE(struct board_table, stacks, 1312);
BOARD_SIZE(struct board_answer, 1580);
BOARD_PLACE(struct board_answer, table, 0);
BOARD_PLACE(struct board_answer, report, 1572);
BOARD_PLACE(struct board_answer, value, 1576);
BOARD_SIZE(struct board_reply, 8);
BOARD_PLACE(struct board_reply, report, 0);
BOARD_PLACE(struct board_reply, value, 4);
BOARD_SIZE(struct board_found, 12);
BOARD_PLACE(struct board_found, report, 0);
BOARD_PLACE(struct board_found, value, 4);
BOARD_PLACE(struct board_found, steps, 8);
BOARD_SIZE(struct board_run, 16);
BOARD_PLACE(struct board_run, report, 0);
BOARD_PLACE(struct board_run, area, 4);
BOARD_PLACE(struct board_run, offset, 8);
BOARD_PLACE(struct board_run, length, 12);
_Static_assert(_Alignof(struct board_answer) == 4, "alignment");

#undef BOARD_SIZE
#undef BOARD_PLACE

/* ---- the archive's functions, with the number of each call and the reports that refuse it
 *
 * The reports stand in the order in which they are checked: the first that applies is given. Every
 * call but 0 is refused by 16 before all others where the table is not sound. */

/* the table before the first start */
struct board_table board_zeros(void);

/* the lowest of the eight rules of a sound table that is broken, 0 if none */
uint32_t board_broken_rule(struct board_table table);

/* 0, refused by 4, 15: one store over the whole store area, the root; no threads, no stacks. It may
 * be called on any table. Value: the root */
struct board_answer board_start(struct board_table table, struct board_area stores,
                                struct board_area stacks);

/* 1: the root */
struct board_reply board_root(struct board_table table);

/* 2, refused by 12: the store that the thread allocates in, its context */
struct board_reply board_context(struct board_table table, board_thread_id thread);

/* 3, refused by 12, 5: the thread allocates in that store from now on */
struct board_answer board_set_context(struct board_table table, board_thread_id thread,
                                      board_store_id store);

/* 4, 5, 6, refused by 5: the bytes of the store in all, used and free; 16 are its overhead */
struct board_reply board_total(struct board_table table, board_store_id store);
struct board_reply board_used(struct board_table table, board_store_id store);
struct board_reply board_free(struct board_table table, board_store_id store);

/* 7, refused by 9: the deepest store that holds the address */
struct board_found board_find(struct board_table table, uint32_t address);

/* 8, refused by 15, 12, 1: n bytes in the thread's store, behind 4 bytes of overhead. All of them
 * become 0, and no other byte changes. `area` is the whole store area, of the length that the table
 * says. Value: the address of the n bytes */
struct board_answer board_allocate(struct board_table table, uint8_t *area, size_t length,
                                   board_thread_id thread, uint32_t n);

/* 9, refused by 12, 1, 14: a store for n bytes in the thread's store. Value: the new store */
struct board_answer board_make_store(struct board_table table, board_thread_id thread, uint32_t n);

/* 10, refused by 12, 6: the thread's store is empty again, and the stores nested in it are gone */
struct board_answer board_clear(struct board_table table, board_thread_id thread);

/* 11, refused by 5, 7, 8, 2, 11, 13, 1: the store has room for n bytes from now on. It is empty,
 * its parent's only child, and ends where its parent's free bytes begin. Value: the store */
struct board_answer board_resize(struct board_table table, board_store_id store, uint32_t n);

/* 12, refused by 1, 14: a stack of n bytes, and 8 of overhead. Value: the stack */
struct board_answer board_make_stack(struct board_table table, uint32_t n);

/* 13, refused by 10, 13: the stack's bytes join the free run, which they touch or which is empty */
struct board_answer board_destroy_stack(struct board_table table, board_stack_id stack);

/* 14, refused by 5, 14: the thread is listed, and allocates in that store */
struct board_answer board_add_thread(struct board_table table, board_thread_id thread,
                                     board_store_id store);

/* 15: the thread is no longer listed */
struct board_answer board_remove_thread(struct board_table table, board_thread_id thread);

/* The run question, refused by 15, 9: where the n bytes from an address on lie in the two areas,
 * which are lent whole. No byte is changed. */
struct board_run board_run(struct board_table table, const uint8_t *stores, size_t stores_length,
                           const uint8_t *stacks, size_t stacks_length, uint32_t address,
                           uint32_t n);

/* For a comparison of layouts: a table whose words are 1, 2, 3 and so on, in the order of its
 * fields. It is not sound. */
struct board_table board_numbered(void);

/* ---- the same on a table that stays where it is */

static inline enum board_report board_keep(struct board_table *table,
                                           const struct board_answer *answer)
{
    *table = answer->table;
    return (enum board_report)answer->report;
}

static inline uint32_t board_broken_rule_on(const struct board_table *table)
{
    return board_broken_rule(*table);
}

static inline enum board_report board_start_on(struct board_table *table, struct board_area stores,
                                               struct board_area stacks, board_store_id *root)
{
    struct board_answer answer = board_start(*table, stores, stacks);
    root->address = answer.value;
    return board_keep(table, &answer);
}

static inline enum board_report board_root_on(const struct board_table *table, board_store_id *root)
{
    struct board_reply reply = board_root(*table);
    root->address = reply.value;
    return (enum board_report)reply.report;
}

static inline enum board_report board_context_on(const struct board_table *table,
                                                 board_thread_id thread, board_store_id *store)
{
    struct board_reply reply = board_context(*table, thread);
    store->address = reply.value;
    return (enum board_report)reply.report;
}

static inline enum board_report board_set_context_on(struct board_table *table,
                                                     board_thread_id thread, board_store_id store)
{
    struct board_answer answer = board_set_context(*table, thread, store);
    return board_keep(table, &answer);
}

static inline enum board_report board_total_on(const struct board_table *table,
                                               board_store_id store, uint32_t *bytes)
{
    struct board_reply reply = board_total(*table, store);
    *bytes = reply.value;
    return (enum board_report)reply.report;
}

static inline enum board_report board_used_on(const struct board_table *table, board_store_id store,
                                              uint32_t *bytes)
{
    struct board_reply reply = board_used(*table, store);
    *bytes = reply.value;
    return (enum board_report)reply.report;
}

static inline enum board_report board_free_on(const struct board_table *table, board_store_id store,
                                              uint32_t *bytes)
{
    struct board_reply reply = board_free(*table, store);
    *bytes = reply.value;
    return (enum board_report)reply.report;
}

static inline enum board_report board_find_on(const struct board_table *table, uint32_t address,
                                              board_store_id *store, uint32_t *steps)
{
    struct board_found found = board_find(*table, address);
    store->address = found.value;
    *steps = found.steps;
    return (enum board_report)found.report;
}

static inline enum board_report board_allocate_on(struct board_table *table, uint8_t *area,
                                                  size_t length, board_thread_id thread, uint32_t n,
                                                  uint32_t *address)
{
    struct board_answer answer = board_allocate(*table, area, length, thread, n);
    *address = answer.value;
    return board_keep(table, &answer);
}

static inline enum board_report board_make_store_on(struct board_table *table,
                                                    board_thread_id thread, uint32_t n,
                                                    board_store_id *store)
{
    struct board_answer answer = board_make_store(*table, thread, n);
    store->address = answer.value;
    return board_keep(table, &answer);
}

static inline enum board_report board_clear_on(struct board_table *table, board_thread_id thread)
{
    struct board_answer answer = board_clear(*table, thread);
    return board_keep(table, &answer);
}

static inline enum board_report board_resize_on(struct board_table *table, board_store_id store,
                                                uint32_t n)
{
    struct board_answer answer = board_resize(*table, store, n);
    return board_keep(table, &answer);
}

static inline enum board_report board_make_stack_on(struct board_table *table, uint32_t n,
                                                    board_stack_id *stack)
{
    struct board_answer answer = board_make_stack(*table, n);
    stack->address = answer.value;
    return board_keep(table, &answer);
}

static inline enum board_report board_destroy_stack_on(struct board_table *table,
                                                       board_stack_id stack)
{
    struct board_answer answer = board_destroy_stack(*table, stack);
    return board_keep(table, &answer);
}

static inline enum board_report board_add_thread_on(struct board_table *table,
                                                    board_thread_id thread, board_store_id store)
{
    struct board_answer answer = board_add_thread(*table, thread, store);
    return board_keep(table, &answer);
}

static inline enum board_report board_remove_thread_on(struct board_table *table,
                                                       board_thread_id thread)
{
    struct board_answer answer = board_remove_thread(*table, thread);
    return board_keep(table, &answer);
}

/* The run is given as a pointer to its first byte, NULL at a refusal. */
static inline enum board_report board_run_on(const struct board_table *table, uint8_t *stores,
                                             size_t stores_length, uint8_t *stacks,
                                             size_t stacks_length, uint32_t address, uint32_t n,
                                             uint8_t **run)
{
    struct board_run found =
        board_run(*table, stores, stores_length, stacks, stacks_length, address, n);
    uint8_t *area = found.area == BOARD_STORES ? stores : stacks;
    *run = found.report == BOARD_ACCEPTED ? area + found.offset : NULL;
    return (enum board_report)found.report;
}

#endif
