/* The functions of board.h without the manager: they take no stack of their own, so that measure.c
 * tells what a caller takes by itself. */
#include "board.h"

#pragma GCC diagnostic ignored "-Wunused-parameter"

#define NOTHING(type, call) \
    type call \
    { \
        static type nothing; \
        return nothing; \
    }

#define TABLE struct board_table table

NOTHING(struct board_table, board_zeros(void))
NOTHING(uint32_t, board_broken_rule(TABLE))
NOTHING(struct board_answer, board_start(TABLE, struct board_area stores, struct board_area stacks))
NOTHING(struct board_reply, board_root(TABLE))
NOTHING(struct board_reply, board_context(TABLE, board_thread_id thread))
NOTHING(struct board_answer, board_set_context(TABLE, board_thread_id thread, board_store_id store))
NOTHING(struct board_reply, board_total(TABLE, board_store_id store))
NOTHING(struct board_reply, board_used(TABLE, board_store_id store))
NOTHING(struct board_reply, board_free(TABLE, board_store_id store))
NOTHING(struct board_found, board_find(TABLE, uint32_t address))
NOTHING(struct board_answer,
        board_allocate(TABLE, uint8_t *area, size_t length, board_thread_id thread, uint32_t n))
NOTHING(struct board_answer, board_make_store(TABLE, board_thread_id thread, uint32_t n))
NOTHING(struct board_answer, board_clear(TABLE, board_thread_id thread))
NOTHING(struct board_answer, board_resize(TABLE, board_store_id store, uint32_t n))
NOTHING(struct board_answer, board_make_stack(TABLE, uint32_t n))
NOTHING(struct board_answer, board_destroy_stack(TABLE, board_stack_id stack))
NOTHING(struct board_answer, board_add_thread(TABLE, board_thread_id thread, board_store_id store))
NOTHING(struct board_answer, board_remove_thread(TABLE, board_thread_id thread))
NOTHING(struct board_run,
        board_run(TABLE, const uint8_t *stores, size_t stores_length, const uint8_t *stacks,
                  size_t stacks_length, uint32_t address, uint32_t n))
