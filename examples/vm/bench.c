/* The bench, through board.h: it reads a call list in the bench's records from standard input and
 * prints what the program `bench` prints. */
#include "board.h"

#include <inttypes.h>
#include <stdio.h>

enum { RECORD = 19, RECORDS = 3000, MOST = 4096 };

static uint8_t list[RECORD * RECORDS + 1];
static uint8_t stores[MOST];
static struct board_table table;

struct call {
    unsigned code;
    uint32_t n[4];
};

/* how many numbers each call takes */
static const unsigned counts[16] = {4, 0, 1, 2, 1, 1, 1, 1, 2, 2, 1, 2, 1, 1, 2, 1};

/* Reads the record; 0 where there is none. */
static int decode(const uint8_t *at, size_t left, struct call *call)
{
    if (left < RECORD || at[0] != 0x4D || at[1] != 0x53 || at[2] > 15)
        return 0;
    call->code = at[2];
    for (unsigned i = 0; i < 4; i++) {
        const uint8_t *b = at + 3 + 4 * i;
        call->n[i] =
            (uint32_t)b[0] | (uint32_t)b[1] << 8 | (uint32_t)b[2] << 16 | (uint32_t)b[3] << 24;
        if (i >= counts[call->code] && call->n[i] != 0)
            return 0;
    }
    return 1;
}

static struct board_reply keep(struct board_answer answer)
{
    table = answer.table;
    return (struct board_reply){answer.report, answer.value};
}

/* The bench lends no more than its buffers have. */
static struct board_reply start(struct board_area a, struct board_area b)
{
    if (a.length < 16)
        return (struct board_reply){BOARD_SIZE_TOO_SMALL, 0};
    if (a.length > MOST || b.length > MOST)
        return (struct board_reply){BOARD_BAD_AREA, 0};
    return keep(board_start(table, a, b));
}

static struct board_reply find(uint32_t address)
{
    struct board_found found = board_find(table, address);
    return (struct board_reply){found.report, found.value};
}

static struct board_reply play(const struct call *call)
{
    const uint32_t *n = call->n;
    const board_thread_id thread = {n[0]};
    const board_store_id store = {n[0]}, second = {n[1]};
    switch (call->code) {
    case 0: return start((struct board_area){n[0], n[1]}, (struct board_area){n[2], n[3]});
    case 1: return board_root(table);
    case 2: return board_context(table, thread);
    case 3: return keep(board_set_context(table, thread, second));
    case 4: return board_total(table, store);
    case 5: return board_used(table, store);
    case 6: return board_free(table, store);
    case 7: return find(n[0]);
    case 8: return keep(board_allocate(table, stores, table.areas.stores.length, thread, n[1]));
    case 9: return keep(board_make_store(table, thread, n[1]));
    case 10: return keep(board_clear(table, thread));
    case 11: return keep(board_resize(table, store, n[1]));
    case 12: return keep(board_make_stack(table, n[0]));
    case 13: return keep(board_destroy_stack(table, (board_stack_id){n[0]}));
    case 14: return keep(board_add_thread(table, thread, second));
    default: return keep(board_remove_thread(table, thread));
    }
}

int main(void)
{
    size_t length = fread(list, 1, sizeof list, stdin);
    table = board_zeros();
    for (size_t at = 0; at < length; at += RECORD) {
        struct call call;
        if (at == RECORD * RECORDS || !decode(list + at, length - at, &call)) {
            printf("stop %zu\n", at);
            break;
        }
        struct board_reply reply = play(&call);
        printf("%u %" PRIu32 " %" PRIu32 "\n", call.code, reply.report, reply.value);
    }
    return 0;
}
