/* A node's mempool in C: a package comes in, a replacement is tried in a staging and settled by its diagram, a block is filled, and the worst
 * chunk goes. */
#include <inttypes.h>
#include <stdio.h>

#include "txgraph.h"

static txgraph_slot pool = TXGRAPH_EMPTY;
static uint64_t kept, steps;

/* Ends the program where a call was refused. */
#define DO(call)                                                                                                                          \
    do {                                                                                                                                  \
        uint32_t code = (call);                                                                                                           \
        if (code != TXGRAPH_DONE) {                                                                                                       \
            printf("refused %" PRIu32 " %" PRIu64 "\n", code, kept);                                                                      \
            return 1;                                                                                                                     \
        }                                                                                                                                 \
    } while (0)

/* Prints what was picked, in pieces of two. */
static void print_picked(const char *what, const txgraph_total *total) {
    printf("%s: %s%" PRIu64 " sat, %" PRIu64 " vB:", what, total->negative ? "-" : "", total->low, total->size);
    uint64_t ids[2];
    size_t from = 0, count;
    uint32_t code;
    do {
        code = txgraph_picked(&pool, from, ids, 2, &count);
        for (size_t i = 0; i < count; i++) printf(" %" PRIu64, ids[i]);
        from += count;
    } while (code == TXGRAPH_MORE);
    printf("\n");
}

/* A parent that pays little, and a child that pays for it. Two others depend on nothing. */
static int receive(void) {
    DO(txgraph_add(&pool, 1, 100, 200, &kept, &steps));
    DO(txgraph_add(&pool, 2, 900, 200, &kept, &steps));
    DO(txgraph_dep(&pool, 1, 2, &kept, &steps));
    DO(txgraph_add(&pool, 3, 500, 500, &kept, &steps));
    DO(txgraph_add(&pool, 4, 150, 300, &kept, &steps));
    return 0;
}

/* Transaction 3 is replaced by one that pays more, where the whole diagram is better then. */
static int replace(void) {
    uint32_t verdict;
    DO(txgraph_stage(&pool, &kept, &steps));
    DO(txgraph_remove(&pool, 3, &kept, &steps));
    DO(txgraph_add(&pool, 5, 1500, 500, &kept, &steps));
    DO(txgraph_settle(&pool, &verdict, &kept));
    printf("the replacement is %s\n", verdict == TXGRAPH_BETTER ? "better, and in" : "not better, and out");
    return 0;
}

int main(void) {
    txgraph_total total;
    size_t left;
    DO(txgraph_new(&pool, 64, 404000, 1048576, false));
    if (receive() || replace()) return 1;
    DO(txgraph_block(&pool, 1000, &total, &kept));
    print_picked("a block", &total);
    DO(txgraph_evict(&pool, &total, &kept, &steps));
    print_picked("evicted", &total);
    DO(txgraph_count(&pool, TXGRAPH_MAIN, &left));
    printf("left: %zu transactions\n", left);
    DO(txgraph_close(&pool));
    return 0;
}
