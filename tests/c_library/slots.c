/* What a slot answers before a graph, while it has one, and after. */
#include <stdio.h>
#include <string.h>

#include "txgraph.h"

#define CHECK(what)                                                                                                                       \
    do {                                                                                                                                  \
        if (!(what)) {                                                                                                                    \
            printf("line %d: %s\n", __LINE__, #what);                                                                                     \
            return 1;                                                                                                                     \
        }                                                                                                                                 \
    } while (0)

int main(void) {
    txgraph_slot slot = TXGRAPH_EMPTY;
    uint64_t kept = 77, steps = 5, ids[4] = {9, 9, 9, 9};
    size_t count = 3;
    bool there = true;
    CHECK(sizeof slot == 16);

    /* an empty slot answers 1, and nothing is written */
    CHECK(txgraph_add(&slot, 1, 10, 10, &kept, &steps) == TXGRAPH_NO_GRAPH && kept == 77 && steps == 5);
    CHECK(txgraph_count(&slot, TXGRAPH_MAIN, &count) == TXGRAPH_NO_GRAPH && count == 3);
    CHECK(txgraph_close(&slot) == TXGRAPH_NO_GRAPH);

    /* a graph comes into the slot once */
    CHECK(txgraph_new(&slot, 0, 1, 1, false) == TXGRAPH_RANGE && !slot.live);
    CHECK(txgraph_new(&slot, 129, 1, 1, false) == TXGRAPH_RANGE && !slot.live);
    CHECK(txgraph_new(&slot, 64, 404000, 1048576, false) == TXGRAPH_DONE && slot.live);
    CHECK(txgraph_new(&slot, 64, 404000, 1048576, false) == TXGRAPH_IN_USE && slot.live);

    /* refusals, and what they keep */
    CHECK(txgraph_add(&slot, 1, 10, 10, &kept, &steps) == TXGRAPH_DONE && kept == 0);
    CHECK(txgraph_add(&slot, 2, 30, 10, &kept, &steps) == TXGRAPH_DONE);
    CHECK(txgraph_add(&slot, 1, 10, 10, &kept, &steps) == TXGRAPH_TAKEN && kept == 0);
    CHECK(txgraph_dep(&slot, 1, 7, &kept, &steps) == TXGRAPH_UNKNOWN && kept == 7);
    CHECK(txgraph_dep(&slot, 8, 2, &kept, &steps) == TXGRAPH_UNKNOWN && kept == 8);
    CHECK(txgraph_dep(&slot, 1, 2, &kept, &steps) == TXGRAPH_DONE && kept == 0 && steps > 5);
    CHECK(txgraph_dep(&slot, 2, 1, &kept, &steps) == TXGRAPH_CYCLE);
    CHECK(txgraph_add(&slot, 3, 10, 500000, &kept, &steps) == TXGRAPH_CLUSTER_SIZE && kept == 500000);
    CHECK(txgraph_set_limits(&slot, 64, 404000, 1048576, false, &kept, &steps) == TXGRAPH_LATE);

    /* how the graph stands */
    uint64_t most = 0, size = 0, live = 0, added = 0, least = 0;
    bool defer = true, staged = true;
    CHECK(txgraph_limits(&slot, &most, &size, &live, &defer) == TXGRAPH_DONE && most == 64 && size == 404000 && live == 1048576 && !defer);
    CHECK(txgraph_staged(&slot, &staged) == TXGRAPH_DONE && !staged);
    CHECK(txgraph_additions(&slot, &added) == TXGRAPH_DONE && added == 2);
    CHECK(txgraph_least(&slot, &least) == TXGRAPH_DONE && least <= 10);

    /* the chunk of both, and what could be mined */
    txgraph_rate rate = {0, 0};
    CHECK(txgraph_main_chunk_rate(&slot, 2, &rate, &kept) == TXGRAPH_DONE && rate.fee == 40 && rate.size == 20 && kept == 0);
    CHECK(txgraph_main_chunk_rate(&slot, 7, &rate, &kept) == TXGRAPH_UNKNOWN && rate.fee == 40 && kept == 7);
    ids[0] = 2;
    CHECK(txgraph_minable(&slot, ids, 1, &kept) == TXGRAPH_PARENT && kept == 2);
    CHECK(txgraph_minable(&slot, ids, 0, &kept) == TXGRAPH_NO_NAMES);
    ids[1] = 1;
    CHECK(txgraph_minable(&slot, ids, 2, &kept) == TXGRAPH_DONE && kept == 0);
    ids[0] = ids[1] = 9;

    /* parent and child are not exchanged */
    CHECK(txgraph_ancestors(&slot, TXGRAPH_MAIN, 2, ids, 4, &count, &kept) == TXGRAPH_DONE && count == 2 && ids[0] == 1 && ids[1] == 2);
    CHECK(txgraph_ancestors(&slot, TXGRAPH_MAIN, 1, ids, 4, &count, &kept) == TXGRAPH_DONE && count == 1 && ids[0] == 1 && ids[1] == 2);

    /* the parents with nothing between, and a transaction that isn't there */
    CHECK(txgraph_covers(&slot, TXGRAPH_MAIN, 2, ids, 4, &count, &kept) == TXGRAPH_DONE && count == 1 && ids[0] == 1 && ids[1] == 2);
    CHECK(txgraph_covers(&slot, TXGRAPH_MAIN, 1, ids, 4, &count, &kept) == TXGRAPH_DONE && count == 0 && ids[0] == 1);
    CHECK(txgraph_covers(&slot, TXGRAPH_MAIN, 7, ids, 4, &count, &kept) == TXGRAPH_UNKNOWN && count == 0 && kept == 7);

    /* several together: one that stands twice, and one that isn't there */
    const uint64_t some[] = {2, 7, 2};
    CHECK(txgraph_ancestors_union(&slot, TXGRAPH_MAIN, some, 3, ids, 4, &count) == TXGRAPH_DONE && count == 2 && ids[0] == 1 && ids[1] == 2);
    CHECK(txgraph_descendants_union(&slot, TXGRAPH_MAIN, some, 3, ids, 4, &count) == TXGRAPH_DONE && count == 1 && ids[0] == 2 && ids[1] == 2);
    CHECK(txgraph_count_distinct_clusters(&slot, TXGRAPH_MAIN, some, 3, &count) == TXGRAPH_DONE && count == 1);
    ids[0] = 1;

    /* a short array gets the first ones, and the number of all */
    ids[1] = 9;
    CHECK(txgraph_cluster(&slot, TXGRAPH_MAIN, 2, ids, 1, &count, &kept) == TXGRAPH_DONE && count == 2 && ids[0] == 1 && ids[1] == 9);

    /* no names, and names that are there */
    CHECK(txgraph_mine(&slot, ids, 0, &kept, &steps) == TXGRAPH_NO_NAMES);
    CHECK(txgraph_exists(&slot, TXGRAPH_MAIN, 1, &there) == TXGRAPH_DONE && there);
    CHECK(txgraph_mine(&slot, ids, 1, &kept, &steps) == TXGRAPH_DONE);
    CHECK(txgraph_exists(&slot, TXGRAPH_MAIN, 1, &there) == TXGRAPH_DONE && !there);
    CHECK(txgraph_unmine(&slot, &kept, &steps) == TXGRAPH_DONE);
    CHECK(txgraph_picked(&slot, 0, ids, 4, &count) == TXGRAPH_DONE && count == 1 && ids[0] == 1);

    /* pieces of a block: each goes on where the last ended */
    txgraph_total total;
    CHECK(txgraph_block(&slot, 1000, &total, &kept) == TXGRAPH_DONE && !total.negative && total.high == 0 && total.low == 40 && total.size == 20);
    CHECK(txgraph_picked(&slot, 0, ids, 1, &count) == TXGRAPH_MORE && count == 1 && ids[0] == 1);
    CHECK(txgraph_picked(&slot, 1, ids, 1, &count) == TXGRAPH_DONE && count == 1 && ids[0] == 2);
    CHECK(txgraph_picked(&slot, 2, ids, 1, &count) == TXGRAPH_DONE && count == 0);
    CHECK(txgraph_picked(&slot, 99, ids, 1, &count) == TXGRAPH_DONE && count == 0);

    /* the last chunk, the names, and the blocks that are left */
    size_t latest = 9;
    CHECK(txgraph_worst(&slot, &rate, ids, 4, &count, &kept) == TXGRAPH_DONE && count >= 1 && ids[count - 1] == 2);
    CHECK(txgraph_names(&slot, TXGRAPH_MAIN, &kept) == TXGRAPH_DONE);
    CHECK(txgraph_ids(&slot, 0, ids, 1, &count) == TXGRAPH_MORE && count == 1 && ids[0] == 1);
    CHECK(txgraph_ids(&slot, 1, ids, 4, &count) == TXGRAPH_DONE && count == 1 && ids[0] == 2);
    CHECK(txgraph_blocks(&slot, &count, &latest) == TXGRAPH_DONE && count == 0 && latest == 0);
    size_t counts[2] = {9, 9};
    CHECK(txgraph_clusters(&slot, TXGRAPH_TOP, &kept) == TXGRAPH_DONE);
    CHECK(txgraph_cluster_counts(&slot, 0, counts, 2, &count) == TXGRAPH_DONE && count == 1 && counts[0] == 2 && counts[1] == 9);
    CHECK(txgraph_cluster_ids(&slot, 0, ids, 4, &count) == TXGRAPH_DONE && count == 2 && ids[0] + ids[1] == 3);
    uint64_t order[] = {5, 2, 1, 2};
    CHECK(txgraph_sort_by_main_order(&slot, order, 4) == TXGRAPH_DONE);
    CHECK(order[0] == 1 && order[1] == 2 && order[2] == 2 && order[3] == 5);

    /* the two sides of a replacement */
    CHECK(txgraph_main_staging_diagrams(&slot, &kept) == TXGRAPH_NO_STAGING);
    CHECK(txgraph_stage(&slot, &kept, &steps) == TXGRAPH_DONE && txgraph_add(&slot, 7, 50, 10, &kept, &steps) == TXGRAPH_DONE);
    CHECK(txgraph_main_staging_diagrams(&slot, &kept) == TXGRAPH_DONE);
    CHECK(txgraph_main_side(&slot, 0, &rate, 1, &count) == TXGRAPH_DONE && count == 0);
    CHECK(txgraph_staging_side(&slot, 0, &rate, 1, &count) == TXGRAPH_DONE && count == 1 && rate.fee == 50 && rate.size == 10);
    CHECK(txgraph_abort(&slot, &kept, &steps) == TXGRAPH_DONE);

    /* the slot is moved, and used at its new place */
    txgraph_slot moved = slot;
    memset(&slot, 0, sizeof slot);
    CHECK(txgraph_count(&moved, TXGRAPH_TOP, &count) == TXGRAPH_DONE && count == 2);
    CHECK(txgraph_count(&slot, TXGRAPH_TOP, &count) == TXGRAPH_NO_GRAPH);

    /* a closed slot is empty, and takes a new graph */
    CHECK(txgraph_close(&moved) == TXGRAPH_DONE && !moved.live);
    CHECK(txgraph_close(&moved) == TXGRAPH_NO_GRAPH);
    CHECK(txgraph_new(&moved, 1, 1, 1, true) == TXGRAPH_DONE && txgraph_close(&moved) == TXGRAPH_DONE);
    printf("slots answer as they should\n");
    return 0;
}
