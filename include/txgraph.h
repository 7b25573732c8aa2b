/*
 * A transaction graph for a node's mempool: the calls of libtxgraph_c.a.
 *
 * The graph has two levels: main and, where one is open, staging, a copy of main that changes alone. It keeps an optimal order of each
 * level, in chunks of falling feerate. The library is written and proved in Rattle; what each call promises is its contract in
 * crates/txgraph_c/src.
 *
 * Units: fees are in satoshis, sizes in virtual bytes. A transaction is named by a number of 64 bits that the caller chooses.
 * Levels: 0 is main, any other number the top level, which is staging where one is open, else main.
 *
 * Your duties. The library doesn't test them:
 *
 *  - Zero a slot before its first use (TXGRAPH_EMPTY). Never copy a slot that has a graph, and never touch its fields. You may move it, if
 *    you zero the place that it left.
 *  - One call at a time for each slot, all from the thread that made the graph. That a graph may go to another thread isn't proved: the search for a
 *    proof of all that a graph owns, the index's trees among it, passes the prover's limit of 1,000,000 steps. Calls on different slots may run
 *    side by side.
 *  - No pointer is null, not even one to an array of length 0, and no two pointers of a call lead to the same memory.
 *  - No call from a signal handler, or in a child that a process with threads forked.
 *
 * Linking: libtxgraph_c.a asks for memcpy and its like, for libgcc's 128-bit division, and for three functions of memory:
 * rattle_alloc, rattle_realloc and rattle_dealloc. The kit's liblibc_c.a has them over malloc; examples/heap.c is the same in a few lines.
 */
#ifndef TXGRAPH_H
#define TXGRAPH_H

#include <stdbool.h>
#include <stddef.h>
#include <stdint.h>

#ifdef __cplusplus
extern "C" {
#endif

/* What a call answers. A refused call leaves the graph as it was. */
enum txgraph_code {
    TXGRAPH_DONE = 0,
    TXGRAPH_NO_GRAPH = 1,     /* the slot has no graph, and nothing changes */
    TXGRAPH_IN_USE = 2,       /* txgraph_new, txgraph_load: the slot has a graph, and nothing changes */
    TXGRAPH_LATE = 3,         /* a change was accepted before */
    TXGRAPH_RANGE = 4,        /* a limit is outside its range */
    TXGRAPH_FEE = 5,          /* the fee is outside -2,100,000,000,000,000 to 2,100,000,000,000,000 satoshis */
    TXGRAPH_SIZE = 6,         /* the size is outside 1 to 4,000,000 virtual bytes */
    TXGRAPH_TAKEN = 7,        /* the transaction is in main or in staging */
    TXGRAPH_CLUSTER_SIZE = 8, /* keeps the size that a cluster would have, over the limit */
    TXGRAPH_FULL = 9,         /* as many transactions are live as may be */
    TXGRAPH_UNKNOWN = 10,     /* keeps the name of a transaction that isn't there */
    TXGRAPH_CYCLE = 11,       /* the child is an ancestor of the parent */
    TXGRAPH_COUNT = 12,       /* keeps the number of transactions that a cluster would have, over the limit */
    TXGRAPH_STAGING = 13,     /* a staging is open */
    TXGRAPH_TWICE = 14,       /* keeps a name that is listed twice */
    TXGRAPH_PARENT = 15,      /* keeps a name that has an ancestor which isn't listed */
    TXGRAPH_EMPTY_MAIN = 16,  /* main has no transaction */
    TXGRAPH_NO_STAGING = 17,  /* no staging is open */
    TXGRAPH_MEMORY = 18,      /* there was no memory */
    TXGRAPH_OVERSIZED = 19,   /* a cluster of the level is over the limits, so that the level has no order */
    TXGRAPH_NO_BLOCK = 20,    /* no mined block is left to take back */
    TXGRAPH_BACK = 21,        /* keeps the name of a transaction of the block that is live again */
    TXGRAPH_MORE = 32,        /* the call did what it says, and others come behind what it handed out */
    TXGRAPH_SPENT = 33,       /* 2^64 - 1 additions were made, as many as can be counted */
    TXGRAPH_NO_NAMES = 34,    /* the list is empty */
    TXGRAPH_NO_SYNTAX = 36,   /* the bytes are no text of a certificate, or of a graph */
    TXGRAPH_BAD_GRAPH = 37,   /* what is written is no graph */
    TXGRAPH_BAD_ORDER = 38,   /* the chunks are no order of the graph */
    TXGRAPH_BAD_RATES = 39,   /* the rates don't fall, or one isn't the sum over its transactions */
    TXGRAPH_BAD_FLOWS = 40,   /* the flows don't certify the chunks */
    TXGRAPH_TOO_LONG = 41,    /* more than 268,435,456 bytes */
    TXGRAPH_OVER_LIMITS = 42  /* the graph of the text is over the limits */
};

/* Where you keep a graph: 16 bytes, all 0 at first. */
typedef struct txgraph_slot {
    bool live;
    uint8_t *at;
} txgraph_slot;

#define TXGRAPH_EMPTY {false, NULL}

/* A fee and a size. */
typedef struct txgraph_rate {
    int64_t fee;
    uint64_t size;
} txgraph_rate;

/* Fees and sizes of several transactions together. The amount of the fee is 2^64 * high + low; where negative is set, the fee is that far
 * below 0. Below 2^63 satoshis, as in all that a chain can hold, high is 0. */
typedef struct txgraph_total {
    bool negative;
    uint64_t high;
    uint64_t low;
    uint64_t size;
} txgraph_total;

/* A chunk of an order: its fee and size, and how many transactions and flows it has. */
typedef struct txgraph_part {
    int64_t fee;
    uint64_t size;
    size_t ids;
    size_t flows;
} txgraph_part;

/* An amount of 2^64 * high + low, in satoshis times virtual bytes, that goes from a child to a parent of its chunk. */
typedef struct txgraph_flow {
    uint64_t child;
    uint64_t parent;
    uint64_t high;
    uint64_t low;
} txgraph_flow;

#define TXGRAPH_MAIN 0u
#define TXGRAPH_TOP 1u

/* How one diagram stands to another, at every size. */
enum txgraph_verdict {
    TXGRAPH_BETTER = 0,      /* at or above it everywhere, and not everywhere equal */
    TXGRAPH_WORSE = 1,       /* at or below it everywhere, and not everywhere equal */
    TXGRAPH_EQUAL = 2,       /* the same */
    TXGRAPH_INCOMPARABLE = 3 /* above it somewhere, and below it elsewhere */
};

/* Where one transaction stands to another in an order. */
enum txgraph_place { TXGRAPH_BEFORE = 0, TXGRAPH_SAME = 1, TXGRAPH_AFTER = 2 };

/* The most transactions that a cluster can have, and so the most that a call which lists a cluster finds. */
#define TXGRAPH_MOST 128

/* In each call: where the slot has no graph the answer is TXGRAPH_NO_GRAPH, and nothing is written. Else *kept gets the number that the
 * refusal keeps, and 0 where it keeps none; *steps rises by the steps that the solver took, and stands still at 2^64 - 1. What else a call
 * writes stays as it was where it is refused. */

/* ---- a graph in a slot */

/* Makes an empty graph. The limits: transactions of a cluster, 1 to 128; virtual bytes of a cluster, 1 to 512,000,000; live transactions, 1 to
 * 1,048,576; and whether a dependency may bring a cluster over the first two for a while. Answers IN_USE, RANGE, MEMORY. */
uint32_t txgraph_new(txgraph_slot *slot, uint64_t count, uint64_t size, uint64_t total, bool defer);

/* Lets the graph go, and gives all its memory back. */
uint32_t txgraph_close(txgraph_slot *slot);

/* Makes the graph that a text tells, under these limits. The text is one that txgraph_dump reads. Answers IN_USE, RANGE, NO_SYNTAX, BAD_GRAPH,
 * OVER_LIMITS, MEMORY. */
uint32_t txgraph_load(txgraph_slot *slot, const uint8_t *bytes, size_t bytes_len, uint64_t count, uint64_t size, uint64_t total,
                      bool defer, uint64_t *steps);

/* ---- changes */

/* Sets the limits, as long as no change was accepted. Answers LATE, RANGE. */
uint32_t txgraph_set_limits(txgraph_slot *slot, uint64_t count, uint64_t size, uint64_t total, bool defer, uint64_t *kept,
                            uint64_t *steps);

/* Adds a transaction to the top level. Answers FEE, SIZE, TAKEN, CLUSTER_SIZE, FULL, MEMORY, SPENT. */
uint32_t txgraph_add(txgraph_slot *slot, uint64_t id, int64_t fee, uint64_t size, uint64_t *kept, uint64_t *steps);

/* Makes child depend on parent in the top level. Answers UNKNOWN, CYCLE, COUNT, CLUSTER_SIZE, MEMORY. */
uint32_t txgraph_dep(txgraph_slot *slot, uint64_t parent, uint64_t child, uint64_t *kept, uint64_t *steps);

/* Sets the fee of a transaction in each level that has it. Answers FEE, UNKNOWN, MEMORY. */
uint32_t txgraph_fee(txgraph_slot *slot, uint64_t id, int64_t fee, uint64_t *kept, uint64_t *steps);

/* Removes a transaction from the top level. Its children come to depend on its parents. Answers UNKNOWN, MEMORY. */
uint32_t txgraph_remove(txgraph_slot *slot, uint64_t id, uint64_t *kept, uint64_t *steps);

/* Takes the transactions of a mined block out of main, in any order, and keeps them as the latest block; the latest 100 blocks are kept.
 * Answers NO_NAMES, STAGING, TWICE, UNKNOWN, PARENT, MEMORY. */
uint32_t txgraph_mine(txgraph_slot *slot, const uint64_t *ids, size_t ids_len, uint64_t *kept, uint64_t *steps);

/* Puts the transactions of the latest block back into main, and picks them. Answers STAGING, NO_BLOCK, BACK, FULL, COUNT, CLUSTER_SIZE,
 * MEMORY, SPENT. */
uint32_t txgraph_unmine(txgraph_slot *slot, uint64_t *kept, uint64_t *steps);

/* Opens a staging: a copy of main. Answers STAGING. */
uint32_t txgraph_stage(txgraph_slot *slot, uint64_t *kept, uint64_t *steps);

/* Makes main what staging is, and closes the staging. Answers NO_STAGING. */
uint32_t txgraph_commit(txgraph_slot *slot, uint64_t *kept, uint64_t *steps);

/* Drops the staging. Answers NO_STAGING. */
uint32_t txgraph_abort(txgraph_slot *slot, uint64_t *kept, uint64_t *steps);

/* Commits the staging exactly where it is better than main, and else drops it. Answers NO_STAGING, OVERSIZED. */
uint32_t txgraph_settle(txgraph_slot *slot, uint32_t *verdict, uint64_t *kept);

/* Drops the last chunk of main's order, which pays least, and picks its transactions. Answers STAGING, EMPTY_MAIN, OVERSIZED, MEMORY. */
uint32_t txgraph_evict(txgraph_slot *slot, txgraph_total *total, uint64_t *kept, uint64_t *steps);

/* Cuts the top level back to its limits, and picks the transactions that it drops, in rising order. Answers MEMORY. */
uint32_t txgraph_trim(txgraph_slot *slot, txgraph_total *total, uint64_t *kept, uint64_t *steps);

/* ---- questions, which leave the graph as it is */

/* How staging's feerate diagram stands to main's. Answers NO_STAGING, OVERSIZED. */
uint32_t txgraph_compare(txgraph_slot *slot, uint32_t *verdict, uint64_t *kept);

/* Where a stands to b in main's order. Answers UNKNOWN, OVERSIZED. */
uint32_t txgraph_before(txgraph_slot *slot, uint64_t a, uint64_t b, uint32_t *place, uint64_t *kept);

/* The chunk of main's order that has a transaction: its fee and size, its transactions, as many as the array has room for, and in *count how
 * many there are, at most TXGRAPH_MOST. Answers UNKNOWN, OVERSIZED. */
uint32_t txgraph_chunk(txgraph_slot *slot, uint64_t id, txgraph_rate *rate, uint64_t *ids, size_t ids_len, size_t *count,
                       uint64_t *kept);

/* The fee and the size of the chunk of main's order that has a transaction. Answers UNKNOWN, OVERSIZED. */
uint32_t txgraph_main_chunk_rate(txgraph_slot *slot, uint64_t id, txgraph_rate *rate, uint64_t *kept);

/* The last chunk of main's order, which pays least, and which txgraph_evict would drop: told as txgraph_chunk tells one. Answers EMPTY_MAIN,
 * OVERSIZED. */
uint32_t txgraph_worst(txgraph_slot *slot, txgraph_rate *rate, uint64_t *ids, size_t ids_len, size_t *count, uint64_t *kept);

/* Puts transactions into main's order; those that main hasn't come last. One may be listed twice. Answers OVERSIZED, and then the list stays. */
uint32_t txgraph_sort_by_main_order(txgraph_slot *slot, uint64_t *ids, size_t ids_len);

/* The transactions of a transaction's cluster, its ancestors, or its descendants, itself among them, in rising order: as many as the array has
 * room for, and in *count how many there are, at most TXGRAPH_MOST. Answer UNKNOWN, OVERSIZED. */
uint32_t txgraph_cluster(txgraph_slot *slot, uint32_t level, uint64_t id, uint64_t *ids, size_t ids_len, size_t *count, uint64_t *kept);
uint32_t txgraph_ancestors(txgraph_slot *slot, uint32_t level, uint64_t id, uint64_t *ids, size_t ids_len, size_t *count,
                           uint64_t *kept);
uint32_t txgraph_descendants(txgraph_slot *slot, uint32_t level, uint64_t id, uint64_t *ids, size_t ids_len, size_t *count,
                             uint64_t *kept);

/* The parents of a transaction with no third transaction between, as they stand in the level's order: as many as the array has room for, and in
 * *count how many there are, at most TXGRAPH_MOST - 1. Answers UNKNOWN, OVERSIZED, MEMORY. */
uint32_t txgraph_covers(txgraph_slot *slot, uint32_t level, uint64_t id, uint64_t *ids, size_t ids_len, size_t *count, uint64_t *kept);

/* The ancestors, or the descendants, of several transactions in a level together, themselves among them, in rising order: as many as the array
 * has room for, and in *count how many there are. One that the level hasn't is passed over, and one may be listed twice. The level may be
 * oversized. Answer MEMORY. */
uint32_t txgraph_ancestors_union(txgraph_slot *slot, uint32_t level, const uint64_t *names, size_t names_len, uint64_t *ids,
                                 size_t ids_len, size_t *count);
uint32_t txgraph_descendants_union(txgraph_slot *slot, uint32_t level, const uint64_t *names, size_t names_len, uint64_t *ids,
                                   size_t ids_len, size_t *count);

/* How many clusters of a level several transactions lie in, passed over and listed as before. The level may be oversized. Answers MEMORY. */
uint32_t txgraph_count_distinct_clusters(txgraph_slot *slot, uint32_t level, const uint64_t *ids, size_t ids_len, size_t *count);

/* How many transactions a level has. */
uint32_t txgraph_count(txgraph_slot *slot, uint32_t level, size_t *count);

/* Whether a level has a transaction. */
uint32_t txgraph_exists(txgraph_slot *slot, uint32_t level, uint64_t id, bool *there);

/* Whether a cluster of a level is over the limits, so that the level has no order. */
uint32_t txgraph_oversized(txgraph_slot *slot, uint32_t level, bool *over);

/* Whether a transaction is in main or in staging, and its fee and size where it is. */
uint32_t txgraph_sums(txgraph_slot *slot, uint64_t id, bool *live, txgraph_rate *rate);

/* The limits in force, as txgraph_set_limits takes them. */
uint32_t txgraph_limits(txgraph_slot *slot, uint64_t *count, uint64_t *size, uint64_t *total, bool *defer);

/* Whether a staging is open. */
uint32_t txgraph_staged(txgraph_slot *slot, bool *staged);

/* How many additions were counted since the graph was made, also those of transactions that came back with a block. At 2^64 - 1 changes answer
 * SPENT. */
uint32_t txgraph_additions(txgraph_slot *slot, uint64_t *count);

/* A size that no transaction of main is below, and no chunk of main's order. */
uint32_t txgraph_least(txgraph_slot *slot, uint64_t *size);

/* How many mined blocks can be taken back, at most 100, and how many transactions the latest of them has; 0 where there is none. */
uint32_t txgraph_blocks(txgraph_slot *slot, size_t *count, size_t *latest);

/* What txgraph_mine would be refused for with these transactions, other than want of memory; DONE where for nothing. Nothing is mined. Answers
 * NO_NAMES, STAGING, TWICE, UNKNOWN, PARENT. */
uint32_t txgraph_minable(txgraph_slot *slot, const uint64_t *ids, size_t ids_len, uint64_t *kept);

/* Fills a block of main of at most so many virtual bytes, and picks its transactions in their order. Answers OVERSIZED, MEMORY. */
uint32_t txgraph_block(txgraph_slot *slot, uint64_t size, txgraph_total *total, uint64_t *kept);

/* The transactions that the latest evict, trim, unmine or block picked, from the place `from` on: as many as the array has room for, and in
 * *count how many were copied. Answers MORE where others come behind them; the next piece begins at from + *count. */
uint32_t txgraph_picked(txgraph_slot *slot, size_t from, uint64_t *ids, size_t ids_len, size_t *count);

/* ---- readings of a whole level. What is read stays with the graph as it was then, until the same is read again, and is handed out in pieces as
 * picked transactions are: from the place `from` on, as many as the array has room for, and in *count how many were copied; MORE where others
 * come behind them. A reading takes memory for all of it, and time that is linear in it; a piece takes no memory. */

/* Reads the order of a level: its chunks by falling feerate, then their transactions and their flows, each chunk by chunk. Answers OVERSIZED,
 * MEMORY. */
uint32_t txgraph_order(txgraph_slot *slot, uint32_t level, uint64_t *kept);
uint32_t txgraph_parts(txgraph_slot *slot, size_t from, txgraph_part *parts, size_t parts_len, size_t *count);
uint32_t txgraph_part_ids(txgraph_slot *slot, size_t from, uint64_t *ids, size_t ids_len, size_t *count);
uint32_t txgraph_flows(txgraph_slot *slot, size_t from, txgraph_flow *flows, size_t flows_len, size_t *count);

/* Reads a number for each chunk of main's order, in the order: two chunks have one number exactly where they are of one cluster. So who fills a
 * block passes over the later chunks of a cluster of which one was left out. Answers OVERSIZED, MEMORY. */
uint32_t txgraph_numbered(txgraph_slot *slot, uint64_t *kept);
uint32_t txgraph_numbers(txgraph_slot *slot, size_t from, size_t *numbers, size_t numbers_len, size_t *count);

/* Reads the two sides of a replacement: the chunks of main's order that staging hasn't, and those of staging's order that main hasn't, each in its
 * level's order. All other chunks are the same in both. Answers NO_STAGING, OVERSIZED, MEMORY. */
uint32_t txgraph_main_staging_diagrams(txgraph_slot *slot, uint64_t *kept);
uint32_t txgraph_main_side(txgraph_slot *slot, size_t from, txgraph_rate *rates, size_t rates_len, size_t *count);
uint32_t txgraph_staging_side(txgraph_slot *slot, size_t from, txgraph_rate *rates, size_t rates_len, size_t *count);

/* Reads the transactions of a level, in rising order. The level may be oversized. Answers MEMORY. */
uint32_t txgraph_names(txgraph_slot *slot, uint32_t level, uint64_t *kept);
uint32_t txgraph_ids(txgraph_slot *slot, size_t from, uint64_t *ids, size_t ids_len, size_t *count);

/* Reads the clusters of a level, in no order: how many transactions each has, and their transactions, of one cluster after the other. The level may
 * be oversized. Answers MEMORY. */
uint32_t txgraph_clusters(txgraph_slot *slot, uint32_t level, uint64_t *kept);
uint32_t txgraph_cluster_counts(txgraph_slot *slot, size_t from, size_t *counts, size_t counts_len, size_t *count);
uint32_t txgraph_cluster_ids(txgraph_slot *slot, size_t from, uint64_t *ids, size_t ids_len, size_t *count);

/* Reads the corners of a level's feerate diagram, from size 0 on: each a size, and the most that a closed set of that size pays. Answers
 * OVERSIZED, MEMORY. */
uint32_t txgraph_diagram(txgraph_slot *slot, uint32_t level, uint64_t *kept);
uint32_t txgraph_corners(txgraph_slot *slot, size_t from, txgraph_total *corners, size_t corners_len, size_t *count);

/* Reads the text of main, of which txgraph_load makes a graph again. Answers OVERSIZED, MEMORY. */
uint32_t txgraph_dump(txgraph_slot *slot, uint64_t *kept);
uint32_t txgraph_text(txgraph_slot *slot, size_t from, uint8_t *bytes, size_t bytes_len, size_t *count);

/* ---- no graph */

/* Whether the bytes are the text of a certificate, as `txgraph check` takes it. Answers NO_SYNTAX, BAD_GRAPH, BAD_ORDER, BAD_RATES, BAD_FLOWS,
 * TOO_LONG, and MEMORY in place of any. */
uint32_t txgraph_check(const uint8_t *bytes, size_t bytes_len);

#ifdef __cplusplus
}
#endif

#endif
