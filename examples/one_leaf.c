/* Makes a leaf of two records and reads one of them. README.md shows this program; `make examples` builds and runs it. */
#include "leaf_updater.h"
#include <stdio.h>

/* lend: all memory is the caller's */
static LeafWork work;
static LeafEntry list[LEAF_LIST_LEAST];
static uint8_t store[LEAF_STORE_LEAST], area[LEAF_PAGE_SIZE], tickets[LEAF_TICKET_SIZE];

int main(void) {
    const uint8_t ring[32] = {1}, sprue[32] = {2}, none[32] = {0};
    /* open: no base page, no separator, no cutoff; every overflow cell that is dropped is reported */
    uint8_t refusal = leaf_open(&work, list, LEAF_LIST_LEAST, store, sizeof store, LEAF_REPORT_EVERY, 0, none, 0, none,
                                0, none);
    if (refusal) return refusal;
    /* ingest: keys in rising order, each with its value */
    refusal = leaf_ingest(&work, list, LEAF_LIST_LEAST, store, sizeof store, none, 0, ring, 1, 0,
                          (const uint8_t *)"18 rings", 8).refusal;
    if (refusal) return refusal;
    refusal = leaf_ingest(&work, list, LEAF_LIST_LEAST, store, sizeof store, none, 0, sprue, 1, 0,
                          (const uint8_t *)"2.5 g", 5).refusal;
    if (refusal) return refusal;
    /* digest: one leaf, as a page of the area */
    LeafGave gave = leaf_digest(&work, list, LEAF_LIST_LEAST, store, sizeof store, none, 0, area, sizeof area,
                                tickets, sizeof tickets);
    if (gave.refusal) return gave.refusal;
    /* read */
    LeafValue value = leaf_page_get(area, LEAF_PAGE_SIZE, sprue);
    printf("%zu leaf, sprue: %.*s\n", gave.leaves, (int)value.len, area + value.offset);
    return value.refusal;
}
