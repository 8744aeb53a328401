/* A photograph of 100,000 bytes: split into overflow pages, its cell taken into a leaf as a flagged value, found there, joined again, freed. */
#include "leaf_updater.h"
#include <stdio.h>
#include <string.h>

#define PHOTO 100000
#define PAGES 25

static LeafWork work;
static LeafEntry list[LEAF_LIST_LEAST];
static uint8_t store[LEAF_STORE_LEAST], leaf[LEAF_PAGE_SIZE], tickets[LEAF_TICKET_SIZE];
static uint8_t photo[PHOTO], joined[PHOTO], pages[PAGES * LEAF_PAGE_SIZE];

static int refused(const char *call, uint8_t refusal) {
    if (refusal) printf("%s: refused by %d\n", call, refusal);
    return refusal;
}

int main(void) {
    const uint8_t key[32] = {1}, hash[32] = {7}, none[32] = {0};
    uint32_t numbers[PAGES], freed[PAGES];
    for (size_t i = 0; i < PHOTO; i++) photo[i] = (uint8_t)(i * i >> 8);
    for (uint32_t i = 0; i < PAGES; i++) numbers[i] = 1000 + i;

    /* how many pages, and so how many numbers and how large an area */
    LeafPageCount count = leaf_overflow_pages(PHOTO);
    if (refused("pages", count.refusal)) return 1;
    printf("%d bytes take %zu pages\n", PHOTO, count.pages);

    /* split: the cell comes back, the pages stand in the area in the order of their numbers */
    LeafSplit split = leaf_overflow_split(photo, PHOTO, hash, numbers, PAGES, pages, sizeof pages);
    if (refused("split", split.refusal)) return 1;
    printf("a cell of %zu bytes\n", split.cell_len);

    /* the cell is a flagged value of a leaf */
    if (refused("open", leaf_open(&work, list, LEAF_LIST_LEAST, store, sizeof store, LEAF_REPORT_EVERY, 0, none, 0, none, 0, none))) return 1;
    if (refused("ingest", leaf_ingest(&work, list, LEAF_LIST_LEAST, store, sizeof store, none, 0, key, 1, 1, split.cell, split.cell_len).refusal)) return 1;
    if (refused("digest", leaf_digest(&work, list, LEAF_LIST_LEAST, store, sizeof store, none, 0, leaf, sizeof leaf, tickets, sizeof tickets).refusal)) return 1;
    LeafValue found = leaf_page_get(leaf, LEAF_PAGE_SIZE, key);
    if (refused("get", found.refusal)) return 1;
    printf("found: flag %d, %zu bytes\n", found.flag, found.len);

    /* join */
    LeafJoined join = leaf_overflow_join(leaf + found.offset, found.len, pages, sizeof pages, joined, sizeof joined);
    if (refused("join", join.refusal)) return 1;
    printf("%zu bytes joined: %s\n", join.len, memcmp(joined, photo, PHOTO) ? "another photograph" : "the photograph");

    /* free: the numbers that the caller lent, in their order */
    LeafFreed free = leaf_overflow_free(leaf + found.offset, found.len, pages, sizeof pages, freed, PAGES);
    if (refused("free", free.refusal)) return 1;
    printf("%zu numbers freed, %u to %u: %s\n", free.numbers, freed[0], freed[PAGES - 1],
           memcmp(freed, numbers, sizeof numbers) ? "others" : "those lent");

    /* a byte behind the last page's value: no splitting writes that */
    pages[sizeof pages - 1] = 1;
    printf("a spoilt page: refused by %d\n", leaf_overflow_join(split.cell, split.cell_len, pages, sizeof pages, joined, sizeof joined).refusal);
    return 0;
}
