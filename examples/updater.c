/* Changes two leaves in a row. After the changes too little is left of the first one for a leaf, so it is merged with the
 * second. The same as updater.rs; `make examples` builds and runs it. */
#include "leaf_updater.h"
#include <stdio.h>
#include <stdlib.h>
#include <string.h>

/* All memory is the caller's; zeros are no open work. Area and tickets are enough for any digest with this list and store. */
#define STORE 8192
#define BODY LEAF_BODY(LEAF_LIST_LEAST, STORE)
static LeafWork work;
static LeafEntry list[LEAF_LIST_LEAST];
static uint8_t store[STORE], area[LEAF_AREA_ASKED(BODY)], tickets[LEAF_TICKETS_ASKED(BODY)];
static uint8_t left[LEAF_PAGE_SIZE], right[LEAF_PAGE_SIZE];
static uint8_t keys[256][LEAF_KEY_SIZE]; /* keys[b] is 32 times the byte b */

static void must(uint8_t refusal) {
    if (refusal != LEAF_ACCEPTED) {
        fprintf(stderr, "refused by %u\n", refusal);
        exit(1);
    }
}

/* The value of keys[byte] is to be so many times the letter; where that is no byte, the key is deleted. */
static void ingest(const uint8_t *page, uint8_t byte, char letter, size_t len) {
    uint8_t value[LEAF_VALUE_MOST];
    memset(value, letter, sizeof value);
    LeafReport report = leaf_ingest(&work, list, LEAF_LIST_LEAST, store, STORE, page, LEAF_PAGE_SIZE, keys[byte],
                                    len > 0, 0, value, len);
    must(report.refusal);
}

static void print_record(const char *what, const uint8_t *key, const uint8_t *value, size_t len) {
    printf("  %s %02x: %zu times %c\n", what, key[0], len, value[0]);
}

/* Prints the leaves that it gives, each a page of the area and a ticket, which is shorter where there is no cutoff. */
static LeafGave digest(const uint8_t *base) {
    LeafGave gave = leaf_digest(&work, list, LEAF_LIST_LEAST, store, STORE, base, LEAF_PAGE_SIZE, area, sizeof area,
                                tickets, sizeof tickets);
    must(gave.refusal);
    const uint8_t *ticket = tickets;
    for (const uint8_t *page = area; page < area + gave.leaves * LEAF_PAGE_SIZE; page += LEAF_PAGE_SIZE) {
        if (ticket[0] == LEAF_TICKET_WITH_CUTOFF) {
            printf("leaf from %02x to %02x\n", ticket[1], ticket[1 + LEAF_KEY_SIZE]);
            ticket += LEAF_TICKET_SIZE;
        } else {
            printf("leaf from %02x on\n", ticket[1]);
            ticket += LEAF_TICKET_SIZE_NO_CUTOFF;
        }
        for (size_t i = 0; i < page[0]; i++) {
            LeafKey key = leaf_page_key(page, LEAF_PAGE_SIZE, i);
            LeafValue value = leaf_page_value(page, LEAF_PAGE_SIZE, i);
            print_record("record", key.key, page + value.offset, value.len);
        }
    }
    return gave;
}

/* Prints the records that a digest left pending; all are listed then. Store or base has the value, as the holder says. */
static void print_pending(const uint8_t *base) {
    for (size_t i = 0; i < work.count; i++) {
        LeafTwinPlace twin = leaf_twin(work, list, LEAF_LIST_LEAST, store, STORE, base, LEAF_PAGE_SIZE, i);
        const uint8_t *holder = twin.holder == LEAF_HOLDER_STORE ? store : base;
        print_record("pending", twin.key, holder + twin.offset, twin.len);
    }
}

/* A page of three records: a work without a base gives it. Such a work ignores the page that it is lent. */
static void make_page(uint8_t page[LEAF_PAGE_SIZE], uint8_t first, char letter, size_t len) {
    must(leaf_open(&work, list, LEAF_LIST_LEAST, store, STORE, LEAF_REPORT_EVERY, 0, page, LEAF_PAGE_SIZE, keys[0], 0,
                   keys[0]));
    for (int i = 0; i < 3; i++) ingest(page, first + i * 0x10, letter + i, len);
    digest(page);
    memcpy(page, area, LEAF_PAGE_SIZE);
}

int main(void) {
    for (int b = 0; b < 256; b++) memset(keys[b], b, LEAF_KEY_SIZE);
    make_page(left, 0x10, 'a', 300);
    make_page(right, 0x40, 'd', 1000);
    puts("changes from 00 to 40: 15 is new, 20 deleted, 30 changed");
    must(leaf_open(&work, list, LEAF_LIST_LEAST, store, STORE, LEAF_REPORT_EVERY, 1, left, LEAF_PAGE_SIZE, keys[0], 1,
                   keys[0x40]));
    ingest(left, 0x15, 'x', 200);
    ingest(left, 0x20, '-', 0);
    ingest(left, 0x30, 'y', 500);
    LeafGave gave = digest(left);
    print_pending(left);
    printf("merged with the leaf at %02x; 50 changed\n", gave.cutoff[0]);
    must(leaf_next_base(&work, list, LEAF_LIST_LEAST, store, STORE, right, LEAF_PAGE_SIZE, gave.cutoff, 0, keys[0]));
    ingest(right, 0x50, 'z', 1100);
    digest(right);
    return 0;
}
