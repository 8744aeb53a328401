/* Prints the melt sheet of a tree: melt_sheet ROW TREE. ROW is a file of leaves, each its separator of 32 bytes and its page of 4,096; TREE is the
 * first 24 bytes of the tree's keys, as 48 hex digits. Without arguments it makes a row of two trees by the updater and prints their sheets, which
 * `make examples` holds against melt_sheet.stdout. */
#include "leaf_updater.h"
#include <inttypes.h>
#include <stdio.h>
#include <string.h>

static uint8_t pages[(LEAF_ROW_MOST + 1) * LEAF_PAGE_SIZE], separators[LEAF_ROW_MOST + 1][LEAF_KEY_SIZE];
static size_t leaves;

static int print_sheet(const char *name, const uint8_t tree[LEAF_TREE_SIZE]) {
    LeafMelt sheet = leaf_melt(pages, leaves * LEAF_PAGE_SIZE, (const uint8_t(*)[LEAF_KEY_SIZE])separators, leaves, tree);
    printf("%s\n", name);
    if (sheet.refusal) {
        printf("  refused: No. %d\n", sheet.refusal);
        return 1;
    }
    printf("  wax      %12" PRIu64 " mg\n", sheet.total);
    printf("  factor   %12.17g\n", sheet.factor);
    printf("  product  %12.17g mg\n", sheet.product);
    printf("  crucible %12" PRIu64 " mg\n", sheet.melt);
    return 0;
}

/* ---- a row from a file */

static int read_row(const char *path) {
    FILE *file = fopen(path, "rb");
    if (!file) return 1;
    while (leaves <= LEAF_ROW_MOST && fread(separators[leaves], LEAF_KEY_SIZE, 1, file) == 1) {
        if (fread(pages + leaves * LEAF_PAGE_SIZE, LEAF_PAGE_SIZE, 1, file) != 1) break;
        leaves++;
    }
    int left = fgetc(file) != EOF;
    return fclose(file) || left;
}

static int read_tree(const char *digits, uint8_t tree[LEAF_TREE_SIZE]) {
    if (strlen(digits) != 2 * LEAF_TREE_SIZE) return 1;
    for (int i = 0; i < LEAF_TREE_SIZE; i++) {
        unsigned byte;
        if (sscanf(digits + 2 * i, "%2x", &byte) != 1) return 1;
        tree[i] = (uint8_t)byte;
    }
    return 0;
}

/* ---- a row that the updater makes */

static LeafWork work;
static LeafEntry list[LEAF_LIST_LEAST];
static uint8_t store[LEAF_STORE_LEAST], tickets[LEAF_ROW_MOST * LEAF_TICKET_SIZE];

/* Takes a weight record in: its tree, which of the tree's records it is, its kind, and its body in as many bytes, low byte first. */
static int put(const char *tree, uint8_t which, uint8_t kind, uint64_t body, size_t bytes) {
    uint8_t key[LEAF_KEY_SIZE] = {0}, value[9] = {kind};
    memcpy(key, tree, strlen(tree));
    key[LEAF_TREE_SIZE] = which;
    for (size_t i = 0; i < bytes; i++) value[1 + i] = (uint8_t)(body >> (8 * i));
    return leaf_ingest(&work, list, LEAF_LIST_LEAST, store, sizeof store, key, 0, key, 1, 0, value, 1 + bytes).refusal;
}

static uint64_t bits(double factor) {
    uint64_t bits;
    memcpy(&bits, &factor, sizeof bits);
    return bits;
}

static int make_row(void) {
    const uint8_t none[LEAF_KEY_SIZE] = {0};
    int refusal = leaf_open(&work, list, LEAF_LIST_LEAST, store, sizeof store, LEAF_REPORT_EVERY, 0, none, 0, none, 0, none);
    refusal |= put("rings of March", 1, 1, 1200, 4) | put("rings of March", 2, 1, 1300, 4);
    refusal |= put("rings of March", 3, 2, 2500, 4) | put("rings of March", 4, 3, bits(15.5), 8);
    refusal |= put("statue", 1, 4, 1099511626776, 8) | put("statue", 2, 5, 1000, 8) | put("statue", 3, 3, bits(8.9), 8);
    LeafGave gave = leaf_digest(&work, list, LEAF_LIST_LEAST, store, sizeof store, none, 0, pages, sizeof pages, tickets,
                                sizeof tickets);
    leaves = gave.leaves;
    return refusal | gave.refusal;
}

int main(int count, char **words) {
    uint8_t tree[LEAF_TREE_SIZE] = "rings of March", statue[LEAF_TREE_SIZE] = "statue";
    if (count == 1) return make_row() || print_sheet("rings of March", tree) || print_sheet("statue", statue);
    if (count != 3 || read_row(words[1]) || read_tree(words[2], tree)) {
        fprintf(stderr, "usage: melt_sheet ROW TREE\n");
        return 2;
    }
    return print_sheet(words[2], tree);
}
