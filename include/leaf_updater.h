/*
 * The leaf updater's calls for C. Link with libleaf_updater.a; it needs nothing but the C library's memory functions.
 *
 * A leaf is a page of 4,096 bytes with records in rising order of their keys, each a key of 32 bytes, a value and an overflow
 * flag. A leaf has a separator, at or below its first key, and a cutoff, above its last key, which is the next leaf's separator; the
 * last leaf has none. A work changes one leaf, its base, or several in a row:
 *
 *     leaf_open          with the base page, its separator and its cutoff, or with no base
 *     leaf_ingest        for each change, in rising order of the keys
 *     leaf_digest        gives new leaves; done, or waiting for a merge where too little is left for a leaf
 *     leaf_next_base     when waiting: with the leaf at that cutoff; then go on with leaf_ingest or leaf_digest
 *     leaf_remove_cutoff when waiting and no leaf is there: then leaf_digest again
 *
 * examples/updater.c shows all but the last.
 *
 * What is lent. The caller keeps all memory: the work record, the list, the store and the pages. No call allocates, keeps a pointer or
 * has memory of its own, so that different works may be used at the same time, and a work may be copied or moved between calls.
 *  - A pointer is to as many elements as the length behind it says, and is not NULL, even where that length is 0.
 *  - What a call changes overlaps nothing else that it is lent. What it only reads may overlap.
 *  - Work records, entries and page numbers are aligned as C aligns them; pages, keys and other bytes may stand anywhere.
 *  - To a call on a work are lent the list and store that the last call on this work left, and the base's page, unchanged. Where a work has
 *    no base, waits or is done, the page is ignored and may be anything, also of length 0.
 *
 * Refusals. Each call checks all that it is lent. A refused call answers the lowest number that applies, with zeros in every other
 * field of the answer, and changes nothing that it was lent.
 *
 * Flags among the arguments are set where they are not 0. A key whose flag is not set is ignored, whatever stands there.
 *
 * Stack: the bytes that a call uses at most, with its arguments on the stack, its return address and all that it calls. Measured on x86-64;
 * `make test` measures it again.
 */
#ifndef LEAF_UPDATER_H
#define LEAF_UPDATER_H

#include <stdbool.h>
#include <stddef.h>
#include <stdint.h>

#ifdef __cplusplus
extern "C" {
#endif

/* ---- sizes */

#define LEAF_KEY_SIZE 32
#define LEAF_TREE_SIZE 24 /* the first bytes of a key, which name a tree */
#define LEAF_PAGE_SIZE 4096
#define LEAF_VALUE_MOST 1332
#define LEAF_RECORDS_MOST 120 /* records of a page */
#define LEAF_LIST_LEAST 121   /* entries of a list */
#define LEAF_LIST_MOST 4096
#define LEAF_STORE_LEAST 4096 /* bytes of a store */
#define LEAF_STORE_MOST 65536
#define LEAF_ROW_MOST 16 /* pages of a row */

/* The body of so many records with so many bytes of values. */
#define LEAF_BODY(records, value_bytes) ((size_t)34 * (records) + (value_bytes))

/* What a digest asks for, by the body of all pending records, those of the base that no key has passed yet among them. Where that isn't
 * known, LEAF_BODY(list_len, store_len) is enough: no work with this list and store has a greater body. */
#define LEAF_PAGES_ASKED(body) (((body) + 2046) / 2047)
#define LEAF_AREA_ASKED(body) (LEAF_PAGES_ASKED(body) * LEAF_PAGE_SIZE)
#define LEAF_TICKETS_ASKED(body) (LEAF_PAGES_ASKED(body) * LEAF_TICKET_SIZE)

/* A value too long for a page is split into overflow pages and a cell, which a page takes as a flagged value. */
#define LEAF_CELL_MOST 100 /* bytes of a cell: 44 to 100, a multiple of four */
#define LEAF_OVERFLOW_MOST 1048576

/* A ticket: its kind in one byte, the leaf's separator, and its cutoff where it has one. */
#define LEAF_TICKET_SIZE 65
#define LEAF_TICKET_SIZE_NO_CUTOFF 33
enum LeafTicketKind { LEAF_TICKET_WITH_CUTOFF = 1, LEAF_TICKET_NO_CUTOFF = 2 };

/* ---- refusals */

enum LeafRefusal {
    LEAF_ACCEPTED = 0,
    LEAF_PAGE_LENGTH = 1,      /* the page is not 4,096 bytes long */
    LEAF_TOO_MANY_RECORDS = 2, /* the page has over 120 records */
    LEAF_BAD_OFFSETS = 3,      /* its values' offsets fall, lie among the pointers or past the end */
    LEAF_LONG_PAGE_VALUE = 4,  /* a value of the page is over 1,332 bytes long */
    LEAF_KEYS_NOT_RISING = 5,  /* the page's keys don't strictly rise */
    LEAF_BAD_BOUNDS = 6,       /* cutoff without base or not above the separator, or a key of the base outside them */
    LEAF_ROOM_LENGTH = 7,      /* length of the list or of the store */
    LEAF_UNSOUND = 8,          /* work record, list, store and page are not what calls leave */
    LEAF_OUT_OF_TURN = 9,      /* the call isn't allowed in this turn */
    LEAF_NO_SUCH_INDEX = 10,   /* no record has this index, or the range is empty or too long */
    LEAF_EQUAL_KEYS = 11,      /* equal keys have no separator */
    LEAF_LONG_VALUE = 12,      /* the new value is over 1,332 bytes long */
    LEAF_KEY_TOO_LOW = 13,     /* the key, or the next base's separator, is too low */
    LEAF_KEY_PAST_CUTOFF = 14, /* the key is at or above the cutoff */
    LEAF_LIST_FULL = 15,       /* more records would be pending than the list has entries */
    LEAF_STORE_FULL = 16,      /* their values would have more bytes than the store */
    LEAF_SHORT_AREA = 17,      /* area or ticket buffer is shorter than the digest asks */
    LEAF_LONG_ROW = 18,        /* a row starts above zero, or has over 16 pages */
    LEAF_BAD_WEIGHT = 19,      /* a record of the tree is no weight, one over 2 to the 40th, or no factor from 1 to 32 */
    LEAF_ODD_TREE = 20,        /* the tree has not exactly one sprue and one factor */
    LEAF_OVERFLOW_LENGTH = 21, /* the value is empty, or over 1,048,576 bytes long */
    LEAF_SHORT_BUFFER = 22,    /* the number list, value buffer or page area is too short */
    LEAF_BAD_OVERFLOW = 23,    /* no splitting writes this cell, or this cell with these pages */
    LEAF_HEAVY_TREE = 24       /* the tree weighs over 2 to the 40th milligrams */
};

/* ---- what is lent and answered. A key whose flag isn't set is zeros. */

/* Which dropped records with their overflow flag set an ingest reports: those alone behind a base record that it took up, as nomt does, so
 * that a cell which is replaced as the first thing in a leaf is never reported; or every one. */
enum LeafMode { LEAF_REPORT_AFTER_KEPT = 0, LEAF_REPORT_EVERY = 1 };

enum LeafTurn { LEAF_TURN_OPEN = 1, LEAF_TURN_WAITING = 2, LEAF_TURN_DONE = 3 };
enum LeafKind { LEAF_KIND_UNUSED = 0, LEAF_KIND_INSERT = 1, LEAF_KIND_CHUNK = 2 };
enum LeafHolder { LEAF_HOLDER_STORE = 1, LEAF_HOLDER_BASE = 2 };

/* The work record. Only the calls write it; most of what is changed by hand is refused by 8. */
typedef struct {
    uint8_t turn;
    uint8_t based; /* whether there is a base */
    uint8_t mode;  /* chosen at opening */
    size_t low;    /* how many of the base's records were passed */
    size_t used; /* entries and store bytes in use */
    size_t filled;
    size_t count; /* listed records, and the bytes of their values */
    size_t bytes;
    uint8_t latest[LEAF_KEY_SIZE]; /* the latest base's separator */
    uint8_t cut;
    uint8_t cutoff[LEAF_KEY_SIZE];
    uint8_t over; /* the override: where the next leaf begins, if not at the latest separator */
    uint8_t overriding[LEAF_KEY_SIZE];
    uint8_t floor[LEAF_KEY_SIZE]; /* the lowest key that separators and merge requests still allow */
    uint8_t taken;                /* the last key that was ingested */
    uint8_t last[LEAF_KEY_SIZE];
} LeafWork;

/* An entry of the list. An insert's value is the store's bytes from..to; a chunk is the base's records from..to, whose values have sum
 * bytes. `to` is the end. What a kind doesn't use is zero. */
typedef struct {
    uint8_t kind;
    uint8_t flag;
    size_t from;
    size_t to;
    size_t sum;
    uint8_t key[LEAF_KEY_SIZE];
} LeafEntry;

/* An ingest's answer: where a dropped record's value lies in the base page, if it is reported. */
typedef struct {
    uint8_t refusal;
    uint8_t reported;
    size_t offset;
    size_t len;
} LeafReport;

/* A digest's answer: how many leaves it gave, and the cutoff if it waits for a merge; else it is done. */
typedef struct {
    uint8_t refusal;
    uint8_t waiting;
    size_t leaves;
    uint8_t cutoff[LEAF_KEY_SIZE];
} LeafGave;

/* A pending record: who holds its value, where it lies there, its overflow flag and its key. */
typedef struct {
    uint8_t refusal;
    uint8_t holder;
    bool flag;
    size_t offset;
    size_t len;
    uint8_t key[LEAF_KEY_SIZE];
} LeafTwinPlace;

typedef struct {
    uint8_t refusal;
    uint8_t key[LEAF_KEY_SIZE];
} LeafKey;

/* A value of a page: its place there and its overflow flag. */
typedef struct {
    uint8_t refusal;
    uint8_t absent; /* leaf_page_get finds no such key */
    uint8_t flag;
    size_t offset;
    size_t len;
    size_t position; /* where an absent key would stand: the record before it is position - 1, the one behind it position; else 0 */
} LeafValue;

typedef struct {
    uint8_t refusal;
    size_t bytes;
} LeafSize;

/* The melt of a tree: its wax in milligrams, its alloy factor, their product rounded once, and the whole milligrams not below it. */
typedef struct {
    uint8_t refusal;
    uint64_t total;
    double factor;
    double product;
    uint64_t melt;
} LeafMelt;

/* How many pages a large value takes. */
typedef struct {
    uint8_t refusal;
    size_t pages;
} LeafPageCount;

/* A large value's cell, zeros behind its cell_len bytes, and how many pages were written. */
typedef struct {
    uint8_t refusal;
    uint8_t cell[LEAF_CELL_MOST];
    size_t cell_len;
    size_t pages;
} LeafSplit;

typedef struct {
    uint8_t refusal;
    size_t len; /* of the value */
} LeafJoined;

typedef struct {
    uint8_t refusal;
    size_t numbers; /* how many were written */
} LeafFreed;

/* ---- calls on a work */

/*
 * Opens a work: with a base, that is a page, its separator and, where cut is set, its cutoff; or with none (based is 0) and no cutoff.
 * The mode, one of enum LeafMode, stays until the work is opened again; any number but 0 is LEAF_REPORT_EVERY.
 * Answers 0 or the refusal. Leaves a new work record, and zeros in all of list and store, whatever all three held.
 * Refuses by: 1 to 5 for the base's page; 6; 7.
 * Stack: 384 bytes.
 */
uint8_t leaf_open(LeafWork *work, LeafEntry *list, size_t list_len, uint8_t *store, size_t store_len, uint8_t mode,
                  uint8_t based, const uint8_t *page, size_t page_len, const uint8_t separator[LEAF_KEY_SIZE],
                  uint8_t cut, const uint8_t cutoff[LEAF_KEY_SIZE]);

/*
 * Takes a key into an open work: with a new value and its overflow flag where put is set, else as a deletion, which ignores value and
 * flag. The base's records below the key become pending; one with this key is dropped. Where the dropped one has its overflow flag set,
 * its place in the page is reported: always in mode LEAF_REPORT_EVERY, else if at least one was taken up just before it in this call.
 * Leaves at most two new entries in the list, and the value in the store.
 * Refuses by: 1 to 6 for the base's page; 7; 8; 9 when waiting or done; 12; 13; 14; 15; 16. A deletion is never refused by 12, 15 or 16.
 * Stack: 896 bytes.
 */
LeafReport leaf_ingest(LeafWork *work, LeafEntry *list, size_t list_len, uint8_t *store, size_t store_len,
                       const uint8_t *page, size_t page_len, const uint8_t key[LEAF_KEY_SIZE], uint8_t put, uint8_t flag,
                       const uint8_t *value, size_t value_len);

/*
 * Gives leaves of an open work's pending records, the base's rest among them: each as one page of the area, in order, and its ticket in
 * the second buffer, packed one behind the other. Later bytes of both keep what they held.
 * Leaves a work that is done, with list and store all zeros; or one that waits for a merge, with the records that are left as inserts.
 * Refuses by: 1 to 6 for the base's page; 7; 8; 9 when waiting or done; 17 where the area is shorter than LEAF_AREA_ASKED of the pending
 * body or the tickets shorter than LEAF_TICKETS_ASKED, also where it would give no leaf.
 * Stack: 2,048 bytes.
 */
LeafGave leaf_digest(LeafWork *work, LeafEntry *list, size_t list_len, uint8_t *store, size_t store_len,
                     const uint8_t *page, size_t page_len, uint8_t *area, size_t area_len, uint8_t *tickets,
                     size_t tickets_len);

/*
 * The next base of a work that waits, or is done and has a cutoff: its separator is at or above that cutoff. The work is then open.
 * Answers 0 or the refusal; changes the work record alone.
 * Refuses by: 1 to 6 for the new page; 7; 8 when waiting or done; 9 when open, or done without a cutoff; 13; 15; 16.
 * Stack: 768 bytes.
 */
uint8_t leaf_next_base(LeafWork *work, const LeafEntry *list, size_t list_len, const uint8_t *store, size_t store_len,
                       const uint8_t *page, size_t page_len, const uint8_t separator[LEAF_KEY_SIZE], uint8_t cut,
                       const uint8_t cutoff[LEAF_KEY_SIZE]);

/*
 * Removes the cutoff of a work that waits: there is no further leaf to merge with. The work is then open, with no base.
 * Answers 0 or the refusal; changes the work record alone.
 * Refuses by: 7; 8 when waiting or done; 9 when open or done.
 * Stack: 640 bytes.
 */
uint8_t leaf_remove_cutoff(LeafWork *work, const LeafEntry *list, size_t list_len, const uint8_t *store,
                           size_t store_len);

/*
 * Pending record i, in every turn: the listed ones in order, then the base's rest. The value is len bytes from offset on, of the store or
 * of the base's page, as holder says. Only reads.
 * Refuses by: 1 to 6 for the base's page; 7; 8; 10 where i is not below the number of pending records.
 * Stack: 1,152 bytes.
 */
LeafTwinPlace leaf_twin(LeafWork work, const LeafEntry *list, size_t list_len, const uint8_t *store, size_t store_len,
                        const uint8_t *page, size_t page_len, size_t i);

/*
 * Copies the value of pending record i to the start of out, if out has room for all of it, else nothing. Answers the value's length: 0
 * also where leaf_twin refuses, which tells a refusal from an empty value. Has no refusals of its own.
 * Stack: 1,216 bytes.
 */
size_t leaf_part(LeafWork work, const LeafEntry *list, size_t list_len, const uint8_t *store, size_t store_len,
                 const uint8_t *page, size_t page_len, size_t i, uint8_t *out, size_t out_len);

/*
 * Whether a key is below the work's cutoff, 1 or 0; 1 where it has none. Reads the work record alone and refuses nothing.
 * Stack: 256 bytes.
 */
uint8_t leaf_is_in_scope(LeafWork work, const uint8_t key[LEAF_KEY_SIZE]);

/*
 * Writes the current separator, where the next leaf begins, into out. Reads the work record alone and refuses nothing.
 * Stack: 320 bytes.
 */
void leaf_separator(LeafWork work, uint8_t out[LEAF_KEY_SIZE]);

/* ---- calls on keys */

/*
 * How many leading bits two keys share, counted from the top of byte 0: 256 for equal ones. Refuses nothing.
 * Stack: 64 bytes.
 */
size_t leaf_prefix_len(const uint8_t a[LEAF_KEY_SIZE], const uint8_t b[LEAF_KEY_SIZE]);

/*
 * Writes the separator of a and b into out: b's leading bits, one more than the two share, then zeros. Answers 0 or the
 * refusal; refused, out keeps what it held.
 * Refuses by: 11.
 * Stack: 64 bytes.
 */
uint8_t leaf_separate(const uint8_t a[LEAF_KEY_SIZE], const uint8_t b[LEAF_KEY_SIZE], uint8_t out[LEAF_KEY_SIZE]);

/* ---- calls on a page. Each checks the whole page, and only reads it. */

/*
 * Answers 0 for a good page.
 * Refuses by: 1 to 5.
 * Stack: 64 bytes.
 */
uint8_t leaf_page_check(const uint8_t *page, size_t page_len);

/*
 * Key i of the page.
 * Refuses by: 1 to 5; 10 where i is not below the number of records.
 * Stack: 128 bytes.
 */
LeafKey leaf_page_key(const uint8_t *page, size_t page_len, size_t i);

/*
 * Value i of the page.
 * Refuses by: 1 to 5; 10 where i is not below the number of records.
 * Stack: 64 bytes.
 */
LeafValue leaf_page_value(const uint8_t *page, size_t page_len, size_t i);

/*
 * The value of a key in the page, or absent, with the position at which the key would stand, 0 to the number of records: the records
 * before it have smaller keys, those from it on greater ones. leaf_page_key answers those neighbours.
 * Refuses by: 1 to 5.
 * Stack: 128 bytes.
 */
LeafValue leaf_page_get(const uint8_t *page, size_t page_len, const uint8_t key[LEAF_KEY_SIZE]);

/*
 * The bytes of the values of records `from` up to, not including, `to`.
 * Refuses by: 1 to 5; 10 unless from < to and to is at most the number of records.
 * Stack: 64 bytes.
 */
LeafSize leaf_page_values_size(const uint8_t *page, size_t page_len, size_t from, size_t to);

/*
 * Builds the page of records `from` up to, not including, `to` in the first 4,096 bytes of out: records before `mid` one by one, the
 * others as one chunk. The bytes between pointers and values are zeros. Answers 0 or the refusal; refused, out keeps what it held.
 * Refuses by: 1 to 5; 10 unless from <= mid <= to and to is at most the number of records; 17 where out is shorter than a page.
 * Stack: 192 bytes.
 */
uint8_t leaf_page_rebuild(const uint8_t *page, size_t page_len, size_t from, size_t mid, size_t to, uint8_t *out,
                          size_t out_len);

/* ---- calls on a row: pages one behind the other, each with its separator; the first separator is zeros, each one is above the last, and a
 * leaf's cutoff is the next one's separator, the last having none. At most 16 pages, or none. */

/*
 * The melt sheet of the tree that the first 24 bytes of its keys name. A weight record's value is a kind byte and a body, low byte first: 1, a
 * piece's wax in milligrams (32 bits); 2, the sprue's (32 bits); 3, the alloy factor (64-bit float), from 1 to 32; 4 and 5, piece and sprue in 64
 * bits, each at most 2 to the 40th. The tree's flagged records are skipped, and other trees' records aren't looked at. The total, pieces and sprue, is exact; its product with the factor differs from the exact one
 * by at most one part in 2 to the 53rd of it; melt is the smallest whole number not below the product. Only reads.
 * Refuses by: 1 for pages that aren't 4,096 bytes each with one separator each; 2 to 6 for any page; 18; 19; 20; 24 for a total over 2 to the 40th.
 * Stack: 256 bytes.
 */
LeafMelt leaf_melt(const uint8_t *pages, size_t pages_len, const uint8_t (*separators)[LEAF_KEY_SIZE],
                   size_t separators_len, const uint8_t tree[LEAF_TREE_SIZE]);

/* ---- large values: overflow cells and pages. examples/overflow.c shows all four.
 *
 * A cell is the value's size in 8 bytes, the caller's hash of 32 bytes, and the numbers of its first pages, 1 to 15, in 4 bytes each; the other
 * numbers stand in the pages. A page of 4,096 bytes is how many numbers and how many bytes it has, 2 bytes each, the numbers, the bytes, and
 * zeros. All numbers are low byte first. The calls take the pages one behind the other in one area, page i being the page of number i. */

/*
 * How many pages a value of value_len bytes takes: so many numbers, and LEAF_PAGE_SIZE bytes of area for each, a splitting asks for.
 * Refuses by: 21.
 * Stack: 64 bytes.
 */
LeafPageCount leaf_overflow_pages(size_t value_len);

/*
 * Splits a value. Answers its cell and how many pages it has, t; of the numbers the first t are used, one a page, and t pages are written to the
 * front of the area, whose other bytes keep what they held. Any numbers and any hash are taken as they are.
 * Refuses by: 21; 22 where there are fewer than t numbers, or the area is under t pages. Refused, the area keeps what it held.
 * Stack: 384 bytes.
 */
LeafSplit leaf_overflow_split(const uint8_t *value, size_t value_len, const uint8_t hash[LEAF_KEY_SIZE], const uint32_t *numbers,
                              size_t numbers_len, uint8_t *area, size_t area_len);

/*
 * Joins the pages of a cell into their value, in the front of the buffer, whose other bytes keep what they held. Answers the value's length.
 * Refuses by: 23 where no splitting writes the cell; 22 where the buffer or the pages are too short; 23 where none writes the cell with these
 * pages. Refused, the buffer keeps what it held.
 * Stack: 128 bytes.
 */
LeafJoined leaf_overflow_join(const uint8_t *cell, size_t cell_len, const uint8_t *pages, size_t pages_len, uint8_t *value,
                              size_t value_len);

/*
 * Writes the numbers of a cell and its pages, in the order of the pages, to the front of the list, whose other places keep what they held. Answers
 * how many.
 * Refuses by: 23 where no splitting writes the cell; 22 where list or pages are too short; 23 where none writes the cell with these pages.
 * Refused, the list keeps what it held.
 * Stack: 192 bytes.
 */
LeafFreed leaf_overflow_free(const uint8_t *cell, size_t cell_len, const uint8_t *pages, size_t pages_len, uint32_t *numbers,
                             size_t numbers_len);

#ifdef __cplusplus
}
#endif

#endif
