/*
 * A store of edition 2 as a C program holds it: 512-byte pages, 40 entries in a page, and the numbers 1, 2 and 3 in their order.
 * Prints nothing and gives 0 if all is as the header and docs/FORMAT.md say.
 */
#include "rcst.h"

#include <stdio.h>
#include <string.h>

#define PAGE RCST_SECOND_PAGE_BYTES

static int failures;

static void expect(int holds, const char *what) {
    if (!holds) {
        printf("second.c: %s\n", what);
        failures += 1;
    }
}

/* A field of `wide` bits at bit `at`, the most significant first. */
static uint32_t field(const uint8_t *bytes, size_t at, int wide) {
    uint32_t value = 0;
    int i;

    for (i = 0; i < wide; i += 1) {
        value = 2 * value + ((bytes[(at + i) / 8] >> (7 - (at + i) % 8)) & 1);
    }
    return value;
}

static uint32_t level(const uint8_t *store, size_t page) {
    return field(store, 8 * page * PAGE, 4);
}

static uint32_t entries(const uint8_t *store, size_t page) {
    return field(store, 8 * page * PAGE + 4, 6);
}

static uint32_t key_of(const uint8_t *store, size_t page, size_t entry) {
    return field(store, 8 * page * PAGE + 128 + 96 * entry, 24);
}

/* The value found, or 4,294,967,295. */
static uint32_t look(const uint8_t *store, size_t length, uint32_t key, uint32_t version) {
    uint32_t found = 9, value = 9;

    return rcst_lookup(store, length, key, version, &found, &value) == 0 && found == 1 ? value : 4294967295u;
}

static void fresh(void) {
    static uint8_t store[6 * PAGE];
    static const uint8_t header[] = {0x52, 0x43, 0x53, 0x54, 0x02, 0x00, 0x30, 0x00, 0x00, 0x00, 0x10};
    static const uint8_t slot[] = {0x00, 0x00, 0x00, 0x05, 0x00};
    static const uint8_t root[] = {0x10, 0x00, 0x00, 0x03, 0xFF, 0xFF, 0xC0, 0x00};
    uint32_t rule = 9;

    memset(store, 0xEE, sizeof store);
    expect(rcst_fresh_second(store, sizeof store - 1) == 1, "a length that is not whole pages gives 1");
    expect(rcst_fresh_second(store, 5 * PAGE) == 1, "five pages give 1");
    expect(store[0] == 0xEE && store[sizeof store - 1] == 0xEE, "and change nothing");
    expect(rcst_fresh_second(store, sizeof store) == 0, "a fresh store of 6 pages");
    expect(memcmp(store, header, sizeof header) == 0, "its header");
    expect(memcmp(store + PAGE, slot, sizeof slot) == 0, "its slot");
    expect(memcmp(store + 5 * PAGE, root, sizeof root) == 0, "its page 5");
    expect(rcst_check(store, sizeof store, &rule) == 0 && rule == 0, "it is sound");
    expect(rcst_fresh(store, sizeof store) == 0 && store[4] == 1, "edition 1 over the same bytes");
}

/* 40 keys fill a page, the 41st splits it; a page with 7 is merged; an abandon leaves the fresh bytes. */
static void pages(void) {
    static uint8_t store[16 * PAGE], before[16 * PAGE], again[16 * PAGE];
    uint32_t key, list[82], visited[RCST_MOST_LEVELS];
    size_t count = 9, n = sizeof store;

    expect(rcst_fresh_second(store, n) == 0, "a fresh store of 16 pages");
    memcpy(before, store, n);
    expect(rcst_open(store, n) == 0, "an update opens");
    for (key = 1; key <= 40; key += 1) {
        expect(rcst_insert(store, n, key, 10 * key) == 0, "an insert");
    }
    expect(entries(store, 5) == 40, "40 entries in a page");
    expect(rcst_insert(store, n, 41, 410) == 0, "the 41st");
    expect(entries(store, 6) == 21 && entries(store, 7) == 20, "21 and 20");
    expect(level(store, 8) == 2 && key_of(store, 8, 0) == 0 && key_of(store, 8, 1) == 22, "under a root with low keys 0 and 22");
    expect(rcst_visits(store, n, 30, 1, visited, RCST_MOST_LEVELS, &count) == 0 && count == 2 && visited[0] == 8 && visited[1] == 7,
           "by which a lookup goes");
    expect(rcst_range(store, n, 0, RCST_HIGHEST_KEY, 1, list, 82, &count) == 0 && count == 41 && list[80] == 41 && list[81] == 410,
           "a range over both");
    for (key = 22; key <= 33; key += 1) {
        expect(rcst_delete(store, n, key) == 0, "a delete");
    }
    expect(entries(store, 7) == 8, "eight are enough");
    expect(rcst_delete(store, n, 34) == 0, "and seven are not");
    expect(entries(store, 6) == 28 && level(store, 7) == 0 && level(store, 8) == 0, "so the two are one page");
    memcpy(again, store, n);
    expect(rcst_abandon(again, n) == 0 && memcmp(again, before, n) == 0, "abandoned, every byte is what it was");
    expect(rcst_commit(store, n) == 0, "a release");
    expect(look(store, n, 41, 1) == 410 && look(store, n, 30, 1) == 4294967295u && look(store, n, 1, 0) == 4294967295u, "reads");
    expect(rcst_open(store, n) == 0 && rcst_delete(store, n, 1) == 0 && rcst_commit(store, n) == 0, "a second one");
    expect(rcst_difference(store, n, 1, 2, list, 4, &count) == 0 && count == 1 && list[0] == 1 && list[1] == 1, "what differs");
    expect(rcst_life(store, n, 1, list, 3, &count) == 0 && count == 1 && list[0] == 1 && list[1] == 2 && list[2] == 10, "a life");
    expect(rcst_open(store, n) == 0 && rcst_return(store, n, 1) == 0 && rcst_commit(store, n) == 0, "back to the first");
    expect(rcst_difference(store, n, 1, 3, list, 4, &count) == 0 && count == 0, "nothing differs");
}

/* From a fresh store: keys 1 to 41 in the first release, 22 to 34 gone in the second. No prune while an update is open. */
static void two_releases(uint8_t *store, size_t n) {
    uint32_t key;

    expect(rcst_open(store, n) == 0 && rcst_prune(store, n, 0) == 8, "not while an update is open");
    for (key = 1; key <= 41; key += 1) {
        expect(rcst_insert(store, n, key, 10 * key) == 0, "an insert");
    }
    expect(rcst_commit(store, n) == 0 && rcst_open(store, n) == 0, "a release");
    for (key = 22; key <= 34; key += 1) {
        expect(rcst_delete(store, n, key) == 0, "a delete");
    }
    expect(rcst_commit(store, n) == 0, "a second one");
}

/* Pruned to a version: what ended at or before it goes, what is kept reads as before, and freed pages are used again. */
static void prunes(void) {
    static uint8_t store[12 * PAGE], expected[12 * PAGE], first[12 * RCST_PAGE_BYTES];
    static const uint8_t one[] = {0x20, 0x00, 0x01}, two[] = {0x10, 0x00, 0x02};
    static const uint8_t slots[] = {0, 0, 0x10, 8, 0, 0, 0x20, 9, 0, 0, 0, 0}, slot[] = {0, 0, 0x20, 9, 0, 0, 0, 0};
    struct rcst_store_state told;
    uint32_t key, rule = 9, list[6];
    size_t count = 9, n = sizeof store;

    expect(rcst_fresh_second(store, n) == 0 && rcst_prune(store, n, 0) == 0, "a fresh store, pruned to version 0");
    two_releases(store, n);
    memcpy(expected, store, n);
    expect(rcst_prune(store, n, 3) == 6 && memcmp(store, expected, n) == 0, "a version above the current one");
    expect(rcst_prune(store, n, 1) == 0, "the first release becomes the oldest");
    memcpy(expected + 10, one, sizeof one);
    memcpy(expected + PAGE, slots, sizeof slots);
    memset(expected + 5 * PAGE, 0, PAGE);
    expect(memcmp(store, expected, n) == 0, "page 5 and the first slot are gone, and no other byte moved");
    expect(rcst_prune(store, n, 1) == 0 && memcmp(store, expected, n) == 0, "again, and nothing changes");
    expect(rcst_prune(store, n, 0) == 6 && rcst_range(store, n, 0, 9, 0, list, 6, &count) == 6, "version 0 is gone");
    expect(look(store, n, 30, 1) == 300 && look(store, n, 30, 2) == 4294967295u, "the others read as before");
    expect(rcst_life(store, n, 30, list, 3, &count) == 0 && count == 1 && list[0] == 1 && list[1] == 2 && list[2] == 300, "a life");
    expect(rcst_difference(store, n, 0, 2, list, 6, &count) == 6 && rcst_difference(store, n, 2, 0, list, 6, &count) == 6, "either version");
    expect(rcst_prune(store, n, 2) == 0, "and then the second one");
    memcpy(expected + 10, two, sizeof two);
    memcpy(expected + PAGE, slot, sizeof slot);
    memset(expected + 6 * PAGE, 0, 3 * PAGE);
    expect(memcmp(store, expected, n) == 0, "pages 6 to 8 are free");
    expect(rcst_state(store, n, &told) == 0 && told.oldest == 2 && told.current == 2 && told.roots == 1 && told.free == 6, "it tells so");
    expect(rcst_check(store, n, &rule) == 0 && rule == 0, "it is sound");
    expect(rcst_open(store, n) == 0 && rcst_return(store, n, 1) == 6 && rcst_return(store, n, 2) == 0, "a return goes as far back as that");
    for (key = 50; key <= 90; key += 1) {
        expect(rcst_insert(store, n, key, key) == 0, "an insert that uses a freed page");
    }
    expect(level(store, 5) != 0 && rcst_check(store, n, &rule) == 0, "page 5 is used again");
    expect(rcst_abandon(store, n) == 0 && memcmp(store, expected, n) == 0, "abandoned, every byte is what it was");
    expect(rcst_fresh(first, sizeof first) == 0 && rcst_prune(first, sizeof first, 0) == 3, "edition 1 gives 3");
}

/* Fewer than five bytes give 1; otherwise 2, then 3, then 1 by the edition's page size. */
static void order(void) {
    static uint8_t store[16 * PAGE];
    uint32_t rule = 9;
    size_t n = sizeof store;

    expect(rcst_fresh_second(store, n) == 0, "a fresh store");
    expect(rcst_check(store, 4, &rule) == 1, "four bytes give 1");
    expect(rcst_check(store, 5, &rule) == 1, "five bytes are no whole page");
    expect(rcst_check(store, n - 1, &rule) == 1, "one byte short gives 1");
    expect(rcst_check(store, n - RCST_PAGE_BYTES, &rule) == 1, "whole pages of edition 1 alone give 1");
    store[4] = 3;
    expect(rcst_check(store, n, &rule) == 3 && rcst_check(store, n - 1, &rule) == 3, "edition 3 gives 3, whatever the length");
    expect(rcst_check(store, 4, &rule) == 1, "but for four bytes");
    store[0] = 0;
    expect(rcst_check(store, n - 1, &rule) == 2 && rcst_open(store, n - 1) == 2, "other bytes give 2 before that");
    store[0] = 0x52;
    store[4] = 1;
    expect(rcst_check(store, n, &rule) == 4 && rule == 1, "by edition 1's limits it is not sound");
    store[4] = 2;
    store[6 * PAGE - 1] = 1;
    expect(rcst_check(store, n, &rule) == 4 && rule == 1, "nor with a bit set in the 16 bytes at a page's end");
    store[6 * PAGE - 1] = 0;
    expect(rcst_check(store, n, &rule) == 0 && rule == 0, "as it was it is");
}

/* What a program from before edition 2 asks first, in document 01's order; 0 where it would read on. */
static uint32_t first_numbers(const uint8_t *store, size_t length) {
    if (length % RCST_PAGE_BYTES != 0 || length < 6 * RCST_PAGE_BYTES || length > 4096 * RCST_PAGE_BYTES) {
        return RCST_WRONG_LENGTH;
    }
    if (memcmp(store, "RCST", 4) != 0) {
        return RCST_WRONG_FIRST_BYTES;
    }
    return store[4] == RCST_FORMAT_EDITION ? 0 : RCST_WRONG_EDITION;
}

/* It gives 1 or 3 on a store of edition 2 of any size, and never an answer. */
static void old_programs(void) {
    static uint8_t store[RCST_MOST_PAGES * PAGE];
    size_t n;

    for (n = RCST_FEWEST_PAGES; n <= RCST_MOST_PAGES; n += n < 16 ? 1 : 85) {
        expect(rcst_fresh_second(store, n * PAGE) == 0, "a fresh store");
        expect(first_numbers(store, n * PAGE) == (n <= 2048 ? RCST_WRONG_EDITION : RCST_WRONG_LENGTH), "is refused by old programs");
    }
}

int main(void) {
    fresh();
    pages();
    prunes();
    order();
    old_programs();
    return failures != 0;
}
