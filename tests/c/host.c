/* The library as a C program holds it. Prints nothing and gives 0 if all is as the header says. */
#include "rcst.h"

#include <stdio.h>
#include <string.h>

static int failures;

static void expect(int holds, const char *what) {
    if (!holds) {
        printf("host.c: %s\n", what);
        failures += 1;
    }
}

static void fresh_and_check(void) {
    static uint8_t store[6 * RCST_PAGE_BYTES];
    static const uint8_t header[] = {0x52, 0x43, 0x53, 0x54, 0x01, 0x00, 0x30, 0x00, 0x00, 0x00, 0x20};
    uint32_t rule = 9;

    memset(store, 0xEE, sizeof store);
    expect(rcst_fresh(store, sizeof store - 1) == 1, "a length that is not whole pages gives 1");
    expect(store[0] == 0xEE, "and changes nothing");
    expect(rcst_fresh(store, sizeof store) == 0, "a fresh store");
    expect(memcmp(store, header, sizeof header) == 0, "document 01's header bytes");
    expect(rcst_check(store, sizeof store, &rule) == 0 && rule == 0, "a fresh store is sound");
    store[12] = 1;
    expect(rcst_check(store, sizeof store, &rule) == 4 && rule == 1, "a stray bit breaks rule 1");
    store[4] = 2;
    expect(rcst_check(store, sizeof store, &rule) == 1 && rule == 0, "six pages of edition 1 are three of edition 2: 1");
    store[4] = 3;
    expect(rcst_check(store, sizeof store, &rule) == 3 && rule == 0, "another edition gives 3");
    expect(rcst_check(store, 5, &rule) == 3, "whatever the length from five bytes on");
    store[0] = 0;
    expect(rcst_check(store, sizeof store, &rule) == 2, "other bytes give 2");
    expect(rcst_check(store, 5, &rule) == 2, "whatever the length from five bytes on");
    expect(rcst_check(store, 4, &rule) == 1, "fewer give 1");
    expect(rcst_check(store, 0, &rule) == 1, "no bytes give 1");
}

static void state(void) {
    static uint8_t store[8 * RCST_PAGE_BYTES];
    struct rcst_store_state told = {9, 9, 9, 9, 9, 9, 9};
    uint32_t key;

    expect(sizeof told == 7 * sizeof(uint32_t), "seven numbers, and nothing between them");
    expect(rcst_state(store, sizeof store, &told) == 2, "bytes that are no store give 2");
    expect(told.pages == 0 && told.current == 0 && told.open == 0 && told.roots == 0 && told.edition == 0 && told.free == 0 &&
               told.oldest == 0,
           "and tell nothing");
    rcst_fresh(store, sizeof store);
    expect(rcst_state(store, sizeof store, &told) == 0, "a fresh store tells of itself");
    expect(told.pages == 8 && told.current == 0 && told.open == 0 && told.roots == 1 && told.edition == 1 && told.free == 2 &&
               told.oldest == 0,
           "eight pages, two of them free, version 0, one root, every version kept");
    rcst_open(store, sizeof store);
    for (key = 0; key < 20; key += 1) {
        rcst_insert(store, sizeof store, key, 7);
    }
    expect(rcst_state(store, sizeof store, &told) == 0 && told.current == 0 && told.open == 1, "an update is open");
    expect(told.roots == 1 && told.free == 2, "a root with room is changed in place");
    rcst_commit(store, sizeof store);
    expect(rcst_state(store, sizeof store, &told) == 0 && told.current == 1 && told.open == 0, "committed");
    expect(rcst_abandon(store, sizeof store) == 7, "and nothing is open");
    store[12] = 1;
    expect(rcst_state(store, sizeof store, &told) == 4 && told.pages == 0, "a stray bit: 4, and nothing is told");
}

static void releases(void) {
    static uint8_t store[16 * RCST_PAGE_BYTES], before[16 * RCST_PAGE_BYTES];
    uint32_t found = 9, value = 9, list[3] = {1, 2, 3};
    size_t count = 9;

    expect(rcst_open(store, sizeof store) == 2, "bytes that are no store give 2");
    expect(rcst_fresh(store, sizeof store) == 0, "a fresh store of 16 pages");
    expect(rcst_commit(store, sizeof store) == 7, "no update is open");
    memcpy(before, store, sizeof store);
    expect(rcst_open(store, sizeof store) == 0, "an update opens");
    expect(rcst_open(store, sizeof store) == 8, "and opens once");
    expect(memcmp(before, store, sizeof store) != 0, "the store tells that it is open");
    expect(rcst_abandon(store, sizeof store) == 0, "it is abandoned");
    expect(memcmp(before, store, sizeof store) == 0, "every byte is what it was");
    expect(rcst_open(store, sizeof store) == 0 && rcst_commit(store, sizeof store) == 15, "an empty release is no release");
    expect(rcst_insert(store, sizeof store, 9, 1) == 0 && rcst_commit(store, sizeof store) == 0, "a release");
    expect(rcst_lookup(store, sizeof store, 40, 1, &found, &value) == 0 && found == 0 && value == 0, "an absent key");
    expect(rcst_lookup(store, sizeof store, RCST_HIGHEST_KEY + 1, 1, &found, &value) == 5, "a key too large");
    expect(rcst_lookup(store, sizeof store, 40, 2, &found, &value) == 6, "a version above last");
    expect(rcst_range(store, sizeof store, 0, RCST_HIGHEST_KEY, 0, list, 3, &count) == 0 && count == 0, "no settings");
    expect(list[0] == 1 && list[1] == 2 && list[2] == 3, "and nothing written");
    expect(rcst_range(store, sizeof store, 2, 1, 1, list, 3, &count) == 5 && count == 0, "low above high");
}

static void settings(void) {
    static uint8_t store[8 * RCST_PAGE_BYTES], before[8 * RCST_PAGE_BYTES];
    uint32_t found = 9, value = 9, list[4] = {1, 2, 3, 4}, pages[RCST_MOST_LEVELS] = {0}, key;
    size_t count = 9;

    expect(rcst_fresh(store, sizeof store) == 0, "a fresh store of 8 pages");
    expect(rcst_insert(store, sizeof store, 40, 7) == 7, "no update is open");
    expect(rcst_insert(store, sizeof store, RCST_HIGHEST_INSERT_KEY, 7) == 7, "nor for the highest key that goes in");
    expect(rcst_insert(store, sizeof store, RCST_HIGHEST_INSERT_KEY + 1, 7) == 5, "a bench key comes first");
    expect(rcst_insert(store, sizeof store, RCST_HIGHEST_KEY + 1, 7) == 5, "a key too large comes first");
    expect(rcst_open(store, sizeof store) == 0, "an update opens");
    expect(rcst_insert(store, sizeof store, RCST_HIGHEST_KEY, 7) == 5, "a bench key is refused");
    expect(rcst_delete(store, sizeof store, RCST_HIGHEST_KEY) == 11, "a bench key may be deleted, and is not alive");
    expect(rcst_lookup(store, sizeof store, RCST_HIGHEST_KEY, 1, &found, &value) == 0 && found == 0, "nor found");
    expect(rcst_insert(store, sizeof store, 40, 7) == 0, "an insert");
    expect(rcst_insert(store, sizeof store, 40, 8) == 10, "the key is alive");
    expect(rcst_delete(store, sizeof store, 41) == 11, "the key is not alive");
    expect(rcst_lookup(store, sizeof store, 40, 1, &found, &value) == 0 && found == 1 && value == 7, "the open version is readable");
    expect(rcst_commit(store, sizeof store) == 0, "a release");
    expect(rcst_visits(store, sizeof store, 40, 1, pages, 1, &count) == 0 && count == 1 && pages[0] == 5, "a lookup goes by page 5 alone");
    memcpy(before, store, sizeof store);
    expect(rcst_open(store, sizeof store) == 0, "the next update");
    expect(rcst_delete(store, sizeof store, 40) == 0, "a delete");
    expect(rcst_lookup(store, sizeof store, 40, 2, &found, &value) == 0 && found == 0, "the key is gone");
    expect(rcst_lookup(store, sizeof store, 40, 1, &found, &value) == 0 && value == 7, "and stays in the version before");
    for (key = 1; key <= 20; key++) {
        if (rcst_insert(store, sizeof store, key, key) != 0) {
            break;
        }
    }
    expect(key == 20, "a dead entry takes room too");
    expect(rcst_insert(store, sizeof store, key, key) == 12, "pages run out");
    expect(rcst_visits(store, sizeof store, 40, 1, pages, RCST_MOST_LEVELS, &count) == 0 && count == 1 && pages[0] == 5, "the old version by the same page");
    expect(rcst_visits(store, sizeof store, 40, 1, pages, 0, &count) == 14 && count == 1, "no room for its number");
    expect(rcst_range(store, sizeof store, 3, 4, 2, list, 4, &count) == 0 && count == 2, "two settings");
    expect(list[0] == 3 && list[1] == 3 && list[2] == 4 && list[3] == 4, "key, value, key, value");
    expect(rcst_abandon(store, sizeof store) == 0, "the update is abandoned");
    expect(memcmp(before, store, sizeof store) == 0, "every byte is what it was");
}

/* Last month's release, in which setting 40 is 7, 41 is 300 and 43 is 1; and this month's update, open, in which 40 is 9. */
static void two_months(uint8_t *store, size_t n) {
    rcst_open(store, n);
    rcst_insert(store, n, 40, 7);
    rcst_insert(store, n, 41, 300);
    rcst_insert(store, n, 43, 1);
    expect(rcst_commit(store, n) == 0, "last month's release");
    rcst_open(store, n);
    rcst_delete(store, n, 40);
    rcst_insert(store, n, 40, 9);
}

/* What changed between last month's release and this one. */
static void differences(void) {
    static uint8_t store[16 * RCST_PAGE_BYTES];
    static const uint32_t signed_list[12] = {40, 2, 7, 9, 41, 1, 300, 0, 42, 0, 0, 5};
    uint32_t list[13] = {0};
    size_t count = 9;

    rcst_fresh(store, sizeof store);
    two_months(store, sizeof store);
    rcst_delete(store, sizeof store, 41);
    rcst_insert(store, sizeof store, 42, 5);
    expect(rcst_commit(store, sizeof store) == 0, "this month's release");
    list[12] = 77;
    expect(rcst_difference(store, sizeof store, 1, 2, list, 11, &count) == 14 && count == 3, "eleven numbers are too few for three differences");
    expect(list[0] == 0, "and nothing is written");
    expect(rcst_difference(store, sizeof store, 1, 2, list, 13, &count) == 0 && count == 3, "three differences");
    expect(memcmp(list, signed_list, sizeof signed_list) == 0, "changed, removed, added; by key");
    expect(list[12] == 77, "and nothing behind is touched");
    expect(rcst_difference(store, sizeof store, 2, 1, list, 13, &count) == 0 && list[5] == 0 && list[7] == 300, "the other way round 41 is added");
    expect(rcst_difference(store, sizeof store, 2, 2, list, 13, &count) == 0 && count == 0, "nothing differs from itself");
    expect(rcst_difference(store, sizeof store, 3, 1, list, 13, &count) == 6 && count == 0, "a version above last");
    expect(rcst_difference(store, sizeof store, 3, 3, list, 13, &count) == 6, "also twice the same");
}

/* Back to last month's settings: a release like any other. */
static void returns(void) {
    static uint8_t store[16 * RCST_PAGE_BYTES], before[16 * RCST_PAGE_BYTES];
    uint32_t found = 9, value = 9, list[4] = {0};
    size_t count = 9;

    rcst_fresh(store, sizeof store);
    expect(rcst_return(store, sizeof store, 0) == 7, "no update is open");
    expect(rcst_return(store, sizeof store, 1) == 6, "a version above the current one comes first");
    two_months(store, sizeof store);
    expect(rcst_commit(store, sizeof store) == 0, "this month's release");
    rcst_open(store, sizeof store);
    expect(rcst_return(store, sizeof store, 3) == 6, "the open version is above the current one");
    memcpy(before, store, sizeof store);
    expect(rcst_return(store, sizeof store, 2) == 0, "to the current version");
    expect(memcmp(before, store, sizeof store) == 0, "there is nothing to do");
    rcst_delete(store, sizeof store, 41);
    rcst_insert(store, sizeof store, 50, 1);
    expect(rcst_return(store, sizeof store, 1) == 0, "back to last month's, from what the update did so far");
    expect(rcst_difference(store, sizeof store, 1, 3, list, 4, &count) == 0 && count == 0, "nothing differs");
    expect(rcst_commit(store, sizeof store) == 0, "and it is a release");
    expect(rcst_lookup(store, sizeof store, 40, 3, &found, &value) == 0 && value == 7, "7 again");
    expect(rcst_lookup(store, sizeof store, 40, 2, &found, &value) == 0 && value == 9, "and 9 in the one between");
}

/* One page for settings: twelve that are gone take room there, and to come back they need another. */
static void a_return_that_stops(void) {
    static uint8_t small[6 * RCST_PAGE_BYTES], before[6 * RCST_PAGE_BYTES];
    uint32_t key;

    rcst_fresh(small, sizeof small);
    rcst_open(small, sizeof small);
    for (key = 1; key <= 12; key++) {
        rcst_insert(small, sizeof small, key, key);
    }
    rcst_commit(small, sizeof small);
    rcst_open(small, sizeof small);
    for (key = 1; key <= 12; key++) {
        rcst_delete(small, sizeof small, key);
    }
    expect(rcst_commit(small, sizeof small) == 0, "a release with no setting");
    memcpy(before, small, sizeof small);
    expect(rcst_open(small, sizeof small) == 0 && rcst_insert(small, sizeof small, 13, 1) == 0, "an insert still goes");
    expect(rcst_return(small, sizeof small, 1) == 12, "pages run out on the way");
    expect(memcmp(before, small, sizeof small) == 0, "the update is abandoned: every byte is what it was before the open");
    expect(rcst_abandon(small, sizeof small) == 7, "so none is open");
}

static void lives(void) {
    static uint8_t store[16 * RCST_PAGE_BYTES];
    uint32_t list[7] = {1, 2, 3, 4, 5, 6, 7};
    size_t count = 9;

    expect(rcst_fresh(store, sizeof store) == 0, "a fresh store of 16 pages");
    expect(rcst_life(store, sizeof store, 40, list, 0, &count) == 0 && count == 0, "a key that never was has no stretch");
    expect(rcst_open(store, sizeof store) == 0 && rcst_insert(store, sizeof store, 40, 7) == 0, "setting 40 is 7");
    expect(rcst_life(store, sizeof store, 40, list, 0, &count) == 0 && count == 0, "an open update is not shown");
    expect(rcst_commit(store, sizeof store) == 0, "version 1");
    expect(rcst_open(store, sizeof store) == 0 && rcst_delete(store, sizeof store, 40) == 0, "ended ..");
    expect(rcst_insert(store, sizeof store, 40, 9) == 0 && rcst_commit(store, sizeof store) == 0, ".. and set anew in version 2");
    expect(rcst_life(store, sizeof store, 40, list, 5, &count) == 14 && count == 2, "two stretches are six numbers");
    expect(list[0] == 1 && list[4] == 5, "and nothing written");
    expect(rcst_life(store, sizeof store, 40, list, 7, &count) == 0 && count == 2, "two stretches");
    expect(list[0] == 1 && list[1] == 2 && list[2] == 7, "7 from version 1 up to 2");
    expect(list[3] == 2 && list[4] == RCST_ALIVE && list[5] == 9, "9 from version 2 on");
    expect(list[6] == 7, "and nothing behind is touched");
    expect(rcst_life(store, sizeof store, RCST_HIGHEST_KEY + 1, list, 7, &count) == 5 && count == 0, "a key too large");
}

/* A number by its name and in words. */
static void numbers(void) {
    static uint8_t store[RCST_FEWEST_PAGES * RCST_PAGE_BYTES];

    expect(rcst_commit(store, sizeof store) == RCST_WRONG_FIRST_BYTES, "2 by its name");
    expect(rcst_fresh(store, sizeof store) == RCST_DONE && store[4] == RCST_FORMAT_EDITION, "a store of the edition that the header names");
    expect(strcmp(rcst_words(rcst_commit(store, sizeof store)), "no update open (insert, delete, return, commit, abandon)") == 0, "7 in words");
    expect(rcst_words(RCST_NOTHING_CHANGED + 1) != NULL && rcst_words(UINT32_MAX) != NULL, "any number has words");
}

int main(void) {
    numbers();
    fresh_and_check();
    state();
    releases();
    settings();
    differences();
    returns();
    a_return_that_stops();
    lives();
    return failures != 0;
}
