/*
 * The plain engine as a C program holds it, beside a store: each call on both, the room to the number, and states that are none.
 * Prints nothing and gives 0 if all is as the header says.
 */
#include "rcst.h"

#include <stdio.h>
#include <string.h>

#define LIST 24

static int failures;

static void expect(int holds, const char *what) {
    if (!holds) {
        printf("plain.c: %s\n", what);
        failures += 1;
    }
}

static uint8_t store[8 * RCST_PAGE_BYTES];
static uint32_t items[4 * 16];
static struct rcst_plain_state state = {0, 0, 0, 0, 1};

static const size_t bytes = sizeof store, room = sizeof items / sizeof items[0];

/* A number of both, or 99. */
static uint32_t both(uint32_t tree, uint32_t plain) {
    return tree == plain ? tree : 99;
}

static uint32_t opens(void) {
    return both(rcst_open(store, bytes), rcst_plain_open(&state));
}

static uint32_t inserts(uint32_t key, uint32_t value) {
    return both(rcst_insert(store, bytes, key, value), rcst_plain_insert(items, room, &state, key, value));
}

static uint32_t deletes(uint32_t key) {
    return both(rcst_delete(store, bytes, key), rcst_plain_delete(items, room, &state, key));
}

static uint32_t commits(void) {
    return both(rcst_commit(store, bytes), rcst_plain_commit(items, room, &state));
}

static uint32_t abandons(void) {
    return both(rcst_abandon(store, bytes), rcst_plain_abandon(items, room, &state));
}

static uint32_t returns(uint32_t version) {
    return both(rcst_return(store, bytes, version), rcst_plain_return(items, room, &state, version));
}

static uint32_t prunes(uint32_t version) {
    return both(rcst_prune(store, bytes, version), rcst_plain_prune(items, room, &state, version));
}

static uint32_t looks(uint32_t key, uint32_t version) {
    uint32_t found[2] = {9, 9}, value[2] = {9, 9};
    uint32_t tree = rcst_lookup(store, bytes, key, version, &found[0], &value[0]);
    uint32_t plain = rcst_plain_lookup(items, room, &state, key, version, &found[1], &value[1]);

    return found[0] == found[1] && value[0] == value[1] ? both(tree, plain) : 99;
}

static uint32_t lists[2][LIST];
static size_t counts[2];

static void blank(void) {
    memset(lists, 0xAA, sizeof lists);
    counts[0] = counts[1] = 9;
}

static uint32_t equal(uint32_t tree, uint32_t plain) {
    return memcmp(lists[0], lists[1], sizeof lists[0]) == 0 && counts[0] == counts[1] ? both(tree, plain) : 99;
}

static uint32_t ranges(uint32_t low, uint32_t high, uint32_t version, size_t wide) {
    uint32_t tree, plain;

    blank();
    tree = rcst_range(store, bytes, low, high, version, lists[0], wide, &counts[0]);
    plain = rcst_plain_range(items, room, &state, low, high, version, lists[1], wide, &counts[1]);
    return equal(tree, plain);
}

static uint32_t differs(uint32_t from, uint32_t to, size_t wide) {
    uint32_t tree, plain;

    blank();
    tree = rcst_difference(store, bytes, from, to, lists[0], wide, &counts[0]);
    plain = rcst_plain_difference(items, room, &state, from, to, lists[1], wide, &counts[1]);
    return equal(tree, plain);
}

static uint32_t lives(uint32_t key, size_t wide) {
    uint32_t tree, plain;

    blank();
    tree = rcst_life(store, bytes, key, lists[0], wide, &counts[0]);
    plain = rcst_plain_life(items, room, &state, key, lists[1], wide, &counts[1]);
    return equal(tree, plain);
}

static void two_releases(void) {
    static const uint32_t due[] = {40, 1, 2, 7, 41, 1, RCST_ALIVE, 300, 40, 2, RCST_ALIVE, 9};

    expect(rcst_fresh(store, bytes) == 0 && commits() == 7, "nothing is open");
    expect(opens() == 0 && opens() == 8, "an update opens once");
    expect(commits() == 15, "nothing changed");
    expect(inserts(40, 7) == 0 && inserts(40, 8) == 10 && inserts(41, 300) == 0, "inserts");
    expect(inserts(RCST_HIGHEST_INSERT_KEY + 1, 1) == 5 && deletes(42) == 11, "refused");
    expect(commits() == 0 && opens() == 0 && deletes(40) == 0 && inserts(40, 9) == 0 && commits() == 0, "two releases");
    expect(state.current == 2 && state.opened == 0 && state.count == 3, "the state");
    expect(memcmp(items, due, sizeof due) == 0, "the items: key, start, end, value");
}

static void readings(void) {
    expect(looks(40, 1) == 0 && looks(40, 2) == 0 && looks(42, 2) == 0 && looks(40, 3) == 6, "lookups");
    expect(ranges(0, RCST_HIGHEST_KEY, 1, 4) == 0 && counts[1] == 2 && lists[1][4] == 0xAAAAAAAAu, "a range");
    expect(ranges(0, RCST_HIGHEST_KEY, 1, 3) == 14 && ranges(2, 1, 1, LIST) == 5, "refused ranges");
    expect(differs(1, 2, 4) == 0 && differs(1, 2, 3) == 14 && differs(1, 3, LIST) == 6, "differences");
    expect(lives(40, 6) == 0 && lives(40, 5) == 14 && lives(RCST_HIGHEST_KEY + 1, LIST) == 5, "lives");
}

static void going_back(void) {
    struct rcst_plain_state was = state;

    expect(opens() == 0 && returns(1) == 0 && looks(40, 3) == 0 && returns(3) == 6, "a return");
    expect(abandons() == 0 && memcmp(&was, &state, sizeof was) == 0 && looks(40, 3) == 6, "abandoned");
    expect(opens() == 0 && rcst_plain_insert(items, 15, &state, 50, 1) == 14, "one number short of an item");
    expect(rcst_plain_return(items, 15, &state, 1) == 14 && rcst_plain_insert(items, 15, &state, 40, 1) == 10, "the last number");
    expect(returns(1) == 0 && commits() == 0 && differs(1, 3, 0) == 0, "back");
}

static void no_state(void) {
    struct rcst_plain_state none = state;
    uint32_t found = 9, value = 9;

    expect(rcst_plain_commit(items, 4 * state.count - 1, &none) == 4, "a list that does not hold the items");
    none.count = 0x40000000;
    expect(rcst_plain_abandon(items, room, &none) == 4 && none.count == 0x40000000, "nor so many");
    none = state;
    none.current = RCST_HIGHEST_VERSION + 1;
    expect(rcst_plain_open(&none) == 4, "no version");
    expect(rcst_plain_lookup(items, room, &none, 40, 1, &found, &value) == 4 && found == 0 && value == 0, "and no result");
    none.current = RCST_HIGHEST_VERSION;
    expect(rcst_plain_open(&none) == 9, "the last version");
    none = state;
    none.oldest = none.current + 1;
    expect(rcst_plain_open(&none) == 4, "an oldest version that is none");
    none = state;
    none.edition = 3;
    expect(rcst_plain_prune(items, room, &none, 1) == 4 && none.edition == 3, "no edition");
}

/* The first release is dropped: of edition 1 it is not, so that the items go on as edition 2's. */
static void pruning(void) {
    static const uint32_t due[] = {41, 1, RCST_ALIVE, 300, 40, 2, 3, 9, 40, 3, RCST_ALIVE, 7};
    struct rcst_plain_state second = state;

    expect(prunes(2) == 3, "edition 1");
    second.edition = 2;
    expect(rcst_plain_prune(items, room, &second, 4) == 6 && rcst_plain_prune(items, room, &second, 2) == 0, "a prune");
    expect(second.oldest == 2 && second.count == 3 && memcmp(items, due, sizeof due) == 0, "what ended at it is gone");
    expect(rcst_plain_prune(items, room, &second, 1) == 6 && rcst_plain_open(&second) == 0, "below it");
    expect(rcst_plain_prune(items, room, &second, 2) == 8, "an update is open");
}

int main(void) {
    two_releases();
    readings();
    going_back();
    no_state();
    pruning();
    return failures != 0;
}
