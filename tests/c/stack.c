/*
 * How much stack the calls take: each runs on a thread whose stack is painted
 * first, and the deepest byte that lost its paint is looked for. It does so on a
 * store that a history leaves, for check and commit on the same with one byte
 * damaged, for range on a store made to keep it busy, and on the stores in the
 * files that are named as arguments. Prints the most for each call, and gives 0 if
 * none takes more than the header says.
 */
#define _POSIX_C_SOURCE 200809L

#include "rcst.h"

#include <pthread.h>
#include <stdio.h>
#include <stdlib.h>
#include <string.h>

enum { STACK = 1 << 21, PAGES = 40, CALLS = 15 };

#define PAINT 0xA5A5A5A5A5A5A5A5u

static const char *const names[CALLS] = {"fresh",  "check",  "open",  "insert", "delete",              "commit", "abandon",
                                         "return", "lookup", "range", "visits", "difference and life", "state",  "by name",
                                         "prune"};
static size_t most[CALLS];
static uint64_t stack[STACK / 8] __attribute__((aligned(4096)));
static uint8_t store[RCST_MOST_PAGES * RCST_PAGE_BYTES], kept[RCST_MOST_PAGES * RCST_PAGE_BYTES];
static size_t length;
static uint32_t list[64], kinds[4] = {0, RCST_WHOLE, 0, 9};

/* The call to make, its key, and where its frame begins. */
static int call;
static uint32_t key;
static uint8_t *begin;

static void *made(void *none) {
    struct rcst_store_state state;
    uint32_t a, b;
    size_t count;

    begin = (uint8_t *)&a;
    switch (call) {
    case 0: rcst_fresh(store, length); break;
    case 1: rcst_check(store, length, &a); break;
    case 2: rcst_open(store, length); break;
    case 3: rcst_insert(store, length, key, 1); break;
    case 4: rcst_delete(store, length, key); break;
    case 5: rcst_commit(store, length); break;
    case 6: rcst_abandon(store, length); break;
    case 7: rcst_return(store, length, key % 4); break;
    case 8: rcst_lookup(store, length, key, 1, &a, &b); break;
    case 9: rcst_range(store, length, 0, key, 1, list, 64, &count); break;
    case 10: rcst_visits(store, length, key, 1, list, 64, &count); break;
    case 11:
        rcst_difference(store, length, 0, 1, list, 64, &count);
        rcst_life(store, length, key, list, 64, &count);
        break;
    case 12: rcst_state(store, length, &state); break;
    case 14: rcst_prune(store, length, key % 4); break;
    default:
        kinds[0] = key;
        rcst_view_value(store, length, 1, kinds, 4, key, &a, &b);
        rcst_view_range(store, length, 1, kinds, 4, key, key, list, 64, &count);
        rcst_named_delete(store, length, kinds, 4, key);
        rcst_named_insert(store, length, kinds, 4, key, 1);
    }
    return none;
}

/* Makes one call on a painted stack. */
static void measure(int which, uint32_t with) {
    pthread_attr_t attributes;
    pthread_t thread;
    uint64_t *deepest = stack;

    call = which;
    key = with;
    memset(stack, (int)(PAINT & 0xFF), sizeof stack);
    if (pthread_attr_init(&attributes) != 0 || pthread_attr_setstack(&attributes, stack, sizeof stack) != 0 ||
        pthread_create(&thread, &attributes, made, NULL) != 0 || pthread_join(thread, NULL) != 0) {
        printf("stack.c: no thread\n");
        exit(1);
    }
    pthread_attr_destroy(&attributes);
    while (*deepest == PAINT) {
        deepest++;
    }
    if ((size_t)(begin - (uint8_t *)deepest) > most[which]) {
        most[which] = (size_t)(begin - (uint8_t *)deepest);
    }
}

/* Every call on the store as it is, which is then put back. */
static void measure_all(uint32_t with) {
    int which;

    memcpy(kept, store, length);
    for (which = CALLS - 1; which >= 0; which--) {
        measure(which, with);
        memcpy(store, kept, length);
    }
}

/* Four releases in the 40 pages of a fresh store. */
static void releases(void) {
    uint32_t version, i;

    for (version = 1; version <= 4; version++) {
        rcst_open(store, length);
        for (i = 0; i < 45; i++) {
            rcst_insert(store, length, 4 * i + version, i);
        }
        rcst_commit(store, length);
    }
}

/* These, and an update open. */
static void history(void) {
    length = PAGES * RCST_PAGE_BYTES;
    rcst_fresh(store, length);
    releases();
    rcst_open(store, length);
    rcst_delete(store, length, 5);
}

/* The same in edition 2, pruned to each version, and then every call from the second one on. */
static void pruned(void) {
    uint32_t version;

    length = PAGES * RCST_SECOND_PAGE_BYTES;
    rcst_fresh_second(store, length);
    releases();
    memcpy(kept, store, length);
    for (version = 0; version < 4; version++) {
        measure(14, version);
        memcpy(store, kept, length);
    }
    rcst_prune(store, length, 2);
    rcst_open(store, length);
    rcst_delete(store, length, 5);
    measure_all(41);
}

/* A field of the store, the highest bit first. */
static void put(size_t at, int width, uint32_t value) {
    for (; width > 0; at++) {
        width--;
        if (value >> width & 1) {
            store[at / 8] |= (uint8_t)(128 >> at % 8);
        }
    }
}

/* A page a level, each with twenty routers to the next, and keys by which each way
 * down is a range's: its budget ends, and it keeps a number for each router. */
static void busy(void) {
    uint32_t level, i, number = 5;

    length = 12 * RCST_PAGE_BYTES;
    rcst_fresh(store, length);
    rcst_open(store, length);
    memset(store + 5 * RCST_PAGE_BYTES, 0, 7 * RCST_PAGE_BYTES);
    for (level = RCST_MOST_LEVELS; level >= 1; level--, number++) {
        size_t page = 8 * RCST_PAGE_BYTES * number;

        put(page, 4, level);
        put(page + 4, 5, 20);
        put(page + 29, 20, RCST_ALIVE);
        for (i = 0; i < 20; i++) {
            size_t entry = page + 128 + 96 * i;

            put(entry, 24, i == 0 ? 0 : 20 * (RCST_MOST_LEVELS - level) + i);
            put(entry + 24, 20, level == 1);
            put(entry + 44, 20, RCST_ALIVE);
            put(entry + 64, 32, level == 1 ? 7 : number + 1);
        }
    }
}

int main(int count, char **files) {
    size_t at;
    int i, failed = 0;

    history();
    for (i = 0; i < 20; i++) {
        measure_all((uint32_t)(10 * i + i % 2));
    }
    for (at = 0; at < length; at += 67) {
        store[at] ^= 0x10;
        measure(1, 0);
        measure(5, 0);
        memcpy(store, kept, length);
    }
    pruned();
    busy();
    measure(9, RCST_HIGHEST_KEY);
    for (i = 1; i < count; i++) {
        FILE *file = fopen(files[i], "rb");

        if (file == NULL) {
            printf("stack.c: cannot read %s\n", files[i]);
            return 1;
        }
        length = fread(store, 1, sizeof store, file);
        fclose(file);
        measure_all(40);
    }
    printf("stack in bytes:");
    for (i = 0; i < CALLS; i++) {
        printf(" %s %lu%s", names[i], (unsigned long)most[i], i + 1 < CALLS ? "," : "\n");
        failed |= most[i] > RCST_STACK_BYTES;
    }
    if (failed) {
        printf("stack.c: more than RCST_STACK_BYTES\n");
    }
    return failed;
}
