/* Named settings and the viewer from C. Prints nothing and gives 0 if all is as the header says. */
#include "rcst.h"

#include <math.h>
#include <stdio.h>
#include <string.h>

static int failures;

static void expect(int holds, const char *what) {
    if (!holds) {
        printf("named.c: %s\n", what);
        failures += 1;
    }
}

static uint32_t bits_of(float level) {
    uint32_t bits;

    memcpy(&bits, &level, sizeof bits);
    return bits;
}

enum { DOSE = 1, SHUTTER = 2, FILTER = 3, ZERO = 4, NAN_LIMIT = 5, REVERSED = 6, ANY_NUMBER = 7, NO_KIND = 8, MISSING = 9 };

static uint32_t table[8 * RCST_KIND_NUMBERS];
static uint8_t store[16 * RCST_PAGE_BYTES], before[16 * RCST_PAGE_BYTES];

#define NUMBERS (sizeof table / sizeof table[0])

static void row(size_t n, uint32_t key, uint32_t kind, uint32_t lowest, uint32_t highest) {
    table[4 * n] = key;
    table[4 * n + 1] = kind;
    table[4 * n + 2] = lowest;
    table[4 * n + 3] = highest;
}

static void make_table(void) {
    row(0, DOSE, RCST_WHOLE, 10, 20);
    row(1, SHUTTER, RCST_SWITCH, 0, 0);
    row(2, FILTER, RCST_LEVEL, bits_of(-1.0f), bits_of(1.5f));
    row(3, ZERO, RCST_LEVEL, bits_of(0.0f), bits_of(0.0f));
    row(4, NAN_LIMIT, RCST_LEVEL, bits_of(NAN), bits_of(1.0f));
    row(5, REVERSED, RCST_LEVEL, bits_of(2.0f), bits_of(1.0f));
    row(6, ANY_NUMBER, RCST_LEVEL, bits_of(-INFINITY), bits_of(INFINITY));
    row(7, NO_KIND, 9, 0, 0);
}

static void judged(void) {
    expect(rcst_kinds_check(table, NUMBERS) == 5, "the first wrong row is the one with a NaN for a limit");
    expect(rcst_kinds_check(table, 16) == 0, "the four before it are right");
    expect(rcst_kinds_check(table, 15) == 4, "numbers behind the last whole row are a wrong row");
    expect(rcst_kinds_check(table, 0) == 0, "an empty table is right");
    table[4] = DOSE;
    expect(rcst_kinds_check(table, NUMBERS) == 2, "a key twice");
    table[4] = SHUTTER;
    table[12] = RCST_HIGHEST_KEY + 1;
    expect(rcst_kinds_check(table, NUMBERS) == 4, "a key that is none");
    table[12] = ZERO;
}

static void refuses(uint32_t key, uint32_t value, uint32_t number, const char *what) {
    memcpy(before, store, sizeof store);
    expect(rcst_named_insert(store, sizeof store, table, NUMBERS, key, value) == number, what);
    expect(memcmp(before, store, sizeof store) == 0, "a refused insert touches nothing");
}

static void takes(uint32_t key, uint32_t value, const char *what) {
    expect(rcst_named_insert(store, sizeof store, table, NUMBERS, key, value) == RCST_DONE, what);
}

static void inserts(void) {
    refuses(MISSING, 0, 17, "an unknown key, before the store is judged");
    refuses(DOSE, 9, 16, "a value below its limits, before the store is judged");
    refuses(DOSE, 10, 2, "the store's number, where the layer has none");
    expect(rcst_fresh(store, sizeof store) == 0 && rcst_open(store, sizeof store) == 0, "a fresh store with an update open");
    refuses(DOSE, 9, 16, "below");
    refuses(DOSE, 21, 16, "above");
    takes(DOSE, 20, "the highest");
    refuses(DOSE, 15, 10, "a key alive");
    refuses(SHUTTER, 2, 16, "a switch is 0 or 1");
    takes(SHUTTER, 1, "a switch");
    refuses(FILTER, bits_of(NAN), 16, "a NaN");
    refuses(FILTER, 0xFFC00000u, 16, "a NaN with a sign");
    refuses(FILTER, 0x7F800001u, 16, "a NaN that signals");
    refuses(FILTER, bits_of(nextafterf(1.5f, 2.0f)), 16, "the next float above");
    refuses(FILTER, bits_of(nextafterf(-1.0f, -2.0f)), 16, "the next float below");
    refuses(FILTER, bits_of(-INFINITY), 16, "an infinity below");
    takes(FILTER, bits_of(1.5f), "the highest level");
    refuses(ZERO, 1, 16, "the smallest number above zero");
    takes(ZERO, bits_of(-0.0f), "-0.0 is 0.0");
    refuses(NAN_LIMIT, bits_of(0.5f), 16, "a limit that is a NaN admits nothing");
    refuses(REVERSED, bits_of(1.5f), 16, "reversed limits admit nothing");
    takes(ANY_NUMBER, bits_of(INFINITY), "an infinity is a number here");
    refuses(NO_KIND, 0, 17, "a row with another kind says nothing of its key");
    refuses(MISSING, 0, 17, "an unknown key");
    expect(rcst_named_delete(store, sizeof store, table, NUMBERS, MISSING) == 17, "nor is it deleted");
    expect(rcst_named_delete(store, sizeof store, table, NUMBERS, NAN_LIMIT) == 11, "a known key that is not alive");
    expect(rcst_named_delete(store, sizeof store, table, NUMBERS, ANY_NUMBER) == 0, "a setting ends");
}

#define VIEW store, sizeof store, 1, table, NUMBERS

static void views(void) {
    uint32_t found = 9, value = 9;
    float level = 9.0f;

    expect(rcst_view_open(store, sizeof store, 1) == 0, "the open version");
    expect(rcst_view_open(store, sizeof store, 2) == 6, "a version above last");
    expect(rcst_view_value(VIEW, FILTER, &found, &value) == 0 && found == 1 && value == bits_of(1.5f), "any kind");
    expect(rcst_view_whole(VIEW, DOSE, &found, &value) == 0 && found == 1 && value == 20, "a whole number");
    expect(rcst_view_switch(VIEW, SHUTTER, &found, &value) == 0 && found == 1 && value == 1, "a switch");
    expect(rcst_view_level(VIEW, FILTER, &found, &value, &level) == 0 && found == 1 && value == bits_of(1.5f) && level == 1.5f, "a level");
    expect(rcst_view_level(VIEW, ANY_NUMBER, &found, &value, &level) == 0 && found == 0 && value == 0 && level == 0.0f, "absent");
    expect(rcst_view_switch(VIEW, DOSE, &found, &value) == 16 && found == 0 && value == 0, "a whole number is no switch");
    expect(rcst_view_whole(VIEW, FILTER, &found, &value) == 16, "a level is no whole number");
    expect(rcst_view_level(VIEW, SHUTTER, &found, &value, &level) == 16 && level == 0.0f, "a switch is no level");
    expect(rcst_view_value(VIEW, MISSING, &found, &value) == 17 && found == 0 && value == 0, "an unknown key");
    expect(rcst_view_level(VIEW, NO_KIND, &found, &value, &level) == 17, "and where a kind is asked for");
}

static void ranges(void) {
    uint32_t list[8] = {7, 7, 7, 7, 7, 7, 7, 7};
    size_t count = 9;

    expect(rcst_view_range(VIEW, 0, RCST_HIGHEST_KEY, list, 7, &count) == 14 && count == 4 && list[0] == 7, "a list one number short");
    expect(rcst_view_range(VIEW, 0, RCST_HIGHEST_KEY, list, 8, &count) == 0 && count == 4, "every setting");
    expect(list[0] == DOSE && list[1] == 20 && list[6] == ZERO && list[7] == bits_of(-0.0f), "in key order");
    expect(rcst_view_range(VIEW, 2, 1, list, 8, &count) == 5 && count == 0, "low above high");
}

/* An older program, whose table ends before the filter: it is told 17, and never a list without the filter. */
static void never_softer(void) {
    uint32_t list[8] = {7, 7, 7, 7, 7, 7, 7, 7}, found = 9, value = 9;
    size_t count = 9, older = 2 * RCST_KIND_NUMBERS;

    expect(rcst_view_range(store, sizeof store, 1, table, older, 0, RCST_HIGHEST_KEY, list, 8, &count) == 17, "a range that meets the filter");
    expect(count == 0 && list[0] == 7 && list[7] == 7, "shows nothing");
    expect(rcst_view_range(store, sizeof store, 1, table, older, 0, RCST_HIGHEST_KEY, list, 0, &count) == 17, "17 comes before 14");
    expect(rcst_view_range(store, sizeof store, 1, table, older, 0, SHUTTER, list, 8, &count) == 0 && count == 2, "what it knows, it reads");
    expect(rcst_view_value(store, sizeof store, 1, table, older, FILTER, &found, &value) == 17 && found == 0, "nor by its key");
}

/* A value from without the layer is shown as it is, and a damaged store is not. */
static void as_it_is(void) {
    uint32_t found = 9, value = 9;
    float level = 9.0f;

    expect(rcst_insert(store, sizeof store, NAN_LIMIT, bits_of(NAN)) == 0, "the store takes any 32 bits");
    expect(rcst_view_level(VIEW, NAN_LIMIT, &found, &value, &level) == 0 && value == bits_of(NAN) && isnan(level), "and the viewer shows them");
    store[300] = 1;
    expect(rcst_view_value(VIEW, DOSE, &found, &value) == 4, "damage");
    expect(rcst_view_value(VIEW, MISSING, &found, &value) == 17, "17 comes before 4");
    expect(rcst_view_open(store, sizeof store, 1) == 4, "no viewer opens on it");
}

int main(void) {
    make_table();
    judged();
    inserts();
    views();
    ranges();
    never_softer();
    as_it_is();
    return failures != 0;
}
