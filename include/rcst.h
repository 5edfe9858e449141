/*
 * rcst.h: the settings store of a reconstruction console.
 *
 * One store keeps every committed version of a console's settings, in bytes
 * that the caller lends. The library allocates nothing, keeps nothing between
 * calls, and has no precondition: any bytes may be lent as a store, and any
 * numbers as arguments. Every call judges the store before it trusts it: lookup
 * and range judge the header, the slots and the pages that they walk, every other
 * call the whole store, and so costs time in its size (docs/CHECK-COST.md).
 *
 * A store is 6 to 4,096 pages: of 256 bytes in edition 1, of 512 in edition 2, which
 * has room for twice the entries in a page and twice the roots. One set of calls serves
 * both: the edition stands in the store's fifth byte, and making fresh is a call for
 * each. Keys are 0 to 16,777,215, a value is any 32 bits, versions are 0 to 1,048,574. Version 0 is empty. An update is
 * opened on the version after the current one; it is readable while it is open,
 * and it ends by a commit, which makes it the current version and keeps it till a
 * prune, or by an abandon, after which every byte is what it was before the open.
 *
 * Keys 16,776,960 and above belong to the test bench. Insert refuses them with
 * 5; lookup, range and delete take them, so that a store that was shipped with
 * bench keys can be read and cleaned. A return lets them through.
 *
 * Every call gives a number. Fewer than five bytes give 1; otherwise 2 goes before 3,
 * 3 before 1 by the edition's page size, and then of several that apply the smallest is
 * given; but lookup and range give 5 or 6 before they look at a page of their walk, and
 * 16 and 17 come before the store's (see "Named settings"). enum rcst_number has the
 * numbers' names, rcst_words their words.
 *
 * Every number but 0 leaves store and list untouched, byte for byte, with one
 * exception: a return that gives 12 or 13 has abandoned the update. After an insert's
 * or a delete's 12 or 13 the update is still open: it may be committed as it is, or
 * abandoned. After 15 too: it may go on, be committed once it has changed something,
 * or abandoned.
 *
 * The caller answers for what no library can see. `store` points to `length`
 * bytes, and a list (`list`, `pages`) to `room` numbers; where a length is 0 its
 * pointer may be null. Store and list do not overlap. The pointers for results are
 * never null, are distinct from each other, and lie outside store and list.
 *
 * During a call nobody else touches its list and results, and nobody writes the
 * store. So the calls that take the store as const may run side by side on one
 * store, each with a list and results of its own; a call that writes it (fresh,
 * open, insert, delete, return, prune, commit, abandon, and insert and delete by name)
 * runs alone on it, with no other reader or writer. The library has no state of its
 * own: calls on different stores never meet.
 *
 * A call takes at most RCST_STACK_BYTES of the stack of the thread that makes it;
 * the default of some systems for a thread is less. That is measured and rounded
 * up, not proved (tests/c/stack.c, x86-64): rcst_range and rcst_view_range took 1.35
 * MB, on any store, since the compiler puts into their frame what they need on bytes
 * of edition 2 made to keep them busy; rcst_check 203 kB, every other call up to 116
 * kB, on stores made to keep them busy too.
 *
 * A program that ends between two calls of an update leaves it open, and the next
 * commit would publish the half of it. On start check the store, and abandon: 0
 * says that an update was open, 7 that none was. Of a call that is cut in its middle
 * nothing is promised: README, "When a program dies inside an update", and
 * examples/recover.c.
 */
#ifndef RCST_H
#define RCST_H

#include <stddef.h>
#include <stdint.h>

#ifdef __cplusplus
extern "C" {
#endif

/*
 * The editions of the format that the calls read and write: the one that rcst_fresh
 * makes and the one that rcst_fresh_second makes; and the version of what this header
 * offers: the first number rises where a program that was written for the one before
 * may have to change, or to be compiled again (2: struct rcst_store_state is longer), the
 * second where something is added.
 */
#define RCST_FORMAT_EDITION 1u
#define RCST_SECOND_EDITION 2u
#define RCST_LIBRARY_MAJOR 2u
#define RCST_LIBRARY_MINOR 0u

/* The format's limits: a page's bytes in edition 1 and in edition 2, and those that both share. */
#define RCST_PAGE_BYTES 256u
#define RCST_SECOND_PAGE_BYTES 512u
#define RCST_FEWEST_PAGES 6u
#define RCST_MOST_PAGES 4096u
#define RCST_HIGHEST_KEY 16777215u
#define RCST_HIGHEST_INSERT_KEY 16776959u
#define RCST_HIGHEST_VERSION 1048574u
#define RCST_MOST_LEVELS 7u

/* The end of a stretch that is still alive. */
#define RCST_ALIVE 1048575u

/* The stack that a call finds enough. */
#define RCST_STACK_BYTES 1572864u

/* The numbers that calls give. What each is given for, rcst_words says. */
enum rcst_number {
    RCST_DONE = 0,
    RCST_WRONG_LENGTH = 1,
    RCST_WRONG_FIRST_BYTES = 2,
    RCST_WRONG_EDITION = 3,
    RCST_NOT_SOUND = 4,
    RCST_KEY_TOO_LARGE = 5,
    RCST_VERSION_ABOVE_LAST = 6,
    RCST_NO_UPDATE_OPEN = 7,
    RCST_UPDATE_ALREADY_OPEN = 8,
    RCST_VERSIONS_USED_UP = 9,
    RCST_KEY_ALIVE = 10,
    RCST_KEY_NOT_ALIVE = 11,
    RCST_NO_PAGE_FREE = 12,
    RCST_NO_SLOT_FREE = 13,
    RCST_LIST_TOO_SHORT = 14,
    RCST_NOTHING_CHANGED = 15,
    RCST_VALUE_NOT_ADMITTED = 16,
    RCST_KEY_UNKNOWN = 17
};

/* A number's words: when it is given. Never null. */
static inline const char *rcst_words(uint32_t number) {
    static const char *const words[] = {
        "done",
        "length not 6 to 4,096 whole pages of the edition",
        "first four bytes wrong",
        "edition neither 1 nor 2 (prune: not 2; convert: source not 1)",
        "not sound (lookup, range: the header, a slot, or a page of their own walk is wrong, or the walk cannot go on)",
        "key too large (insert: 16,776,960 or above), or range low above high",
        "version above last or below the oldest (of a difference: either version; of a return or a prune: above current)",
        "no update open (insert, delete, return, commit, abandon)",
        "update already open (open, prune, convert)",
        "current is 1,048,574 (open)",
        "key alive (insert)",
        "key not alive (delete)",
        "the rules need a page and none is free",
        "the rules need a 257th slot (edition 2: a 513th)",
        ("caller's list holds fewer numbers than two for each setting found (range), three for each stretch (life), "
         "four for each difference (difference), one for each page visited (visits)"),
        "the open version's settings equal the current version's, key for key (commit)",
        "value not of the key's kind or outside its limits (named insert), or key of another kind (viewer)",
        "key unknown to the table of kinds, or met in a range (named settings, viewer)",
    };
    return number < sizeof words / sizeof words[0] ? words[number] : "not a number of this library";
}

/*
 * Makes a fresh store of edition 1 over any bytes: version 0, no settings. Reads nothing
 * of them, and gives 0, or 1 where the length is not 6 to 4,096 pages of 256 bytes.
 */
uint32_t rcst_fresh(uint8_t *store, size_t length);

/*
 * Makes a fresh store of edition 2, of pages of 512 bytes. Programs from before edition 2
 * give 1 or 3 on such a store, and never an answer.
 */
uint32_t rcst_fresh_second(uint8_t *store, size_t length);

/*
 * Judges the store: 0 if it is sound, else 1 to 4. With 4, *rule is the lowest
 * number of a rule of the format that the store breaks (1 to 6, and in edition
 * 2 also 8: a page's live count is wrong), else 0.
 */
uint32_t rcst_check(const uint8_t *store, size_t length, uint32_t *rule);

/* Opens an update. Gives 0, 1 to 4, 8 or 9. */
uint32_t rcst_open(uint8_t *store, size_t length);

/*
 * Inserts a setting in the open update: a key up to RCST_HIGHEST_INSERT_KEY that
 * is not alive, and its value, any 32 bits. Gives 0, 1 to 5, 7, 10, 12 or 13.
 */
uint32_t rcst_insert(uint8_t *store, size_t length, uint32_t key, uint32_t value);

/*
 * Deletes a setting in the open update: a key that is alive, a bench key too. A
 * delete can need a page or a slot too. Gives 0, 1 to 5, 7, 11, 12 or 13.
 */
uint32_t rcst_delete(uint8_t *store, size_t length, uint32_t key);

/*
 * Commits the open update. Gives 0, 1 to 4, 7 or 15: an update whose settings are
 * those of the current version is no release, whatever was done and undone in it.
 */
uint32_t rcst_commit(uint8_t *store, size_t length);

/* Abandons the open update. Gives 0, 1 to 4 or 7. */
uint32_t rcst_abandon(uint8_t *store, size_t length);

/*
 * Returns to a committed version: makes the open version's settings equal to those of
 * `version`, which is the current one or an earlier one. First it deletes what is absent
 * there or has another value there, then it inserts what is missing, each in rising key
 * order and each as the single call does, pages and all; bench keys are let through. What
 * the update did before is where it starts from. Gives 0, 1 to 4, 6, 7, 12 or 13. With 0
 * the update is open, and is committed or abandoned as any other. With 12 or 13 the whole
 * update is abandoned, its earlier calls included, and every byte is what it was before
 * the open.
 */
uint32_t rcst_return(uint8_t *store, size_t length, uint32_t version);

/*
 * Prunes: makes `version`, a committed one, the oldest version of a store of edition 2.
 * Every page that ended at or before it is freed, for later updates to use, and slots
 * that are not needed from it on go; every version from it on reads as before, by the
 * same pages. Versions before it give 6 from then on. Gives 0, 1 to 4, 6 or 8: 3 for a
 * store of edition 1, whatever else is wrong with it; 6 above the current version or
 * below the oldest; 8 while an update is open. The same prune again changes nothing.
 * Prune is not erasure: values of versions that are gone can stand in the bytes of
 * pages that are kept, until these are rewritten.
 */
uint32_t rcst_prune(uint8_t *store, size_t length, uint32_t version);

/*
 * Converts a store of edition 1, `source`, into `target`, which may hold any bytes and
 * becomes a store of edition 2: it is made fresh, and each version's differences are
 * replayed into it, deletes before inserts, bench keys let through, so that every
 * committed version reads the same; an empty version stays one. The source is only read;
 * the two may not overlap. Gives 0, 1 (also for a target that is not 6 to 4,096 pages of
 * 512 bytes), 2, 3 (for any source that is not of edition 1), 4, 8 (the source has an
 * update open), 12 or 13. With 12 or 13 the target is a fresh store of edition 2; every
 * other number but 0 leaves it untouched.
 */
uint32_t rcst_convert(const uint8_t *source, size_t source_length, uint8_t *target, size_t target_length);

/*
 * Looks a key up at a version. Gives 0 or 1 to 6. With 0, *found is 1 and *value
 * the key's value, or both are 0: an absent key is an answer. With any other
 * number both are 0.
 *
 * It judges what it reads: the header and the slots, and then, from the version's
 * root down, each page that it comes to. 4 says that one of these is wrong in
 * itself, that the root is a free page, that a page is not one level lower than
 * the one above it, or that an index page has no router alive then at or below the
 * key. Damage elsewhere neither shows nor matters; rcst_check finds it.
 */
uint32_t rcst_lookup(const uint8_t *store, size_t length, uint32_t key, uint32_t version, uint32_t *found, uint32_t *value);

/*
 * Finds the settings from low to high, both included, at a version. Gives 0, 1 to
 * 6 or 14. With 0 they stand in the list as key, value, key, value, in key order,
 * and nothing behind them is touched. *count is the number of settings found with
 * 0 and with 14, else 0.
 *
 * It judges what it reads, as a lookup does, and all of it before it gives 14 or
 * writes. On a store that check refuses, settings may repeat or not rise in key.
 */
uint32_t rcst_range(const uint8_t *store, size_t length, uint32_t low, uint32_t high, uint32_t version, uint32_t *list, size_t room,
                    size_t *count);

/*
 * Tells by which pages a lookup of a key at a version goes: their numbers, from
 * the root down to the leaf, one on each level, so 1 to RCST_MOST_LEVELS of them.
 * A page's number is its place: page n starts at byte n * RCST_PAGE_BYTES, in edition
 * 2 at byte n * RCST_SECOND_PAGE_BYTES. Gives 0, 1 to 6 or 14. With 0 the numbers stand in the list, and nothing behind them is
 * touched. *count is how many they are with 0 and with 14, else 0. For a committed
 * version it says the same for ever, whatever is called later, short of a prune above
 * it and of making the store fresh again.
 */
uint32_t rcst_visits(const uint8_t *store, size_t length, uint32_t key, uint32_t version, uint32_t *pages, size_t room, size_t *count);

/*
 * Finds what differs from version old to version new: any two versions that can
 * be read, either may be the later one. Gives 0, 1 to 4, 6 or 14. With 0 the
 * differences stand in the list, four numbers each, in key order: the key; 0 if
 * it was added, 1 if it was removed, 2 if it has another value; its value at
 * old; its value at new. A value is 0 where there is none. Nothing behind them
 * is touched. *count is the number of differences with 0 and with 14, else 0.
 */
uint32_t rcst_difference(const uint8_t *store, size_t length, uint32_t old_version, uint32_t new_version, uint32_t *list, size_t room,
                         size_t *count);

/*
 * Tells when a setting was changed: every stretch of committed versions in which
 * the key held one value, oldest first. Gives 0, 1 to 5 or 14. With 0 they stand in
 * the list as start, end, value, three numbers each, and nothing behind them is
 * touched; a stretch goes from start up to but not including end, and its end is
 * RCST_ALIVE if the current version is in it. Neighbours with equal values are one
 * stretch. After a prune the first one may start at the oldest version. An open update
 * is not shown. *count is the number of stretches with 0
 * and with 14, else 0.
 */
uint32_t rcst_life(const uint8_t *store, size_t length, uint32_t key, uint32_t *list, size_t room, size_t *count);

/* What a store tells of itself. */
struct rcst_store_state {
    uint32_t pages;   /* pages of the store, header and directory among them */
    uint32_t current; /* the current version */
    uint32_t open;    /* 1 if an update is open, else 0 */
    uint32_t roots;   /* slots of the root directory that are used */
    uint32_t edition; /* 1 or 2 */
    uint32_t free;    /* pages that are free */
    uint32_t oldest;  /* the oldest version that can be read: 0, or the one pruned to last */
};

/*
 * Tells the state of a store, which it judges first as check does. Gives 0 or 1 to 4;
 * with any number but 0 every field of *state is 0. open is 1 exactly where
 * rcst_abandon would give 0. An update that needs more pages than are free gives 12.
 */
uint32_t rcst_state(const uint8_t *store, size_t length, struct rcst_store_state *state);

/*
 * Named settings: a layer above the store that knows each key's kind. The kinds
 * are lent as a table, four numbers a row: the key; 0 for a whole number, 1 for a
 * switch, 2 for a level; the lowest value and the highest, both included. A level's
 * are the bits of two floats, a switch's say nothing. Where a key has several rows
 * the first counts; a row with another kind says nothing of its key, and numbers
 * behind the last whole row say nothing.
 *
 * A value is an unsigned number, 0 or 1, or the bits of a float. Floats are
 * compared as floats: -0.0 is 0.0, an infinity lies beside the other numbers, and a
 * NaN is admitted nowhere; limits of which one is a NaN, or the lowest above the
 * highest, admit nothing.
 *
 * A key that the table does not have is unknown: 17, on reading and on writing. 17
 * and 16 come before every number of the store, 17 before 16.
 *
 * `table` points to `numbers` numbers, and overlaps neither store nor list. It is
 * searched from the front, a step a row, once by each call; by rcst_view_range once
 * for each setting found.
 */
enum rcst_kind { RCST_WHOLE = 0, RCST_SWITCH = 1, RCST_LEVEL = 2 };

/* How many numbers a row of a table has. */
#define RCST_KIND_NUMBERS 4u

/*
 * Judges a table: 0 if keys rise and are keys, kinds are known and no lowest is
 * above its highest or a NaN; else the first wrong row, counted from 1. The other
 * calls take any table: ask this once, where the table is made.
 */
size_t rcst_kinds_check(const uint32_t *table, size_t numbers);

/*
 * Inserts a setting of a known key, if its value is of the kind and inside the
 * limits. Gives 17, 16, or what rcst_insert gives.
 */
uint32_t rcst_named_insert(uint8_t *store, size_t length, const uint32_t *table, size_t numbers, uint32_t key, uint32_t value);

/* Deletes a setting of a known key. Gives 17, or what rcst_delete gives. */
uint32_t rcst_named_delete(uint8_t *store, size_t length, const uint32_t *table, size_t numbers, uint32_t key);

/*
 * The viewer: a reader of a store at one version. Open it once: 0, or 1 to 4, by
 * the header and the slots as a lookup judges them first, or 6. Then ask by key; the
 * library keeps nothing, so store, version and table are handed on at each call.
 */
uint32_t rcst_view_open(const uint8_t *store, size_t length, uint32_t version);

/*
 * What the viewer shows of a key. Gives 17, or what rcst_lookup gives, with *found
 * and *value as there. The value is shown as it is, also one that was inserted
 * without the layer and lies outside the limits.
 */
uint32_t rcst_view_value(const uint8_t *store, size_t length, uint32_t version, const uint32_t *table, size_t numbers, uint32_t key,
                         uint32_t *found, uint32_t *value);

/* The same of a key that is a whole number, or a switch: 16 for a key of another kind. */
uint32_t rcst_view_whole(const uint8_t *store, size_t length, uint32_t version, const uint32_t *table, size_t numbers, uint32_t key,
                         uint32_t *found, uint32_t *value);
uint32_t rcst_view_switch(const uint8_t *store, size_t length, uint32_t version, const uint32_t *table, size_t numbers, uint32_t key,
                          uint32_t *found, uint32_t *value);

/*
 * The same of a key that is a level: *bits are the float's bits and *level the
 * float, 0 and 0.0 where there is none.
 */
uint32_t rcst_view_level(const uint8_t *store, size_t length, uint32_t version, const uint32_t *table, size_t numbers, uint32_t key,
                         uint32_t *found, uint32_t *bits, float *level);

/*
 * The settings from low to high that the viewer shows, as rcst_range gives them,
 * but of a store that is sound: it judges all of it first, as check does. Gives 0, 1
 * to 6, 17 or 14: with 17 one of them has an unknown key, nothing is written and
 * *count is 0. So no setting is skipped: all are shown, or none.
 */
uint32_t rcst_view_range(const uint8_t *store, size_t length, uint32_t version, const uint32_t *table, size_t numbers, uint32_t low,
                         uint32_t high, uint32_t *list, size_t room, size_t *count);

/*
 * The plain engine: the store's settings in one list that is scanned, for an auditor
 * who will not read a tree. It has no pages and no bytes of a format. A plain store is
 * a list of `room` numbers that the caller lends, of which the first four times `count`
 * are its items, key, start, end, value, and its state. The fresh one is a state of
 * zeros but for the edition, with a list of any content.
 *
 * For every sequence of calls the two engines give equal numbers, values, lists and
 * counts, except that a call to which the store gives 12 or 13 is left out of the plain
 * sequence, and a return that gives one of them is an abandon there. The premise: `room`
 * is four numbers for each accepted insert, those that a return makes included.
 *
 * Every call gives 4 where what is lent is no plain store: `current`, or the open
 * version behind it, above RCST_HIGHEST_VERSION; `opened` above 1; `oldest` above
 * `current`; `edition` neither 1 nor 2; fewer than four numbers for each of `count`
 * items; or a list of more than RCST_PLAIN_MOST_NUMBERS. Insert and return give 14
 * where they would be done and the list has not the room: fewer than four numbers for
 * each item that there is and each insert that the call makes. Every other number is
 * the store's, in its order, 14 last; 1, 2, 12 and 13 are not given, and 3 by prune
 * alone. What the items say is not judged: on items that no calls made, the answers
 * are those of the scan. Items, state, list and results do not overlap.
 *
 * With 4 no number of list and state is changed, and with every other number but 0 the
 * items and the state are what they were. What stands in the list behind the items is
 * not said. A return, a commit, a range and a difference take time in the number of
 * items for each key that has a value.
 */
struct rcst_plain_state {
    uint32_t current; /* the current version */
    uint32_t opened;  /* 1 if an update is open, else 0 */
    uint32_t count;   /* how many items the list holds */
    uint32_t oldest;  /* the oldest version that is kept */
    uint32_t edition; /* 1 or 2; prune alone asks for it */
};

/* How many numbers an item has, and the longest list. */
#define RCST_PLAIN_ITEM_NUMBERS 4u
#define RCST_PLAIN_MOST_NUMBERS 17179869180ull

/* Opens an update. Gives 0, 4, 8 or 9. */
uint32_t rcst_plain_open(struct rcst_plain_state *state);

/* Inserts a setting in the open update. Gives 0, 4, 5, 7, 10 or 14. */
uint32_t rcst_plain_insert(uint32_t *items, size_t room, struct rcst_plain_state *state, uint32_t key, uint32_t value);

/* Deletes a setting in the open update. Gives 0, 4, 5, 7 or 11. */
uint32_t rcst_plain_delete(uint32_t *items, size_t room, struct rcst_plain_state *state, uint32_t key);

/* Commits the open update. Gives 0, 4, 7 or 15. */
uint32_t rcst_plain_commit(const uint32_t *items, size_t room, struct rcst_plain_state *state);

/* Abandons the open update. Gives 0, 4 or 7. */
uint32_t rcst_plain_abandon(uint32_t *items, size_t room, struct rcst_plain_state *state);

/* Returns to a committed version. Gives 0, 4, 6, 7 or 14. */
uint32_t rcst_plain_return(uint32_t *items, size_t room, struct rcst_plain_state *state, uint32_t version);

/* Drops the items that ended at or before a committed version. Gives 0, 3, 4, 6 or 8: 3 in edition 1. */
uint32_t rcst_plain_prune(uint32_t *items, size_t room, struct rcst_plain_state *state, uint32_t version);

/* Looks a key up at a version, as rcst_lookup does. Gives 0, 4, 5 or 6. */
uint32_t rcst_plain_lookup(const uint32_t *items, size_t room, const struct rcst_plain_state *state, uint32_t key, uint32_t version,
                           uint32_t *found, uint32_t *value);

/* The settings from low to high at a version, as rcst_range gives them. Gives 0, 4, 5, 6 or 14. */
uint32_t rcst_plain_range(const uint32_t *items, size_t room, const struct rcst_plain_state *state, uint32_t low, uint32_t high,
                          uint32_t version, uint32_t *list, size_t list_room, size_t *count);

/* What differs from one version to another, as rcst_difference gives it. Gives 0, 4, 6 or 14. */
uint32_t rcst_plain_difference(const uint32_t *items, size_t room, const struct rcst_plain_state *state, uint32_t old_version,
                               uint32_t new_version, uint32_t *list, size_t list_room, size_t *count);

/* When a setting was changed, as rcst_life gives it. Gives 0, 4, 5 or 14. */
uint32_t rcst_plain_life(const uint32_t *items, size_t room, const struct rcst_plain_state *state, uint32_t key, uint32_t *list,
                         size_t list_room, size_t *count);

#ifdef __cplusplus
}
#endif

#endif
