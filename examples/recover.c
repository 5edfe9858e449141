/*
 * A store in a mapped file, and a program that may die.
 *
 *     recover FILE                  what every start begins with, and no more
 *     recover FILE KEY VALUE        then one release, in which KEY is VALUE
 *     recover FILE KEY VALUE die    the same, but the program ends inside the update
 *     recover FILE KEY VALUE copy   the release is made in a copy, which takes the file's place
 *
 * A file that is not there is made, with a fresh store of 64 pages. One program at
 * a time has the file. Gives 0, or 1 and says why.
 *
 *     cc examples/recover.c -Iinclude target/staticlib/librcst.a
 */
#define _POSIX_C_SOURCE 200809L

#include "rcst.h"

#include <fcntl.h>
#include <libgen.h>
#include <stdio.h>
#include <stdlib.h>
#include <string.h>
#include <sys/mman.h>
#include <sys/stat.h>
#include <unistd.h>

static void give_up(const char *what) {
    perror(what);
    exit(1);
}

static void refused(const char *what, uint32_t number) {
    fprintf(stderr, "%s: %u, %s\n", what, (unsigned)number, rcst_words(number));
    exit(1);
}

static void sync_and_close(int file, const char *path) {
    if (file < 0 || fsync(file) != 0 || close(file) != 0) {
        give_up(path);
    }
}

/*
 * Puts a store in the place of the file: written beside it, synced, renamed, and
 * the folder synced. Whenever the power goes, the file is the old store or the new
 * one, whole.
 */
static void replace(const char *path, const uint8_t *store, size_t length) {
    char beside[4096], folder[4096];
    size_t done = 0;
    int file;

    if (snprintf(beside, sizeof beside, "%s.new", path) >= (int)sizeof beside) {
        fprintf(stderr, "%s: too long a name\n", path);
        exit(1);
    }
    strcpy(folder, path);
    file = open(beside, O_WRONLY | O_CREAT | O_TRUNC, 0644);
    while (file >= 0 && done < length) {
        ssize_t n = write(file, store + done, length - done);

        if (n <= 0) {
            give_up(beside);
        }
        done += (size_t)n;
    }
    sync_and_close(file, beside);
    if (rename(beside, path) != 0) {
        give_up(path);
    }
    sync_and_close(open(dirname(folder), O_RDONLY), path);
}

static void make(const char *path) {
    static uint8_t store[64 * RCST_PAGE_BYTES];

    rcst_fresh(store, sizeof store);
    replace(path, store, sizeof store);
}

/* The file's bytes, lent in place: what a call has written is in the file, even if the program dies right after it. */
static uint8_t *map(const char *path, size_t *length) {
    struct stat status;
    void *bytes;
    int file = open(path, O_RDWR);

    if (file < 0 || fstat(file, &status) != 0) {
        give_up(path);
    }
    *length = (size_t)status.st_size;
    bytes = mmap(NULL, *length, PROT_READ | PROT_WRITE, MAP_SHARED, file, 0);
    if (bytes == MAP_FAILED) {
        give_up(path);
    }
    close(file);
    return bytes;
}

/* What every start begins with: no store that is not sound, and no update that a dead program left open. */
static void recover(uint8_t *store, size_t length) {
    uint32_t rule, number = rcst_check(store, length, &rule);

    if (number != RCST_DONE) {
        refused("the store is not taken", number);
    }
    number = rcst_abandon(store, length);
    if (number == RCST_DONE) {
        printf("an update was open: abandoned\n");
    } else if (number != RCST_NO_UPDATE_OPEN) {
        refused("abandon", number);
    }
}

static void release(uint8_t *store, size_t length, uint32_t key, uint32_t value, int dies) {
    uint32_t number = rcst_open(store, length);

    if (number != RCST_DONE) {
        refused("open", number);
    }
    number = rcst_delete(store, length, key);
    if (dies) {
        _exit(3);
    }
    if (number == RCST_DONE || number == RCST_KEY_NOT_ALIVE) {
        number = rcst_insert(store, length, key, value);
    }
    if (number == RCST_DONE) {
        number = rcst_commit(store, length);
    }
    if (number != RCST_DONE) {
        rcst_abandon(store, length);
        refused("no release", number);
    }
}

int main(int count, char **words) {
    uint8_t *store;
    size_t length;
    const char *how = count == 5 ? words[4] : "";

    if (count != 2 && count != 4 && strcmp(how, "die") != 0 && strcmp(how, "copy") != 0) {
        fprintf(stderr, "recover FILE [KEY VALUE [die | copy]]\n");
        return 1;
    }
    if (access(words[1], F_OK) != 0) {
        make(words[1]);
    }
    store = map(words[1], &length);
    recover(store, length);
    if (count > 2) {
        uint32_t key = (uint32_t)strtoul(words[2], NULL, 10), value = (uint32_t)strtoul(words[3], NULL, 10);

        if (strcmp(how, "copy") == 0) {
            uint8_t *copy = malloc(length);

            if (copy == NULL) {
                give_up("copy");
            }
            memcpy(copy, store, length);
            release(copy, length, key, value, 0);
            replace(words[1], copy, length);
            free(copy);
        } else {
            release(store, length, key, value, strcmp(how, "die") == 0);
        }
    }
    munmap(store, length);
    return 0;
}
