/*
 * Buffers to lend: guard bytes on one side, a page that may not be touched on the other. The library is not built by the C compiler, so
 * the address sanitizer sees none of its loads and stores; the page stops the first one past a buffer, and the guard bytes tell of a store.
 */
#ifndef LENT_H
#define LENT_H

#define _GNU_SOURCE
#include <stdint.h>
#include <stdio.h>
#include <stdlib.h>
#include <string.h>
#include <sys/mman.h>

#define LENT_PAGE 4096u
#define LENT_GUARD 0xa5

struct lent {
    uint8_t *open;  /* the pages that may be touched */
    size_t room;    /* their bytes */
    uint8_t *bytes; /* the buffer in them */
    size_t length;
};

/* Pages for at most `most` bytes between two pages that may not be touched. */
static struct lent lent_new(size_t most)
{
    struct lent b;
    size_t room = (most / LENT_PAGE + 1) * LENT_PAGE;
    uint8_t *all = mmap(NULL, room + 2 * LENT_PAGE, PROT_NONE, MAP_PRIVATE | MAP_ANONYMOUS, -1, 0);
    if (all == MAP_FAILED || mprotect(all + LENT_PAGE, room, PROT_READ | PROT_WRITE) != 0) {
        perror("lent_new");
        exit(2);
    }
    b.open = all + LENT_PAGE;
    b.room = room;
    b.bytes = b.open;
    b.length = 0;
    return b;
}

/* A buffer of n bytes against the upper or the lower closed page; all the other open bytes are guards. */
static void lent_place(struct lent *b, size_t n, int upper)
{
    memset(b->open, LENT_GUARD, b->room);
    b->bytes = upper ? b->open + b->room - n : b->open;
    b->length = n;
}

/* Whether n bytes are all the same given one. */
static int all_are(const uint8_t *at, size_t n, uint8_t byte) { return n == 0 || (at[0] == byte && memcmp(at, at + 1, n - 1) == 0); }

/* Whether no guard byte was changed. */
static int lent_whole(const struct lent *b)
{
    size_t below = (size_t)(b->bytes - b->open);
    return all_are(b->open, below, LENT_GUARD) && all_are(b->bytes + b->length, b->room - below - b->length, LENT_GUARD);
}

#endif
