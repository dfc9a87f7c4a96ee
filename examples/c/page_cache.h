/*
 * A small cache of translations above the unit, for a caller whose runs are short: what the size code of a physical answer is for.
 *
 * One answer holds for its whole page: for every aligned address in it, by the same strand, kind and selector. It holds until something is
 * inserted or removed on its side, by whatever strand, or a register from 0 to 5 of its strand is written (docs/PAPER.md, section 9). So:
 *
 *     page_cache_ask(..)         before an access is sent; with 1 it is answered, and is not sent
 *     page_cache_keep(..)        with the unit's answer to an access that was sent
 *     page_cache_drop(..)        with every other command that was not refused, before the next access
 *     page_cache_drop_side(..)   before a miss is served
 *     page_cache_drop_strand(..) where the host writes a register in the state itself, as it does to raise a strand's mode for accesses
 *
 * What is refused changes nothing, so a guest that sends what its mode does not permit drops nothing.
 *
 * Addresses are compared as they are given: two of one page are of one page behind the address mask, too. An answer of the cache sets no
 * used bit, so the unit may displace a page that is used through the cache alone; and it is no lookup, so the miss rate is of the rest.
 */
#ifndef PAGE_CACHE_H
#define PAGE_CACHE_H

#include <string.h>

#include "t1mmu.h"

#define PAGE_CACHE_LINES 64

struct page_cache_line {
    uint8_t live, code, attributes;
    uint8_t who[3]; /* strand, kind, selector */
    uint64_t page, frame;
};

struct page_cache {
    struct page_cache_line lines[PAGE_CACHE_LINES];
};

static uint64_t page_cache_value(const uint8_t *at)
{
    uint64_t value = 0;
    for (int i = 0; i < 8; i++)
        value = value << 8 | at[i];
    return value;
}

/* Where an access of a page of this size is kept. */
static size_t page_cache_place(const uint8_t *who, unsigned code, uint64_t address)
{
    uint64_t page = address / T1MMU_PAGE_BYTES(code);
    return (size_t)((page ^ page >> 6 ^ who[0] * 5u ^ who[1] * 11u ^ who[2] * 23u ^ code * 7u) % PAGE_CACHE_LINES);
}

/* The 24 bytes of an answer to the 13 of an access, and 1; or 0. What is refused or traps is for the unit to say. */
static int page_cache_ask(const struct page_cache *cache, const uint8_t *access, uint8_t *answer)
{
    static const uint8_t codes[] = {T1MMU_8K, T1MMU_64K, T1MMU_4M, T1MMU_256M};
    const uint8_t *who = access + 1;
    uint64_t address = page_cache_value(access + 5);
    unsigned size = access[4];
    if (size > 3 || (who[1] == T1MMU_FETCH && size != 2) || address % (1u << size) != 0)
        return 0;
    for (size_t i = 0; i < sizeof codes; i++) {
        const struct page_cache_line *line = &cache->lines[page_cache_place(who, codes[i], address)];
        uint64_t offset = address % T1MMU_PAGE_BYTES(codes[i]), physical = line->frame + offset;
        if (!line->live || line->code != codes[i] || memcmp(line->who, who, 3) != 0 || line->page != address - offset)
            continue;
        memset(answer, 0, T1MMU_ANSWER_BYTES);
        answer[0] = T1MMU_PHYSICAL;
        answer[1] = line->attributes;
        answer[3] = line->code;
        for (int k = 15; k >= 8; k--, physical >>= 8)
            answer[k] = (uint8_t)physical;
        return 1;
    }
    return 0;
}

/* Keeps what an access got; a bypass has no page, and a trap nothing to keep. */
static void page_cache_keep(struct page_cache *cache, const uint8_t *access, const uint8_t *answer)
{
    if (answer[0] != T1MMU_PHYSICAL || answer[3] == T1MMU_BYPASS_CODE)
        return;
    uint64_t address = page_cache_value(access + 5), offset = address % T1MMU_PAGE_BYTES(answer[3]);
    struct page_cache_line *line = &cache->lines[page_cache_place(access + 1, answer[3], address)];
    line->live = 1;
    line->code = answer[3];
    line->attributes = answer[1];
    memcpy(line->who, access + 1, 3);
    line->page = address - offset;
    line->frame = page_cache_value(answer + 8) - offset;
}

static void page_cache_drop_side(struct page_cache *cache, unsigned side)
{
    for (size_t i = 0; i < PAGE_CACHE_LINES; i++)
        if ((cache->lines[i].who[1] != T1MMU_FETCH) == (side == T1MMU_DATA))
            cache->lines[i].live = 0;
}

static void page_cache_drop_strand(struct page_cache *cache, unsigned strand)
{
    for (size_t i = 0; i < PAGE_CACHE_LINES; i++)
        if (cache->lines[i].who[0] == strand)
            cache->lines[i].live = 0;
}

/* Drops what a command may have changed. */
static void page_cache_drop(struct page_cache *cache, const uint8_t *command)
{
    switch (command[0]) {
    case T1MMU_WRITE:
        if (command[2] <= T1MMU_ADDRESS_MASK)
            page_cache_drop_strand(cache, command[1]);
        break;
    case T1MMU_INSERT:
    case T1MMU_DEMAP_PAGE:
    case T1MMU_DEMAP_CONTEXT:
    case T1MMU_DEMAP_ALL:
        page_cache_drop_side(cache, command[2]);
        break;
    case T1MMU_INVALIDATE:
        page_cache_drop_side(cache, command[1]);
        break;
    }
}

#endif
