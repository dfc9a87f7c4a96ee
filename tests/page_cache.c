/*
 * The cache of examples/c/page_cache.h above the unit, on random commands and served misses: whatever it answers, the unit is asked too, on a
 * copy of the state, and has to answer the same 24 bytes. Commands are a guest's, of which those that its mode does not permit are refused
 * and drop nothing, or the host's. With a rule's number nothing is dropped by that rule, and the cache has to go wrong.
 * Ends with 0 where all agree, pages of every size were met and some commands, but not most, were refused; with 3 where there is no such rule.
 *
 *     page_cache STEPS [RULE]
 */
#include <stdio.h>
#include <stdlib.h>

#include "../examples/c/page_cache.h"

/* What drops: writes of registers 0 to 5, then these. */
enum { BY_INSERT = 6, BY_DEMAP_PAGE, BY_DEMAP_CONTEXT, BY_DEMAP_ALL, BY_INVALIDATE, BY_SERVE, RULES };

static uint64_t seed = 1;

static unsigned draw(unsigned n)
{
    seed = seed * UINT64_C(6364136223846793005) + UINT64_C(1442695040888963407);
    return (unsigned)(seed >> 33) % n;
}

static uint64_t state[T1MMU_STATE_WORDS];
static struct page_cache cache;
static size_t width;
static uint8_t command[16];

static void put(unsigned byte) { command[width++] = (uint8_t)byte; }

static void value_to(uint8_t *at, uint64_t value)
{
    for (int i = 7; i >= 0; i--, value >>= 8)
        at[i] = (uint8_t)value;
}

static void put8(uint64_t value)
{
    value_to(command + width, value);
    width += 8;
}

/* Small pages more often: large ones remove them. */
static unsigned page_code(void)
{
    static const uint8_t codes[] = {T1MMU_8K, T1MMU_8K, T1MMU_8K, T1MMU_8K, T1MMU_64K, T1MMU_64K, T1MMU_4M, T1MMU_256M};
    return codes[draw(8)];
}

/* Few enough to meet again, some above 2^32 and some out of range, mostly aligned. */
static uint64_t address(void)
{
    static const uint64_t parts[] = {0x400000, 0x402000, 0x410000, 0x800000, 0x10000000, 0x100402000, UINT64_C(0xfffffffff0000000)};
    uint64_t base = draw(60) == 0 ? UINT64_C(1) << 47 : parts[draw(7)];
    return base + draw(4) * 0x2000 + draw(3) * 8 + (draw(20) == 0 ? draw(8) : 0);
}

static uint64_t word(unsigned code)
{
    uint64_t bits = (uint64_t)draw(8) << 10 | (draw(8) == 0 ? 0x100u : 0) | (draw(4) ? 0x40u : 0);
    return UINT64_C(1) << 63 | (draw(12) == 0 ? UINT64_C(1) << 62 : 0) | (uint64_t)draw(1 << 20) << 13 | bits | code;
}

static uint64_t register_value(unsigned number)
{
    if (number == T1MMU_PARTITION)
        return draw(2);
    if (number <= T1MMU_SECONDARY_CONTEXT)
        return draw(3);
    if (number == T1MMU_MODE)
        return draw(8) == 0 ? T1MMU_HYPERPRIVILEGED : draw(2);
    if (number == T1MMU_TRANSLATION)
        return draw(3) ? 3 : draw(4);
    if (number == T1MMU_ADDRESS_MASK)
        return draw(2);
    if (number >= T1MMU_TAG_ACCESS)
        return (address() & ~UINT64_C(0x1fff)) | draw(3);
    return number >= T1MMU_TSB_CONFIGURATION ? page_code() : draw(2);
}

/* A command that is no access, and the rule by which it drops. */
static int other_command(void)
{
    unsigned strand = draw(2), side = draw(2), selector = side == 0 ? 0 : draw(3), n = draw(100);
    width = 0;
    if (n < 30) {
        unsigned number = draw(3) ? draw(6) : T1MMU_TSB_CONFIGURATION + draw(4);
        put(T1MMU_WRITE), put(strand), put(number), put8(register_value(number));
        return number <= T1MMU_ADDRESS_MASK ? (int)number : -1;
    }
    if (n < 60) {
        put(T1MMU_WRITE), put(strand), put(T1MMU_TAG_ACCESS + side), put8(register_value(T1MMU_TAG_ACCESS));
        return -1;
    }
    if (n < 90) {
        put(T1MMU_INSERT), put(strand), put(side), put(draw(6) == 0 ? T1MMU_REAL : 0), put8(word(page_code()));
        return BY_INSERT;
    }
    if (n < 95) {
        put(T1MMU_DEMAP_PAGE), put(strand), put(side), put(selector), put(draw(4) == 0), put8(address());
        return BY_DEMAP_PAGE;
    }
    if (n < 97) {
        put(T1MMU_DEMAP_CONTEXT), put(strand), put(side), put(selector);
        return BY_DEMAP_CONTEXT;
    }
    if (n < 99) {
        put(T1MMU_DEMAP_ALL), put(strand), put(side);
        return BY_DEMAP_ALL;
    }
    put(T1MMU_INVALIDATE), put(side);
    return BY_INVALIDATE;
}

static void expect_one(struct t1mmu_report r)
{
    if (r.answered != 1 || r.taken != width) {
        printf("page_cache: a run that stopped with %u\n", r.stop);
        exit(2);
    }
}

static void run(uint64_t *words, uint8_t *answer)
{
    expect_one(t1mmu_run(words, T1MMU_STATE_WORDS, command, width, answer, T1MMU_ANSWER_BYTES));
}

/* The strand in mode 2 for this one command; the mode is put back before the next access, so that nothing is dropped for it. */
static void run_as_host(uint8_t *answer)
{
    unsigned strand = command[0] == T1MMU_INVALIDATE ? 0 : command[1];
    uint64_t *mode = &state[T1MMU_CELL_AT(strand, T1MMU_MODE)], was = *mode;
    *mode = T1MMU_HYPERPRIVILEGED;
    expect_one(t1mmu_run_hypervisor(state, T1MMU_STATE_WORDS, command, width, answer, T1MMU_ANSWER_BYTES));
    if (command[0] != T1MMU_WRITE || command[2] != T1MMU_MODE)
        *mode = was;
}

/* Serves a strand's side from a table in which the entry fits. */
static void serve(unsigned strand, unsigned side, int rule)
{
    static uint8_t table[T1MMU_TSB_BYTES(1)];
    uint64_t tag = state[T1MMU_CELL_AT(strand, T1MMU_TAG_ACCESS + side)];
    unsigned nonzero = tag % 8192 != 0, n = state[T1MMU_CELL_AT(strand, T1MMU_TSB_BASE_OF(side, nonzero, 0))] % 16;
    unsigned code = state[T1MMU_CELL_AT(strand, T1MMU_TSB_CONFIGURATION_OF(side, nonzero))] % 8;
    size_t length = T1MMU_TSB_BYTES(n);
    struct t1mmu_part part = t1mmu_hand_back(state, T1MMU_STATE_WORDS, strand, side, table, length, table, length);
    value_to(table + part.start, tag % 8192 << 48 | tag >> 22);
    value_to(table + part.start + 8, word(code));
    if (rule != BY_SERVE)
        page_cache_drop_side(&cache, side);
    t1mmu_serve(state, T1MMU_STATE_WORDS, strand, side, table, length, table, length);
}

int main(int argc, char **argv)
{
    long steps = argc > 1 ? atol(argv[1]) : 0;
    int rule = argc > 2 ? atoi(argv[2]) : -1;
    unsigned long by_cache[8] = {0}, accesses = 0, others = 0, refused = 0, serves = 0, differ = 0;
    if (rule >= RULES)
        return 3;
    if (steps <= 0 || t1mmu_reset(state, T1MMU_STATE_WORDS) != 0)
        return 2;
    for (long i = 0; i < steps; i++) {
        uint8_t answer[T1MMU_ANSWER_BYTES], asked[T1MMU_ANSWER_BYTES];
        if (draw(100) < 12) {
            int by = other_command();
            if (draw(4) != 0)
                run_as_host(answer);
            else
                run(state, answer);
            others++;
            if (answer[0] == T1MMU_REFUSED)
                refused++;
            else if (by < 0 || by != rule)
                page_cache_drop(&cache, command);
            continue;
        }
        unsigned strand = draw(2), kind = draw(5), selector = kind == T1MMU_FETCH ? 0 : draw(3);
        width = 0;
        put(T1MMU_ACCESS), put(strand), put(kind), put(selector), put(kind == T1MMU_FETCH ? 2 : draw(4)), put8(address());
        accesses++;
        if (page_cache_ask(&cache, command, answer)) {
            static uint64_t copy[T1MMU_STATE_WORDS];
            memcpy(copy, state, sizeof copy);
            run(copy, asked);
            by_cache[answer[3]]++;
            differ += memcmp(answer, asked, sizeof asked) != 0;
            continue;
        }
        run(state, answer);
        page_cache_keep(&cache, command, answer);
        if (answer[0] == T1MMU_TRAP && (answer[1] == T1MMU_FAST_INSTRUCTION_ACCESS_MMU_MISS || answer[1] == T1MMU_FAST_DATA_ACCESS_MMU_MISS)) {
            serve(strand, kind != T1MMU_FETCH, rule);
            serves++;
        }
    }
    printf("page_cache: %lu accesses, %lu other commands, of which %lu refused, %lu serves;", accesses, others, refused, serves);
    printf(" by the cache %lu of 8 KB, %lu of 64 KB, %lu of 4 MB, %lu of 256 MB pages, %lu differ\n", by_cache[T1MMU_8K], by_cache[T1MMU_64K],
           by_cache[T1MMU_4M], by_cache[T1MMU_256M], differ);
    int met = by_cache[T1MMU_8K] && by_cache[T1MMU_64K] && by_cache[T1MMU_4M] && by_cache[T1MMU_256M] && refused > 0 && 2 * refused < others;
    return !met || differ != 0;
}
