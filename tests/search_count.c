/*
 * How many pages a search compares, beside a plain count over a table of entries that is kept here: on many sides, of many lengths. Table
 * and count are written from the documents. Then counts that are wrong on purpose, each of which has to differ somewhere.
 */
#include "lent.h"

#define MOST 80 /* slots of a side here; the unit's have 64, the search takes any number */
#define SIDE 64
#define SIDES 40000
#define PAGE_BLOCK 0x10000000u /* 256 MB, the largest page: entries of one owner stand in blocks of their own */

struct counted {
    size_t slot, compared;
};
struct counted search_count(const uint64_t *slots, size_t words, uint8_t real, uint64_t partition, uint64_t context, uint64_t address);

struct entry {
    int live, real, locked, used;
    uint64_t partition, context, page, size;
    unsigned code;
};
struct key {
    int real;
    uint64_t partition, context, address;
};

/* Ways to count wrongly; RIGHT is none of them. */
enum wrong {
    RIGHT,
    OTHER_PARTITIONS,
    OTHER_REALNESS,
    OTHER_CONTEXTS,
    CONTEXT_OF_REAL,
    EMPTY_SLOTS,
    FOUND_LEFT_OUT,
    PAST_THE_FOUND,
    ONLY_THE_FOUND,
    WRONGS
};
static const char *const wrong_names[WRONGS] = {
    "right", "other partitions", "other realness", "other contexts", "context of a real key", "empty slots", "found left out", "past the found", "only the found",
};

static struct entry side[MOST];
static size_t slots;
static struct lent words;

static unsigned long searches, differ, caught[WRONGS];
static unsigned long at_slot[SIDE], of_count[SIDE + 1], of_code[6], of_length[MOST + 1];
static unsigned long missed, real_found, stranger_same_page, empty_before_owner_0, refused;

static uint64_t state = 1;
static uint64_t below(uint64_t n)
{
    state ^= state << 13;
    state ^= state >> 7;
    state ^= state << 17;
    return (state >> 11) % n;
}

/* ---- a side ---- */

static const unsigned codes[4] = {0, 1, 3, 5};
static uint64_t bytes_of(unsigned code) { return code == 0 ? 0x2000 : code == 1 ? 0x10000 : code == 3 ? 0x400000 : 0x10000000; }

/* Owner k of a side: 0 is partition 0, virtual, context 0, which an empty slot looks like. Owners differ in one part or in several. */
static struct key owner(uint64_t k)
{
    struct key o = {k % 4 == 3, k / 4 % 8, 0, 0};
    if (!o.real)
        o.context = k % 4 == 2 ? 8191 : k % 4;
    return o;
}

static void fill(void)
{
    uint64_t owners = 1 + below(12), first = below(2) ? 0 : below(20), full = below(5), held[40] = {0}, high = below(8) == 0;
    slots = below(4) ? SIDE : below(MOST + 1);
    of_length[slots]++;
    for (size_t i = 0; i < slots; i++) {
        struct entry *e = &side[i];
        memset(e, 0, sizeof *e);
        if (below(4) >= full && full != 4)
            continue;
        uint64_t k = (first + below(owners)) % 32, block = held[k]++;
        struct key o = owner(k);
        e->live = 1;
        e->real = o.real;
        e->partition = o.partition;
        e->context = o.context;
        e->code = codes[below(4)];
        e->size = bytes_of(e->code);
        e->page = (high ? 0xffff800000000000u : 0) + block * PAGE_BLOCK + (below(2) ? 0 : below(PAGE_BLOCK / e->size) * e->size);
        e->locked = (int)below(2);
        e->used = (int)below(2);
    }
}

/* The words of the slots: owner, page, entry word (v, cp, w, size code; an address that is of no matter), flags. */
static void lend(void)
{
    lent_place(&words, slots * 32, (int)below(2));
    uint64_t *w = (uint64_t *)(void *)words.bytes;
    for (size_t i = 0; i < slots; i++, w += 4) {
        const struct entry *e = &side[i];
        w[0] = e->live ? e->partition * 0x4000 + (uint64_t)e->real * 0x2000 + e->context : 0;
        w[1] = e->live ? e->page : 0;
        w[2] = e->live ? 0x8000000000000440u + e->code : 0;
        w[3] = e->live ? (uint64_t)(e->locked + 2 * e->used) : 0;
    }
}

/* ---- the plain count ---- */

static int holds(const struct entry *e, const struct key *k) { return k->address - e->page < e->size && k->address >= e->page; }

static int agrees(const struct entry *e, const struct key *k)
{
    return e->live && e->partition == k->partition && e->real == k->real && (k->real || e->context == k->context);
}

static int counts(const struct entry *e, const struct key *k, enum wrong wrong)
{
    switch (wrong) {
    case OTHER_PARTITIONS:
        return e->live && e->real == k->real && (k->real || e->context == k->context);
    case OTHER_REALNESS:
        return e->live && e->partition == k->partition && (k->real || e->context == k->context);
    case OTHER_CONTEXTS:
        return e->live && e->partition == k->partition && e->real == k->real;
    case CONTEXT_OF_REAL:
        return agrees(e, k) && e->context == k->context;
    case EMPTY_SLOTS:
        return agrees(e, k) || (!e->live && !k->real && k->partition == 0 && k->context == 0);
    case FOUND_LEFT_OUT:
        return agrees(e, k) && !holds(e, k);
    case ONLY_THE_FOUND:
        return agrees(e, k) && holds(e, k);
    default:
        return agrees(e, k);
    }
}

static struct counted plain(const struct key *k, enum wrong wrong)
{
    struct counted c = {slots, 0};
    for (size_t i = 0; i < slots; i++) {
        if (c.slot < slots && wrong != PAST_THE_FOUND)
            break;
        c.compared += (size_t)counts(&side[i], k, wrong);
        if (c.slot == slots && agrees(&side[i], k) && holds(&side[i], k))
            c.slot = i;
    }
    return c;
}

/* ---- both ---- */

static int same(struct counted a, struct counted b) { return a.slot == b.slot && a.compared == b.compared; }

static struct counted ask(const struct key *k)
{
    return search_count((const uint64_t *)(const void *)words.bytes, slots * 4, (uint8_t)k->real, k->partition, k->context, k->address);
}

static void seen(const struct key *k, struct counted c)
{
    int before = 0;
    missed += c.slot == slots;
    if (slots == SIDE)
        of_count[c.compared]++;
    for (size_t i = 0; i < c.slot; i++) {
        before |= !side[i].live;
        stranger_same_page += side[i].live && !agrees(&side[i], k) && holds(&side[i], k);
    }
    empty_before_owner_0 += before && !k->real && k->partition == 0 && k->context == 0;
    if (c.slot == slots)
        return;
    if (slots == SIDE)
        at_slot[c.slot]++;
    real_found += (unsigned long)k->real;
    of_code[side[c.slot].code]++;
}

static void compare(const struct key *k)
{
    struct counted got = ask(k), right = plain(k, RIGHT);
    searches++;
    if (!same(got, right) && differ++ < 10)
        printf("search_count: partition %d real %d context %d address %llx: slot %zu compared %zu, plain %zu %zu\n", (int)k->partition, k->real,
               (int)k->context, (unsigned long long)k->address, got.slot, got.compared, right.slot, right.compared);
    for (int w = RIGHT + 1; w < WRONGS; w++)
        caught[w] += !same(got, plain(k, (enum wrong)w));
    seen(k, right);
}

/* A key that no search takes, or a side that is not sound: nothing is found, nothing compared. */
static void expect_refused(const struct key *k)
{
    struct counted none = {slots, 0};
    refused++;
    if (!same(ask(k), none) && differ++ < 10)
        printf("search_count: a search that should not be\n");
}

static void refuse(const struct key *k)
{
    struct key wide = *k;
    wide.partition = 8;
    expect_refused(&wide);
    wide = *k;
    wide.real = 0;
    wide.context = 8192;
    expect_refused(&wide);
    if (slots) {
        uint64_t *flags = (uint64_t *)(void *)words.bytes + 4 * below(slots) + 3, kept = *flags;
        *flags |= 4;
        expect_refused(k);
        *flags = kept;
    }
}

static void one_side(void)
{
    uint64_t kept[MOST * 4];
    fill();
    lend();
    memcpy(kept, words.bytes, words.length);
    for (int q = 0; q < 12; q++) {
        struct key k = owner(q == 0 ? 0 : below(32));
        k.address = below(8) * PAGE_BLOCK + below(3) * 0x1000;
        if (slots && q % 3 != 0) {
            /* an address of an entry, for its owner or another one */
            const struct entry *e = &side[below(slots)];
            if (q % 3 == 1) {
                k.real = e->real;
                k.partition = e->partition;
                k.context = e->context;
            }
            k.address = e->page + (e->live ? below(e->size) : 0);
        }
        if (k.real) /* it asks for no context, whatever it is */
            k.context = below(8192);
        compare(&k);
        if (q == 0)
            refuse(&k);
    }
    if (!lent_whole(&words) || memcmp(kept, words.bytes, words.length) != 0) {
        printf("search_count: the slots changed\n");
        differ++;
    }
}

static void reached(unsigned long n, const char *what, long of)
{
    if (n)
        return;
    printf("search_count: never reached: %s %ld\n", what, of);
    differ++;
}

int main(void)
{
    words = lent_new(MOST * 32);
    for (long i = 0; i < SIDES; i++)
        one_side();
    for (long i = 0; i < SIDE; i++)
        reached(at_slot[i], "found in slot", i);
    for (long i = 0; i <= SIDE; i++)
        reached(of_count[i], "pages compared", i);
    for (long i = 0; i <= MOST; i++)
        reached(of_length[i], "slots", i);
    for (int i = 0; i < 4; i++)
        reached(of_code[codes[i]], "size code", (long)codes[i]);
    reached(missed, "none found", 0);
    reached(real_found, "a real one found", 0);
    reached(stranger_same_page, "the page of a stranger", 0);
    reached(empty_before_owner_0, "an empty slot before, for owner 0", 0);
    reached(refused, "refused", 0);
    for (int w = RIGHT + 1; w < WRONGS; w++)
        reached(caught[w], wrong_names[w], 0);
    printf("%d sides, %lu searches, %lu not taken, %lu differ; %d wrong counts, each caught\n", SIDES, searches, refused, differ, WRONGS - 1);
    return differ != 0;
}
