/* The unit as one would write it in C: a struct for a slot, a linear scan, a pairwise soundness test. gcc -O3. */
#include <stdbool.h>
#include <stddef.h>
#include <stdint.h>
#include <string.h>

#include "t1mmu.h"

typedef uint64_t u64;

/* Sizes, widths and the library's words are those of its header; all else is this unit's own. */
enum { SLOTS = T1MMU_SLOTS, KEPT = T1MMU_KEPT_LOOKUPS };

struct slot {
    u64 page, word;
    uint16_t context;
    uint8_t partition;
    bool real, locked, used;
};

/* A ring of outcomes: whether lookup n missed is bit n modulo KEPT. From 2 * KEPT the count goes to KEPT + 1. */
struct record {
    u64 missed[KEPT / 64];
    unsigned seen;
};

struct unit {
    u64 registers[T1MMU_STRANDS][T1MMU_CELLS];
    struct slot sides[T1MMU_SIDES][SLOTS];
    struct record records[T1MMU_STRANDS][T1MMU_SIDES];
};

static const uint8_t shifts[16] = {13, 16, 0, 22, 0, 28};

static inline bool live(const struct slot *s) { return s->word >> 63; }
static inline bool in_range(u64 a) { return a < 1ull << 47 || a >= 0 - (1ull << 47); }
static inline bool word_allowed(u64 w) { return w >> 63 && shifts[w & 15] && (w >> 40 & 0xFFFF) == 0; }
static inline u64 rounded(u64 a, u64 word) { return a >> shifts[word & 15] << shifts[word & 15]; }
static inline bool holds(const struct slot *s, u64 a) { return rounded(a, s->word) == s->page; }

static inline bool overlap(const struct slot *x, const struct slot *y) {
    return x->partition == y->partition && x->real == y->real && x->context == y->context && (holds(x, y->page) || holds(y, x->page));
}

static bool value_allowed(unsigned n, u64 v) {
    if (n == 0) return v <= 7;
    if (n <= 2) return v <= 8191;
    if (n == 3) return v <= 2;
    if (n == 4) return v <= 3;
    if (n == 5) return v <= 1;
    if (n >= 8 && n <= 15) return (v & 0x1FF0) == 0;
    if (n >= 16 && n <= 19) return (v & ~0x707ull) == 0 && shifts[v & 7] && shifts[v >> 8 & 7];
    if (n >= 20 && n <= 25) return true;
    return v == 0;
}

static bool slot_sound(const struct slot *s) {
    if (!live(s)) return !(s->page | s->word | s->context | s->partition | s->real | s->locked | s->used);
    return word_allowed(s->word) && s->partition <= 7 && s->context <= 8191 && in_range(s->page) && holds(s, s->page) && !(s->real && s->context);
}

static bool side_sound(const struct slot *side) {
    for (int i = 0; i < SLOTS; i++)
        if (!slot_sound(&side[i])) return false;
    for (int i = 0; i < SLOTS; i++)
        for (int j = i + 1; j < SLOTS; j++)
            if (live(&side[i]) && live(&side[j]) && overlap(&side[i], &side[j])) return false;
    return true;
}

/* No bit is set that has had no lookup. */
static bool record_sound(const struct record *r) {
    for (unsigned i = 0; i < KEPT / 64; i++) {
        unsigned had = r->seen < 64 * i ? 0 : r->seen - 64 * i;
        if (had < 64 && r->missed[i] >> had) return false;
    }
    return r->seen <= 2 * KEPT;
}

static bool sound(const struct unit *u) {
    for (int s = 0; s < T1MMU_STRANDS; s++) {
        for (int n = 0; n < T1MMU_CELLS; n++)
            if (!value_allowed(n, u->registers[s][n])) return false;
        if (!record_sound(&u->records[s][0]) || !record_sound(&u->records[s][1])) return false;
    }
    return side_sound(u->sides[0]) && side_sound(u->sides[1]);
}

static inline u64 take8(const uint8_t *b) {
    u64 v;
    memcpy(&v, b, 8);
    return __builtin_bswap64(v);
}

static inline void answer(uint8_t *out, unsigned kind, unsigned a, unsigned b, unsigned c, u64 first, u64 second) {
    uint8_t head[8] = {kind, a, b, c};
    first = __builtin_bswap64(first), second = __builtin_bswap64(second);
    memcpy(out, head, 8), memcpy(out + 8, &first, 8), memcpy(out + 16, &second, 8);
}

static inline u64 selected(const u64 *r, unsigned selector) { return selector == 0 ? r[1] : selector == 1 ? r[2] : 0; }

static void trap(u64 *r, unsigned side, u64 context, bool tags, unsigned number, unsigned fault, u64 address, uint8_t *out) {
    if (tags) r[20 + side] = (address & ~0x1FFFull) | (r[4] >> side & 1 ? context : 0);
    r[22 + side] = address;
    r[24 + side] = number * 256 + fault;
    answer(out, 2, number, fault, 0, address, r[20 + side]);
}

static struct slot *find(struct slot *side, u64 partition, bool real, u64 context, u64 address) {
    for (int i = 0; i < SLOTS; i++) {
        struct slot *s = &side[i];
        if (live(s) && s->partition == partition && s->real == real && (real || s->context == context) && holds(s, address)) return s;
    }
    return NULL;
}

static inline void note(struct record *r, u64 missed) {
    unsigned at = r->seen % KEPT;
    u64 *word = &r->missed[at / 64];
    *word = (*word & ~(1ull << at % 64)) | missed << at % 64;
    r->seen = r->seen == 2 * KEPT ? KEPT + 1 : r->seen + 1;
}

static inline unsigned kept(const struct record *r) { return r->seen < KEPT ? r->seen : KEPT; }

static unsigned rate(const struct record *r, uint8_t *out) {
    u64 misses = 0;
    if (r->seen == 0) return 15;
    for (int i = 0; i < KEPT / 64; i++) misses += __builtin_popcountll(r->missed[i]);
    answer(out, 3, 0, 0, 0, misses * 1000 / kept(r), 0);
    return 0;
}

static void translate(struct unit *u, unsigned strand, unsigned kind, unsigned selector, unsigned size, u64 address, uint8_t *out) {
    u64 *r = u->registers[strand];
    unsigned side = kind != 0, bad = side ? 0x30 : 0x08;
    u64 context = selected(r, selector);
    if (r[5] && r[3] != 2) address &= 0xFFFFFFFF;
    if (address & ((1u << size) - 1)) { trap(r, side, context, false, 0x34, 0, address, out); return; }
    if (r[3] == 0 && side && selector == 2) { trap(r, side, context, false, 0x37, 0, address, out); return; }
    if (r[3] == 2) {
        bool io = address >> 39 & 1;
        if (io && kind >= 3) trap(r, side, 0, true, bad, kind == 4 ? 2 : 4, address, out);
        else answer(out, 1, io ? 2 : 1, 0, 15, address & ((1ull << 40) - 1), 0);
        return;
    }
    if (!in_range(address)) { trap(r, side, context, true, bad, 0x20, address, out); return; }
    bool real = !(r[4] >> side & 1);
    struct slot *s = find(u->sides[side], r[0], real, context, address);
    note(&u->records[strand][side], !s);
    if (!s) { trap(r, side, context, true, real ? 0x3E + side : side ? 0x68 : 0x64, 0, address, out); return; }
    s->used = true;
    u64 w = s->word;
    unsigned fault = ((w >> 8 & 1) && r[3] == 0 ? 1 : 0) + (kind == 4 && (w >> 11 & 1) ? 2 : 0) + (kind == 3 && !(w >> 10 & 1) ? 4 : 0)
        + ((w >> 62 & 1) && kind != 4 ? 16 : 0);
    if (fault) { trap(r, side, context, true, bad, fault, address, out); return; }
    if ((kind == 2 || kind == 3) && !(w >> 6 & 1)) { trap(r, side, context, true, 0x6C, 0, address, out); return; }
    u64 frame = rounded(w & 0xFFFFFFE000ull, w);
    answer(out, 1, w >> 10 & 7, 0, w & 15, frame + (address - s->page), 0);
}

static unsigned insert(struct unit *u, u64 *r, unsigned side, unsigned flags, u64 word, uint8_t *out) {
    struct slot *slots = u->sides[side];
    u64 tag = r[20 + side];
    if (!in_range(tag)) return 11;
    if (!word_allowed(word)) return 12;
    /* locals, not a struct: gcc would store the struct's bytes and load two of them as one in the loop, which stalls */
    u64 page = rounded(tag, word), partition = r[0], context = flags & 1 ? 0 : tag & 0x1FFF;
    bool real = flags & 1;
    int empty = -1, unused = -1, unlocked = -1;
    for (int i = 0; i < SLOTS; i++) {
        struct slot *s = &slots[i];
        bool agree = live(s) && s->partition == partition && s->real == real && s->context == context;
        if (agree && (holds(s, page) || rounded(s->page, word) == page)) *s = (struct slot){0};
        if (!live(s)) {
            if (empty < 0) empty = i;
        } else if (!s->locked) {
            if (unlocked < 0) unlocked = i;
            if (!s->used && unused < 0) unused = i;
        }
    }
    struct slot new = {page, word, context, partition, real, flags >> 1, true};
    if (empty >= 0) {
        slots[empty] = new;
        answer(out, 0, 0, 0, 0, 0, 0);
        return 0;
    }
    if (unlocked < 0) return 13;
    int place = unused;
    if (place < 0) {
        for (int i = 0; i < SLOTS; i++) slots[i].used = false;
        place = unlocked;
    }
    struct slot *d = &slots[place];
    answer(out, 4, 0, d->partition, d->real, d->page + d->context, d->word);
    *d = new;
    return 0;
}

/* what: 3 page, 4 context, 5 all, 6 every entry */
static void removal(struct slot *slots, unsigned what, u64 partition, bool real, u64 context, u64 address, uint8_t *out) {
    u64 count = 0;
    for (int i = 0; i < SLOTS; i++) {
        struct slot *s = &slots[i];
        bool goes = live(s) && (what == 6 || s->partition == partition);
        if (what == 3) goes = goes && s->real == real && (real || s->context == context) && holds(s, address);
        if (what == 4) goes = goes && !s->real && s->context == context;
        if (what == 5) goes = goes && !s->locked;
        if (goes) *s = (struct slot){0}, count++;
    }
    answer(out, 0, 0, 0, 0, what == 6 ? 0 : count, 0);
}

/* Where in a TSB the entry of a tag access stands. */
static inline u64 place_in_tsb(u64 tag, unsigned n, u64 code) {
    return T1MMU_TSB_ENTRY_BYTES * ((tag >> shifts[code]) & ((1ull << (9 + n)) - 1));
}

static u64 pointer(u64 tag, u64 base, u64 code) {
    unsigned n = base & 15;
    return (base >> (13 + n) << (13 + n)) + place_in_tsb(tag, n, code);
}

static unsigned demap(struct unit *u, u64 *r, const uint8_t *b, uint8_t *out) {
    unsigned side = b[2];
    if (side > 1) return 6;
    if (b[0] == 5) {
        if (r[3] != 2) return 16;
        removal(u->sides[side], 5, r[0], false, 0, 0, out);
        return 0;
    }
    if (b[3] > 2 || (b[3] == 1 && side == 0)) return 7;
    if (b[0] == 4) {
        if (r[3] == 0) return 16;
        removal(u->sides[side], 4, r[0], false, selected(r, b[3]), 0, out);
        return 0;
    }
    if (b[4] > 1) return 8;
    if (r[3] == 0) return 16;
    if (!in_range(take8(b + 5))) return 11;
    removal(u->sides[side], 3, r[0], b[4], selected(r, b[3]), take8(b + 5), out);
    return 0;
}

static unsigned pointers(const u64 *r, unsigned side, uint8_t *out) {
    if (side > 1) return 6;
    if (r[3] == 0) return 16;
    u64 tag = r[20 + side], other = (tag & 0x1FFF) != 0, sizes = r[16 + 2 * side + other];
    const u64 *bases = r + 8 + 4 * side + 2 * other;
    answer(out, 3, 0, 0, 0, pointer(tag, bases[0], sizes & 7), pointer(tag, bases[1], sizes >> 8));
    return 0;
}

/* The least mode that may write a register: 1 for 1, 2, 5 and 8 to 21, and 2 for the others. */
static inline u64 least_to_write(unsigned n) { return 2 - (0x3FFF26u >> n & 1); }

/* 0 where the command was answered, else its refusal. hypervisor: whether the stream is marked as the hypervisor's. */
static unsigned act(struct unit *u, bool hypervisor, const uint8_t *b, uint8_t *out) {
    if (b[0] == 6) {
        if (b[1] > 1) return 6;
        if (!hypervisor) return 16;
        removal(u->sides[b[1]], 6, 0, 0, 0, 0, out);
        return 0;
    }
    if (b[1] > 3) return 5;
    u64 *r = u->registers[b[1]];
    unsigned x = b[2];
    switch (b[0]) {
    case 1:
        if (x > 21 || x == 6 || x == 7) return 9;
        if (!value_allowed(x, take8(b + 3))) return 10;
        if (r[3] < least_to_write(x)) return 16;
        r[x] = take8(b + 3);
        answer(out, 0, 0, 0, 0, 0, 0);
        return 0;
    case 2:
        if (x > 1) return 6;
        if (b[3] > 3) return 8;
        if (r[3] < (b[3] == 0 ? 1 : 2)) return 16;
        return insert(u, r, x, b[3], take8(b + 4), out);
    case 7:
        if (x > 4) return 6;
        if (b[3] > 2 || (x == 0 && (b[3] == 1 || (b[3] == 2 && r[3] == 0)))) return 7;
        if (b[4] > 3 || (x == 0 && b[4] != 2)) return 8;
        translate(u, b[1], x, b[3], b[4], take8(b + 5), out);
        return 0;
    case 8:
        if (x > 25 || x == 6 || x == 7) return 9;
        answer(out, 3, 0, 0, 0, r[x], 0);
        return 0;
    case 9: return pointers(r, x, out);
    case 10: return x > 1 ? 6 : r[3] == 0 ? 16 : rate(&u->records[b[1]][x], out);
    default: return demap(u, r, b, out);
    }
}

/* The state is taken to be sound. */
static struct t1mmu_report run_unchecked(struct unit *u, bool hypervisor, const uint8_t *input, size_t length, uint8_t *output, size_t room) {
    static const uint8_t widths[11] = {
        [T1MMU_WRITE] = T1MMU_WRITE_BYTES,
        [T1MMU_INSERT] = T1MMU_INSERT_BYTES,
        [T1MMU_DEMAP_PAGE] = T1MMU_DEMAP_PAGE_BYTES,
        [T1MMU_DEMAP_CONTEXT] = T1MMU_DEMAP_CONTEXT_BYTES,
        [T1MMU_DEMAP_ALL] = T1MMU_DEMAP_ALL_BYTES,
        [T1MMU_INVALIDATE] = T1MMU_INVALIDATE_BYTES,
        [T1MMU_ACCESS] = T1MMU_ACCESS_BYTES,
        [T1MMU_READ] = T1MMU_READ_BYTES,
        [T1MMU_POINTERS] = T1MMU_POINTERS_BYTES,
        [T1MMU_RATE] = T1MMU_RATE_BYTES,
    };
    struct t1mmu_report r = {0, 0, 0};
    while (r.taken < length) {
        uint8_t code = input[r.taken];
        if (code < 1 || code > 10) { r.stop = 2; break; }
        if (length - r.taken < widths[code]) { r.stop = 3; break; }
        if (room - T1MMU_ANSWER_BYTES * r.answered < T1MMU_ANSWER_BYTES) { r.stop = 4; break; }
        uint8_t *out = output + T1MMU_ANSWER_BYTES * r.answered;
        unsigned number = act(u, hypervisor, input + r.taken, out);
        if (number) answer(out, 5, number, 0, 0, 0, 0);
        r.answered++;
        r.taken += widths[code];
    }
    return r;
}

static struct t1mmu_report run(struct unit *u, bool hypervisor, const uint8_t *input, size_t length, uint8_t *output, size_t room) {
    if (!sound(u)) return (struct t1mmu_report){0, 0, 1};
    return run_unchecked(u, hypervisor, input, length, output, room);
}

/* The state is taken to be sound. */
static struct t1mmu_part hand_back_unchecked(const struct unit *u, unsigned strand, unsigned side, size_t zero_length, size_t other_length) {
    if (strand > 3) return (struct t1mmu_part){.number = 5};
    if (side > 1) return (struct t1mmu_part){.number = 6};
    const u64 *r = u->registers[strand];
    u64 tag = r[20 + side];
    unsigned other = (tag & 0x1FFF) != 0, n = r[8 + 4 * side + 2 * other] & 15;
    if ((other ? other_length : zero_length) != T1MMU_TSB_BYTES(n)) return (struct t1mmu_part){.number = 14};
    return (struct t1mmu_part){0, other, place_in_tsb(tag, n, r[16 + 2 * side + other] & 7), T1MMU_TSB_ENTRY_BYTES};
}

static struct t1mmu_part hand_back(const struct unit *u, unsigned strand, unsigned side, size_t zero_length, size_t other_length) {
    if (!sound(u)) return (struct t1mmu_part){.number = 1};
    return hand_back_unchecked(u, strand, side, zero_length, other_length);
}

/* 0 where the TSB entry was answered, else the refusal. */
static unsigned serve_entry(struct unit *u, u64 *r, unsigned side, unsigned other, const uint8_t *entry, uint8_t *out) {
    u64 tag = r[20 + side], code = r[16 + 2 * side + other] & 7, word = take8(entry + 8);
    u64 differing = take8(entry) ^ ((tag & 0x1FFF) << 48 | tag >> 22);
    if ((code == 5 ? differing >> 6 : differing) == 0 && word >> 63 && (word & 15) == code) return insert(u, r, side, 0, word, out);
    answer(out, 6, 0, 0, 0, 0, 0);
    return 0;
}

/* The state is taken to be sound. */
static struct t1mmu_answered serve_unchecked(struct unit *u, unsigned strand, unsigned side, const uint8_t *zero, size_t zero_length,
                                             const uint8_t *other, size_t other_length) {
    struct t1mmu_answered answered;
    struct t1mmu_part part = hand_back_unchecked(u, strand, side, zero_length, other_length);
    unsigned number = part.number;
    if (!number) number = serve_entry(u, u->registers[strand], side, part.other, (part.other ? other : zero) + part.start, answered.bytes);
    if (number) answer(answered.bytes, 5, number, 0, 0, 0, 0);
    return answered;
}

static struct t1mmu_answered serve(struct unit *u, unsigned strand, unsigned side, const uint8_t *zero, size_t zero_length,
                                   const uint8_t *other, size_t other_length) {
    if (!sound(u)) return (struct t1mmu_answered){{5, 1}};
    return serve_unchecked(u, strand, side, zero, zero_length, other, other_length);
}

/* The calls, with the soundness test and without. */
const struct {
    struct t1mmu_report (*run)(struct unit *, bool, const uint8_t *, size_t, uint8_t *, size_t);
    struct t1mmu_part (*hand_back)(const struct unit *, unsigned, unsigned, size_t, size_t);
    struct t1mmu_answered (*serve)(struct unit *, unsigned, unsigned, const uint8_t *, size_t, const uint8_t *, size_t);
} plain_checked = {run, hand_back, serve}, plain_unchecked = {run_unchecked, hand_back_unchecked, serve_unchecked};

/* Tag access as a trap leaves it. */
void plain_tag_access(struct unit *u, unsigned strand, unsigned side, u64 tag) { u->registers[strand][20 + side] = tag; }

size_t plain_size(void) { return sizeof(struct unit); }

/* Where the library has an outcome of a record, by its age: 0 is the latest. In its newest word are the latest and, above them, the oldest. */
struct place {
    unsigned word, bit;
};

static struct place place_of(unsigned record, unsigned seen, unsigned age) {
    unsigned latest = (seen - 1) % 64 + 1, behind = age - latest;
    if (age < latest || behind / 64 >= T1MMU_OLDER_WORDS) return (struct place){T1MMU_NEWEST + record, age % 64};
    return (struct place){T1MMU_OLDER + T1MMU_OLDER_WORDS * record + behind / 64, behind % 64};
}

/* A record to and from the library's words. */
static void load_record(struct record *r, unsigned record, const u64 *words) {
    r->seen = words[T1MMU_SEEN + record];
    for (unsigned age = 0; age < kept(r); age++) {
        struct place from = place_of(record, r->seen, age);
        unsigned at = (r->seen - 1 - age) % KEPT;
        r->missed[at / 64] |= (words[from.word] >> from.bit & 1) << at % 64;
    }
}

static void store_record(const struct record *r, unsigned record, u64 *words) {
    words[T1MMU_SEEN + record] = r->seen <= KEPT ? r->seen : KEPT + 1 + (r->seen - KEPT - 1) % 64;
    for (unsigned age = 0; age < kept(r); age++) {
        struct place to = place_of(record, r->seen, age);
        unsigned at = (r->seen - 1 - age) % KEPT;
        words[to.word] |= (r->missed[at / 64] >> at % 64 & 1) << to.bit;
    }
}

/* From and to the library's words, outside what is measured; those stored to are 0. */
void plain_load(struct unit *u, const u64 *words) {
    memset(u, 0, sizeof *u);
    memcpy(u->registers, words + T1MMU_CELL_AT(0, 0), sizeof u->registers);
    for (int i = 0; i < T1MMU_SIDES * SLOTS; i++) {
        const u64 *w = words + T1MMU_SLOT_AT(i / SLOTS, i % SLOTS);
        u->sides[i / SLOTS][i % SLOTS] = (struct slot){w[1], w[2], w[0] & 0x1FFF, w[0] >> 14, w[0] >> 13 & 1, w[3] & 1, w[3] >> 1};
    }
    for (unsigned i = 0; i < T1MMU_RECORDS; i++) load_record(&u->records[i / T1MMU_SIDES][i % T1MMU_SIDES], i, words);
}

void plain_store(const struct unit *u, u64 *words) {
    memcpy(words + T1MMU_CELL_AT(0, 0), u->registers, sizeof u->registers);
    for (int i = 0; i < T1MMU_SIDES * SLOTS; i++) {
        const struct slot *s = &u->sides[i / SLOTS][i % SLOTS];
        u64 *w = words + T1MMU_SLOT_AT(i / SLOTS, i % SLOTS);
        w[0] = (u64)s->partition << 14 | (u64)s->real << 13 | s->context;
        w[1] = s->page, w[2] = s->word, w[3] = s->locked | s->used << 1;
    }
    for (unsigned i = 0; i < T1MMU_RECORDS; i++) store_record(&u->records[i / T1MMU_SIDES][i % T1MMU_SIDES], i, words);
}
