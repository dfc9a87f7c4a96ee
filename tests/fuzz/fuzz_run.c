/*
 * A fuzz target over the two runs and the miss handler: a state, a stream, whose it is and a miss behind it are made from the fuzzer's bytes,
 * and what must hold of every run and of every serve is asked of them. The library has no coverage counters of its own, so the fuzzer is
 * guided by what it answers: a counter for each command, kind of answer and number in it, and for each stop.
 */
#include "../lent.h"

#include "t1mmu.h"

#define WORDS T1MMU_STATE_WORDS
#define MOST_INPUT 16384u
#define MOST_OUTPUT 4096u

#ifdef EXTRA_COUNTERS
__attribute__((section("__libfuzzer_extra_counters")))
#endif
static uint8_t seen[16 * 8 * 128 + 8];

#define HOLDS(fact) ((fact) ? (void)0 : fail(#fact, __LINE__))

static void fail(const char *fact, int line)
{
    fprintf(stderr, "fuzz_run.c:%d: does not hold: %s\n", line, fact);
    abort();
}

/* ---- the fuzzer's bytes, zeros behind their end ---- */

struct source {
    const uint8_t *at, *end;
};

static unsigned draw(struct source *s) { return s->at < s->end ? *s->at++ : 0; }

static uint64_t draw8(struct source *s)
{
    uint64_t v = 0;
    for (int i = 0; i < 8; i++)
        v = v << 8 | draw(s);
    return v;
}

/* ---- streams: bytes as they come, or commands of mostly plausible operands ---- */

struct stream {
    uint8_t bytes[MOST_INPUT];
    size_t length;
};

static void put(struct stream *t, unsigned byte)
{
    if (t->length < MOST_INPUT)
        t->bytes[t->length++] = (uint8_t)byte;
}

static void put8(struct stream *t, uint64_t v)
{
    for (int shift = 56; shift >= 0; shift -= 8)
        put(t, (unsigned)(v >> shift) & 0xff);
}

/* Below n, but for one byte in 64, which stays as it is. */
static unsigned mostly(struct source *s, unsigned n)
{
    unsigned b = draw(s);
    return b >= 252 ? b : b % n;
}

/* Few pages, near each other and at the ends of the ranges, so that entries meet; now and then any address. */
static uint64_t address(struct source *s)
{
    static const uint64_t base[8] = {0, 0x400000, 0x10000000, 0x7ffff0000000, 0xffff800000000000, 0xfffffffff0000000, 0x8000000000, 0x800000000000};
    unsigned b = draw(s);
    if (b >= 250)
        return draw8(s);
    return base[b % 8] + (uint64_t)(b / 8) * 0x2000 + (draw(s) & 0xf8);
}

static uint64_t entry_word(struct source *s)
{
    static const unsigned code[4] = {0, 1, 3, 5};
    unsigned b = draw(s), flags = draw(s);
    uint64_t v = b < 250, nfo = flags >> 7;
    return b == 255 ? draw8(s) : v << 63 | nfo << 62 | (uint64_t)draw(s) << 28 | (uint64_t)draw(s) << 13 | (flags & 0x7f) << 6 | code[b % 4];
}

static uint64_t value(struct source *s, unsigned number)
{
    static const uint64_t limit[T1MMU_ADDRESS_MASK + 1] = {8, 8192, 8192, 3, 4, 2};
    if (number <= T1MMU_ADDRESS_MASK)
        return mostly(s, 4) % limit[number];
    if (number < T1MMU_TSB_CONFIGURATION)
        return (uint64_t)draw(s) << 13 | (draw(s) & 0x0f);
    if (number < T1MMU_TAG_ACCESS)
        return (draw(s) & 1) | (draw(s) & 1) * 0x300u;
    return address(s) / 0x2000 * 0x2000 + mostly(s, 3);
}

static void put_write(struct source *s, struct stream *t)
{
    unsigned strand = mostly(s, T1MMU_STRANDS), number = draw(s) % T1MMU_REGISTERS;
    put(t, T1MMU_WRITE);
    put(t, strand);
    put(t, number);
    put8(t, draw(s) == 255 ? draw8(s) : value(s, number));
}

/* Tag access and an insertion, for n pages one behind the other. */
static void put_inserts(struct source *s, struct stream *t, unsigned n)
{
    unsigned strand = mostly(s, T1MMU_STRANDS), side = mostly(s, T1MMU_SIDES), flags = mostly(s, 4), context = mostly(s, 3);
    uint64_t first = address(s), word = entry_word(s);
    for (unsigned i = 0; i < n; i++) {
        put(t, T1MMU_WRITE);
        put(t, strand);
        put(t, T1MMU_TAG_ACCESS + (side & 1));
        put8(t, ((first / 0x2000 + i) * 0x2000) + context);
        put(t, T1MMU_INSERT);
        put(t, strand);
        put(t, side);
        put(t, flags);
        put8(t, word);
    }
}

static void put_access(struct source *s, struct stream *t)
{
    unsigned strand = mostly(s, T1MMU_STRANDS), kind = mostly(s, T1MMU_NONFAULTING_LOAD + 1);
    put(t, T1MMU_ACCESS);
    put(t, strand);
    put(t, kind);
    put(t, mostly(s, 3));
    put(t, kind == T1MMU_FETCH ? 2 : mostly(s, 4));
    put8(t, address(s) + (draw(s) == 255));
}

/* A command without 8-byte values, or a demap of a page. */
static void put_other(struct source *s, struct stream *t, unsigned command)
{
    put(t, command);
    if (command != T1MMU_INVALIDATE)
        put(t, mostly(s, T1MMU_STRANDS));
    put(t, command == T1MMU_READ ? draw(s) % (T1MMU_REGISTERS + 1) : mostly(s, T1MMU_SIDES));
    if (command == T1MMU_DEMAP_PAGE || command == T1MMU_DEMAP_CONTEXT)
        put(t, mostly(s, 3));
    if (command == T1MMU_DEMAP_PAGE) {
        put(t, mostly(s, 2));
        put8(t, address(s));
    }
}

static void put_command(struct source *s, struct stream *t)
{
    unsigned choice = draw(s) % 16;
    if (choice < 4)
        put_write(s, t);
    else if (choice < 7)
        put_inserts(s, t, 1);
    else if (choice == 7)
        put_inserts(s, t, draw(s) % 70);
    else if (choice < 11)
        put_access(s, t);
    else
        put_other(s, t, choice < 14 ? choice - 8 : choice == 14 ? T1MMU_READ + draw(s) % 3 : T1MMU_INVALIDATE);
}

static void shape(struct source *s, struct stream *t, unsigned commands)
{
    for (unsigned i = 0; i < commands && s->at < s->end; i++)
        put_command(s, t);
}

/* ---- the state: reset, after a first run, changed words, or another length ---- */

static struct lent state, input, output;
static uint64_t before[WORDS * 2], copy[WORDS * 2];
static struct stream first, second;
static uint8_t room_before[MOST_OUTPUT], copied[MOST_OUTPUT], scratch[MOST_INPUT / 2 * T1MMU_ANSWER_BYTES];

static uint64_t *words(void) { return (uint64_t *)(void *)state.bytes; }

/* Whether the stream is the hypervisor's; every run of it, and of parts of it, is by the same call. */
static int hypervisor;

static struct t1mmu_report run(uint64_t *on, size_t n, const uint8_t *in, size_t length, uint8_t *out, size_t room)
{
    return hypervisor ? t1mmu_run_hypervisor(on, n, in, length, out, room) : t1mmu_run(on, n, in, length, out, room);
}

/* The outcomes in the newest word of a record that has seen so many lookups; beyond 1,024 the others are the oldest kept. */
static unsigned in_newest(uint64_t n) { return n == 0 ? 0 : (unsigned)((n - 1) % 64) + 1; }

/* What a word of a record may hold at most: the newest, and the older ones by their number. */
static uint64_t most_newest(uint64_t n)
{
    return n > T1MMU_KEPT_LOOKUPS || in_newest(n) == 64 ? UINT64_MAX : (UINT64_C(1) << in_newest(n)) - 1;
}
static uint64_t most_older(uint64_t n, unsigned j) { return 64 * (j + 1) < n ? UINT64_MAX : 0; }

/* A record of any length, which no stream here is long enough for. */
static void put_record(struct source *s, unsigned record)
{
    uint64_t n = (draw(s) * 256u + draw(s)) % (T1MMU_KEPT_LOOKUPS + 64 + 1), pattern = draw8(s);
    words()[T1MMU_SEEN + record] = n;
    words()[T1MMU_NEWEST + record] = pattern & most_newest(n);
    for (unsigned j = 0; j < T1MMU_OLDER_WORDS; j++)
        words()[T1MMU_OLDER + T1MMU_OLDER_WORDS * record + j] = (pattern << j | pattern >> (63 - j)) & most_older(n, j);
}

/* Two bits a strand: each mode, and privileged twice. No command leaves mode 0 or 1, so that the host has to. */
static void put_modes(unsigned modes)
{
    static const uint8_t mode[4] = {T1MMU_PRIVILEGED, T1MMU_HYPERPRIVILEGED, T1MMU_USER, T1MMU_PRIVILEGED};
    for (unsigned strand = 0; strand < T1MMU_STRANDS; strand++)
        words()[T1MMU_CELL_AT(strand, T1MMU_MODE)] = mode[modes >> 2 * strand & 3];
}

/* Strands in any mode, since none looks up in that of reset, with what mode 0 and 1 may not write; and records. */
static void put_sound_words(struct source *s)
{
    unsigned modes = draw(s), partitions = draw(s), translation = draw(s), records = draw(s);
    put_modes(modes);
    for (unsigned strand = 0; strand < T1MMU_STRANDS; strand++) {
        words()[T1MMU_CELL_AT(strand, T1MMU_PARTITION)] = partitions >> 2 * strand & 3;
        words()[T1MMU_CELL_AT(strand, T1MMU_TRANSLATION)] = ~translation >> 2 * strand & 3;
    }
    for (unsigned record = 0; record < T1MMU_RECORDS; record++)
        if (records >> record & 1)
            put_record(s, record);
}

/* Whether the state must be sound. */
static int make_state(struct source *s, unsigned plan, int upper)
{
    static const size_t other[8] = {0, 1, WORDS - 1, WORDS + 1, T1MMU_SEEN - 1, T1MMU_SEEN, T1MMU_SEEN + 1, T1MMU_OLDER};
    if (plan == 3) {
        lent_place(&state, other[draw(s) % 8] * 8, upper);
        memset(state.bytes, 0, state.length);
        return 0;
    }
    lent_place(&state, WORDS * 8, upper);
    HOLDS(t1mmu_reset(words(), WORDS) == 0);
    first.length = 0;
    if (plan != 0) {
        put_sound_words(s);
        shape(s, &first, draw(s) % 32);
    }
    HOLDS(t1mmu_run_hypervisor(words(), WORDS, first.bytes, first.length, scratch, sizeof scratch).stop != T1MMU_STOP_UNSOUND);
    if (plan != 0 && draw(s) & 1)
        put_modes(draw(s) & 0xaa); /* modes 0 and 1 alone, so that what follows is confined */
    if (plan != 2)
        return 1;
    for (unsigned n = draw(s) % 8 + 1; n > 0; n--) {
        size_t i = (draw(s) * 256u + draw(s)) % WORDS;
        words()[i] = draw(s) & 1 ? draw8(s) : words()[i] ^ (UINT64_C(1) << draw(s) % 64);
    }
    return 0;
}

/* ---- what must hold ---- */

static int known_trap(unsigned n)
{
    return n == 0x08 || n == 0x30 || n == 0x34 || n == 0x37 || n == 0x3e || n == 0x3f || n == 0x64 || n == 0x68 || n == 0x6c;
}

static int known_code(unsigned c)
{
    return c == T1MMU_8K || c == T1MMU_64K || c == T1MMU_4M || c == T1MMU_256M || c == T1MMU_BYPASS_CODE;
}

/* Whether I/O space takes an access, by its kind. */
static int io_takes(const uint8_t *access) { return access[2] != T1MMU_ATOMIC && access[2] != T1MMU_NONFAULTING_LOAD; }

static void judge_answer(const uint8_t *sent, const uint8_t *a)
{
    unsigned command = sent[0];
    HOLDS(a[0] <= 5 && a[4] == 0 && a[5] == 0 && a[6] == 0 && a[7] == 0);
    if (a[0] == T1MMU_PHYSICAL)
        HOLDS(command == T1MMU_ACCESS && a[8] == 0 && a[9] == 0 && a[10] == 0 && a[1] < 8 && a[2] == 0 && known_code(a[3]));
    if (a[0] == T1MMU_PHYSICAL && a[3] == T1MMU_BYPASS_CODE)
        HOLDS(a[11] >> 7 == 0 ? a[1] == T1MMU_CP : a[1] == T1MMU_E && io_takes(sent));
    if (a[0] == T1MMU_TRAP)
        HOLDS(command == T1MMU_ACCESS && known_trap(a[1]) && a[3] == 0);
    if (a[0] == T1MMU_VALUE)
        HOLDS(command == T1MMU_READ || command == T1MMU_POINTERS || command == T1MMU_RATE);
    if (a[0] == T1MMU_DISPLACED)
        HOLDS(command == T1MMU_INSERT && a[2] < 8 && a[3] < 2 && a[16] >> 7 == 1);
    if (a[0] == T1MMU_REFUSED)
        HOLDS((5 <= a[1] && a[1] <= 13) || (a[1] == T1MMU_REFUSED_NO_LOOKUP && command == T1MMU_RATE)
              || (a[1] == T1MMU_REFUSED_PERMISSION && command != T1MMU_ACCESS && command != T1MMU_READ));
    seen[(command * 8u + a[0]) * 128 + ((a[1] ^ a[2] << 1) & 127)] = 1;
}

/* The bytes of each command, by its first byte. */
static const uint8_t width[T1MMU_RATE + 1] = {
    [T1MMU_WRITE] = T1MMU_WRITE_BYTES,
    [T1MMU_INSERT] = T1MMU_INSERT_BYTES,
    [T1MMU_DEMAP_PAGE] = T1MMU_DEMAP_PAGE_BYTES,
    [T1MMU_DEMAP_CONTEXT] = T1MMU_DEMAP_CONTEXT_BYTES,
    [T1MMU_DEMAP_ALL] = T1MMU_DEMAP_ALL_BYTES,
    [T1MMU_INVALIDATE] = T1MMU_INVALIDATE_BYTES,
    [T1MMU_ACCESS] = T1MMU_ACCESS_BYTES,
    [T1MMU_READ] = T1MMU_READ_BYTES,
    [T1MMU_POINTERS] = T1MMU_POINTERS_BYTES,
    [T1MMU_RATE] = T1MMU_RATE_BYTES,
};

static int known_command(unsigned byte) { return byte < sizeof width && width[byte] > 0; }

static void judge_answers(size_t answered, size_t taken)
{
    size_t at = 0;
    for (size_t i = 0; i < answered; i++) {
        HOLDS(at < input.length && known_command(input.bytes[at]));
        judge_answer(input.bytes + at, output.bytes + i * T1MMU_ANSWER_BYTES);
        at += width[input.bytes[at]];
    }
    HOLDS(at == taken);
}

/* Bytes of the lent buffers that no run may change. */
static void judge_kept(struct t1mmu_report r)
{
    size_t written = r.answered * T1MMU_ANSWER_BYTES;
    HOLDS(lent_whole(&state) && lent_whole(&input) && lent_whole(&output));
    HOLDS(memcmp(input.bytes, second.bytes, input.length) == 0);
    HOLDS(r.taken <= input.length && written <= output.length);
    HOLDS(memcmp(output.bytes + written, room_before + written, output.length - written) == 0);
}

/* The stop of a run that has taken some bytes, by the byte behind them. */
static unsigned stop_at(size_t taken, size_t answered)
{
    if (taken == input.length)
        return T1MMU_END;
    unsigned command = input.bytes[taken];
    if (!known_command(command))
        return T1MMU_STOP_UNKNOWN;
    if (input.length - taken < width[command])
        return T1MMU_STOP_INCOMPLETE;
    HOLDS(output.length - answered * T1MMU_ANSWER_BYTES < T1MMU_ANSWER_BYTES);
    return T1MMU_STOP_NO_ROOM;
}

static void judge_stop(struct t1mmu_report r, int sound)
{
    HOLDS(r.stop == T1MMU_STOP_UNSOUND ? !sound : r.stop == stop_at(r.taken, r.answered));
    if (r.stop == T1MMU_STOP_UNSOUND)
        HOLDS(r.answered == 0 && r.taken == 0 && memcmp(state.bytes, before, state.length) == 0);
    else
        HOLDS(run(words(), state.length / 8, NULL, 0, NULL, 0).stop == T1MMU_END);
    seen[sizeof seen - 8 + r.stop] = 1;
}

/* The same run once more, and in two parts, on a copy of the state and of the output: nothing differs. */
static void judge_again(struct t1mmu_report r, unsigned part)
{
    size_t n = state.length / 8, half = r.answered * part / 256 * T1MMU_ANSWER_BYTES;
    memcpy(copy, before, state.length);
    memcpy(copied, room_before, output.length);
    struct t1mmu_report q = run(copy, n, input.bytes, input.length, copied, output.length);
    HOLDS(q.answered == r.answered && q.taken == r.taken && q.stop == r.stop);
    HOLDS(memcmp(copy, state.bytes, state.length) == 0 && memcmp(copied, output.bytes, output.length) == 0);
    if (r.stop == T1MMU_STOP_UNSOUND)
        return;
    memcpy(copy, before, state.length);
    memcpy(copied, room_before, output.length);
    struct t1mmu_report a = run(copy, n, input.bytes, input.length, copied, half);
    struct t1mmu_report b = run(copy, n, input.bytes + a.taken, input.length - a.taken, copied + half, output.length - half);
    HOLDS(a.answered + b.answered == r.answered && a.taken + b.taken == r.taken && b.stop == r.stop);
    HOLDS(memcmp(copy, state.bytes, state.length) == 0 && memcmp(copied, output.bytes, output.length) == 0);
}

/* ---- who may command ---- */

/* Mode 0 may send only this, mode 1 only this besides. */
static int open_to_user(const uint8_t *sent) { return sent[0] == T1MMU_ACCESS || sent[0] == T1MMU_READ; }

static int open_to_privileged(const uint8_t *sent)
{
    if (sent[0] == T1MMU_WRITE)
        return sent[2] != T1MMU_PARTITION && sent[2] != T1MMU_MODE && sent[2] != T1MMU_TRANSLATION;
    return sent[0] == T1MMU_INSERT ? sent[3] == 0 : sent[0] != T1MMU_DEMAP_ALL;
}

/* Asked of strands that there are alone. */
static int permitted(const uint64_t *on, const uint8_t *sent)
{
    if (sent[0] == T1MMU_INVALIDATE)
        return hypervisor;
    uint64_t mode = on[T1MMU_CELL_AT(sent[1], T1MMU_MODE)];
    return mode == T1MMU_HYPERPRIVILEGED || open_to_user(sent) || (mode == T1MMU_PRIVILEGED && open_to_privileged(sent));
}

static int names_strand(const uint8_t *sent) { return sent[0] != T1MMU_INVALIDATE && sent[1] < T1MMU_STRANDS; }

/* A command that is not permitted is refused, by number 16 where nothing up to 10 is wrong with it; one that is never gets 16. */
static void judge_permission(const uint64_t *was, const uint8_t *sent, const uint8_t *a)
{
    int refused = a[0] == T1MMU_REFUSED, by_permission = refused && a[1] == T1MMU_REFUSED_PERMISSION;
    if (sent[0] != T1MMU_INVALIDATE && !names_strand(sent))
        HOLDS(refused && a[1] == T1MMU_REFUSED_STRAND);
    else if (permitted(was, sent))
        HOLDS(!by_permission);
    else
        HOLDS(by_permission || (refused && T1MMU_REFUSED_SIDE <= a[1] && a[1] <= T1MMU_REFUSED_VALUE));
}

/* A bit for each strand that a run's commands name. */
static unsigned strands_named(size_t taken)
{
    unsigned named = 0;
    for (size_t at = 0; at < taken; at += width[input.bytes[at]])
        if (names_strand(input.bytes + at))
            named |= 1u << input.bytes[at + 1];
    return named;
}

static int still_there(const uint64_t *entry, unsigned side)
{
    for (unsigned slot = 0; slot < T1MMU_SLOTS; slot++) {
        const uint64_t *now = words() + T1MMU_SLOT_AT(side, slot);
        if (memcmp(now, entry, 3 * 8) == 0 && (now[3] & 1))
            return 1;
    }
    return 0;
}

/* A guest's run whose strands are in mode 0 and 1 changes no partition and no mode, and loses no locked entry of another partition. */
static void judge_confined(struct t1mmu_report r)
{
    unsigned named = strands_named(r.taken), partitions = 0;
    for (unsigned strand = 0; strand < T1MMU_STRANDS; strand++)
        if (named >> strand & 1) {
            if (before[T1MMU_CELL_AT(strand, T1MMU_MODE)] == T1MMU_HYPERPRIVILEGED)
                return;
            partitions |= 1u << before[T1MMU_CELL_AT(strand, T1MMU_PARTITION)];
        }
    for (unsigned strand = 0; strand < T1MMU_STRANDS; strand++) {
        HOLDS(words()[T1MMU_CELL_AT(strand, T1MMU_PARTITION)] == before[T1MMU_CELL_AT(strand, T1MMU_PARTITION)]);
        HOLDS(words()[T1MMU_CELL_AT(strand, T1MMU_MODE)] == before[T1MMU_CELL_AT(strand, T1MMU_MODE)]);
    }
    for (unsigned i = 0; i < T1MMU_SIDES * T1MMU_SLOTS; i++) {
        const uint64_t *entry = before + T1MMU_SLOT_AT(0, i);
        if ((entry[3] & 1) && !(partitions >> (entry[0] >> 14) & 1))
            HOLDS(still_there(entry, i / T1MMU_SLOTS));
    }
}

/* ---- command by command: permissions, and the miss records ---- */

static uint64_t stepped[WORDS];

static const uint64_t *older(const uint64_t *on, unsigned record) { return on + T1MMU_OLDER + T1MMU_OLDER_WORDS * record; }

static uint64_t kept(uint64_t n) { return n < T1MMU_KEPT_LOOKUPS ? n : T1MMU_KEPT_LOOKUPS; }

static int record_sound(const uint64_t *on, unsigned record)
{
    uint64_t n = on[T1MMU_SEEN + record], newest = on[T1MMU_NEWEST + record];
    int sound = n <= T1MMU_KEPT_LOOKUPS + 64 && newest <= most_newest(n);
    for (unsigned j = 0; j < T1MMU_OLDER_WORDS; j++)
        sound = sound && older(on, record)[j] <= most_older(n, j);
    return sound;
}

/* The outcome of a lookup by its age: 0 is the latest. In the newest word are the latest and, above them, the oldest. */
static unsigned outcome(const uint64_t *on, unsigned record, unsigned age)
{
    unsigned latest = in_newest(on[T1MMU_SEEN + record]), word = (age - latest) / 64;
    int newest = age < latest || word >= T1MMU_OLDER_WORDS;
    return newest ? on[T1MMU_NEWEST + record] >> age % 64 & 1 : older(on, record)[word] >> (age - latest) % 64 & 1;
}

static int same_record(const uint64_t *on, const uint64_t *other, unsigned record)
{
    return on[T1MMU_SEEN + record] == other[T1MMU_SEEN + record] && on[T1MMU_NEWEST + record] == other[T1MMU_NEWEST + record]
           && memcmp(older(on, record), older(other, record), T1MMU_OLDER_WORDS * 8) == 0;
}

/* Whether an access looked up, by its answer: a trap of mode 2 is that of I/O space. */
static int looked_up(const uint8_t *a, uint64_t mode)
{
    if (a[0] == T1MMU_PHYSICAL)
        return a[3] != T1MMU_BYPASS_CODE;
    return a[0] == T1MMU_TRAP && a[1] != T1MMU_MEM_ADDRESS_NOT_ALIGNED && a[1] != T1MMU_PRIVILEGED_ACTION && mode != T1MMU_HYPERPRIVILEGED
           && a[2] != T1MMU_FAULT_OUT_OF_RANGE;
}

static int is_miss(const uint8_t *a)
{
    return a[0] == T1MMU_TRAP && (a[1] == 0x3e || a[1] == 0x3f || a[1] == 0x64 || a[1] == 0x68);
}

/* One lookup more: its outcome is the latest, and all others are older by one. */
static void judge_noted(const uint64_t *was, unsigned record, unsigned missed)
{
    uint64_t n = was[T1MMU_SEEN + record];
    HOLDS(stepped[T1MMU_SEEN + record] == (n == T1MMU_KEPT_LOOKUPS + 64 ? T1MMU_KEPT_LOOKUPS + 1 : n + 1));
    HOLDS(record_sound(stepped, record) && outcome(stepped, record, 0) == missed);
    for (unsigned age = 0; age < kept(n) && age + 1 < T1MMU_KEPT_LOOKUPS; age++)
        HOLDS(outcome(stepped, record, age + 1) == outcome(was, record, age));
}

/* A strand and a side that there are, and a mode that may ask: refused where the record is empty, else so many of a thousand. */
static void judge_rate(unsigned record, const uint8_t *a)
{
    uint64_t n = kept(stepped[T1MMU_SEEN + record]), misses = 0;
    for (unsigned age = 0; age < n; age++)
        misses += outcome(stepped, record, age);
    if (n == 0)
        HOLDS(a[0] == T1MMU_REFUSED && a[1] == T1MMU_REFUSED_NO_LOOKUP);
    else
        HOLDS(a[0] == T1MMU_VALUE && all_are(a + 8, 6, 0) && a[14] * 256u + a[15] == misses * 1000 / n && all_are(a + 16, 8, 0));
}

/* A lookup changes the record of its strand and side, and nothing else changes any. */
static void judge_lookup(const uint64_t *was, const uint8_t *sent, const uint8_t *a)
{
    int looks = sent[0] == T1MMU_ACCESS && a[0] != T1MMU_REFUSED && looked_up(a, was[T1MMU_CELL_AT(sent[1], T1MMU_MODE)]);
    unsigned noted = looks ? (unsigned)T1MMU_RECORD_OF(sent[1], sent[2] != T1MMU_FETCH) : T1MMU_RECORDS;
    for (unsigned record = 0; record < T1MMU_RECORDS; record++)
        if (record == noted)
            judge_noted(was, record, (unsigned)is_miss(a));
        else
            HOLDS(same_record(was, stepped, record));
    if (sent[0] == T1MMU_RATE)
        HOLDS(a[0] == T1MMU_VALUE || a[0] == T1MMU_REFUSED);
    if (sent[0] == T1MMU_RATE && sent[1] < T1MMU_STRANDS && sent[2] < T1MMU_SIDES && permitted(was, sent))
        judge_rate(T1MMU_RECORD_OF(sent[1], sent[2]), a);
}

/* The run's commands one by one. */
static void judge_steps(struct t1mmu_report r)
{
    for (unsigned record = 0; record < T1MMU_RECORDS; record++)
        HOLDS(record_sound(before, record));
    memcpy(stepped, before, sizeof stepped);
    for (size_t at = 0; at < r.taken; at += width[input.bytes[at]]) {
        const uint8_t *sent = input.bytes + at;
        uint8_t answer[T1MMU_ANSWER_BYTES];
        memcpy(copy, stepped, sizeof stepped);
        HOLDS(run(stepped, WORDS, sent, width[sent[0]], answer, sizeof answer).answered == 1);
        judge_permission(copy, sent, answer);
        if (answer[0] == T1MMU_REFUSED)
            HOLDS(memcmp(copy, stepped, sizeof stepped) == 0);
        judge_lookup(copy, sent, answer);
    }
    HOLDS(memcmp(stepped, state.bytes, sizeof stepped) == 0);
}

/* ---- a miss, on the state that the run left ---- */

#define MOST_N 2u
#define MOST_TABLE (T1MMU_TSB_BYTES(MOST_N) + 1)
#define SERVE 15u /* beside the commands in seen */

struct miss {
    uint8_t strand, side;
    unsigned n, length, turned; /* turned: the bit of the entry that does not fit, 128 and above none */
    uint64_t word;
};

static struct lent tables[2];
static uint8_t lent_bytes[2][MOST_TABLE];

static uint64_t eight(const uint8_t *at)
{
    uint64_t v = 0;
    for (int i = 0; i < 8; i++)
        v = v << 8 | at[i];
    return v;
}

static struct miss draw_miss(struct source *s)
{
    struct miss m;
    m.strand = (uint8_t)mostly(s, T1MMU_STRANDS);
    m.side = (uint8_t)mostly(s, T1MMU_SIDES);
    m.n = draw(s) % 8;
    m.n = m.n > MOST_N ? 0 : m.n;
    m.length = draw(s);
    m.turned = draw(s);
    m.word = entry_word(s);
    return m;
}

static uint64_t cell(const struct miss *m, unsigned number) { return words()[T1MMU_CELL_AT(m->strand, number)]; }

/* What tag access picks: the table, its N, and the size code of ps0. Asked of a sound state, strand and side alone. */
static uint64_t tag_of(const struct miss *m) { return cell(m, T1MMU_TAG_ACCESS + m->side); }
static unsigned table_of(const struct miss *m) { return tag_of(m) % 8192 != 0; }
static unsigned n_of(const struct miss *m) { return cell(m, T1MMU_TSB_BASE_OF(m->side, table_of(m), 0)) % 16; }
static unsigned code_of(const struct miss *m) { return cell(m, T1MMU_TSB_CONFIGURATION_OF(m->side, table_of(m))) % 8; }

static size_t place_of(const struct miss *m)
{
    static const unsigned shift[T1MMU_256M + 1] = {13, 16, 0, 22, 0, 28};
    return (tag_of(m) >> shift[code_of(m)]) % (UINT64_C(1) << (9 + n_of(m))) * T1MMU_TSB_ENTRY_BYTES;
}

/* A small N in both base registers, so that a table can be lent, and any ps0; by the host, since mode 0 may not write them. */
static void put_tsb(const struct miss *m)
{
    static const unsigned code[4] = {0, 1, 3, 5};
    for (unsigned nonzero = 0; nonzero < 2; nonzero++) {
        words()[T1MMU_CELL_AT(m->strand, T1MMU_TSB_BASE_OF(m->side, nonzero, 0))] = (uint64_t)m->turned << 13 | m->n;
        words()[T1MMU_CELL_AT(m->strand, T1MMU_TSB_CONFIGURATION_OF(m->side, nonzero))] = code[m->length / 32 % 4];
    }
}

/* Zeros, but for the entry of tag access: its tag and the drawn word of ps0, with one bit turned. */
static void put_entry(const struct miss *m, uint8_t *at)
{
    uint64_t tag = tag_of(m) % 8192 << 48 | tag_of(m) >> 22, word = m->word / 16 * 16 + code_of(m);
    for (unsigned i = 0; i < 8; i++) {
        at[i] = (uint8_t)(tag >> (56 - 8 * i));
        at[8 + i] = (uint8_t)(word >> (56 - 8 * i));
    }
    if (m->turned < 8 * T1MMU_TSB_ENTRY_BYTES)
        at[m->turned / 8] ^= (uint8_t)(0x80u >> m->turned % 8);
}

static void make_tables(const struct miss *m, int good, int upper)
{
    static const int off[8] = {0, 0, 0, 0, 0, -1, 1, -16};
    size_t right = T1MMU_TSB_BYTES(m->n), used = right + (size_t)off[m->length % 8];
    static const size_t any[4] = {0, 1, T1MMU_TSB_BYTES(0) - 1, T1MMU_TSB_BYTES(1)};
    unsigned which = good ? table_of(m) : 0;
    lent_place(&tables[which], used, upper);
    lent_place(&tables[1 - which], any[m->length / 8 % 4], upper);
    for (unsigned i = 0; i < 2; i++)
        memset(tables[i].bytes, 0, tables[i].length);
    if (good && place_of(m) + T1MMU_TSB_ENTRY_BYTES <= used)
        put_entry(m, tables[which].bytes + place_of(m));
    for (unsigned i = 0; i < 2; i++)
        memcpy(lent_bytes[i], tables[i].bytes, tables[i].length);
}

/* Why both calls are refused, or 0. */
static unsigned expected_number(const struct miss *m, int sound)
{
    if (!sound)
        return T1MMU_REFUSED_STATE;
    if (m->strand >= T1MMU_STRANDS)
        return T1MMU_REFUSED_STRAND;
    if (m->side >= T1MMU_SIDES)
        return T1MMU_REFUSED_SIDE;
    return tables[table_of(m)].length == T1MMU_TSB_BYTES(n_of(m)) ? 0 : T1MMU_REFUSED_TABLE;
}

static int entry_fits(const struct miss *m, const uint8_t *at)
{
    uint64_t tag = eight(at), word = eight(at + 8), key = tag_of(m);
    unsigned free_bits = code_of(m) == T1MMU_256M ? 6 : 0;
    return tag >> 48 == key % 8192 && (tag & UINT64_C(0xffffffffffff)) >> free_bits == key >> (22 + free_bits) && word >> 63 == 1
           && word % 16 == code_of(m);
}

static struct t1mmu_answered serve(uint64_t *on, const struct miss *m)
{
    return t1mmu_serve(on, state.length / 8, m->strand, m->side, tables[0].bytes, tables[0].length, tables[1].bytes, tables[1].length);
}

static int is_same(const void *one, const void *two) { return memcmp(one, two, state.length) == 0; }

/* A serve that fits is, in any mode, the insertion by command of mode 1; and once more it strikes its own entry and takes its slot again. */
static void judge_fit(const struct miss *m, const uint8_t *word, struct t1mmu_answered a)
{
    uint8_t command[T1MMU_INSERT_BYTES] = {T1MMU_INSERT, m->strand, m->side, 0}, answer[T1MMU_ANSWER_BYTES];
    size_t slots = T1MMU_SLOT_AT(0, 0), untouched = T1MMU_SLOT_AT(1 - m->side, 0), side = T1MMU_SLOT_AT(1, 0) - slots;
    uint64_t *mode = &copy[T1MMU_CELL_AT(m->strand, T1MMU_MODE)];
    memcpy(command + 4, word, 8);
    memcpy(copy, before, state.length);
    *mode = T1MMU_PRIVILEGED;
    HOLDS(run(copy, WORDS, command, sizeof command, answer, sizeof answer).answered == 1);
    *mode = before[T1MMU_CELL_AT(m->strand, T1MMU_MODE)];
    HOLDS(memcmp(answer, a.bytes, sizeof answer) == 0 && is_same(copy, state.bytes));
    HOLDS(memcmp(words(), before, slots * 8) == 0 && memcmp(words() + untouched, before + untouched, side * 8) == 0);
    HOLDS(memcmp(words() + T1MMU_SEEN, before + T1MMU_SEEN, (WORDS - T1MMU_SEEN) * 8) == 0);
    if (a.bytes[0] == T1MMU_REFUSED) {
        HOLDS(11 <= a.bytes[1] && a.bytes[1] <= 13 && is_same(before, state.bytes));
        return;
    }
    HOLDS(a.bytes[0] == T1MMU_DONE || a.bytes[0] == T1MMU_DISPLACED);
    struct t1mmu_answered again = serve(copy, m);
    HOLDS(all_are(again.bytes, sizeof again.bytes, 0) && is_same(copy, state.bytes));
}

static void judge_miss(const struct miss *m, int upper)
{
    int sound = run(words(), state.length / 8, NULL, 0, NULL, 0).stop != T1MMU_STOP_UNSOUND;
    int good = sound && m->strand < T1MMU_STRANDS && m->side < T1MMU_SIDES;
    if (good)
        put_tsb(m);
    make_tables(m, good, upper);
    unsigned number = expected_number(m, sound);
    memcpy(before, state.bytes, state.length);
    struct t1mmu_part p = t1mmu_hand_back(words(), state.length / 8, m->strand, m->side, tables[0].bytes, tables[0].length, tables[1].bytes,
                                          tables[1].length);
    HOLDS(p.number == number && is_same(before, state.bytes));
    HOLDS(number == 0 ? p.other == table_of(m) && p.start == place_of(m) && p.length == T1MMU_TSB_ENTRY_BYTES
                      : p.other == 0 && p.start == 0 && p.length == 0);
    struct t1mmu_answered a = serve(words(), m);
    seen[(SERVE * 8u + a.bytes[0]) * 128 + (a.bytes[1] & 127)] = 1;
    const uint8_t *at = tables[p.other].bytes + p.start;
    if (number == 0 && entry_fits(m, at)) {
        judge_fit(m, at + 8, a);
    } else {
        HOLDS(a.bytes[0] == (number == 0 ? T1MMU_NOT_IN_TABLE : T1MMU_REFUSED) && a.bytes[1] == number);
        HOLDS(all_are(a.bytes + 2, sizeof a.bytes - 2, 0) && is_same(before, state.bytes));
    }
    HOLDS(lent_whole(&state) && lent_whole(&tables[0]) && lent_whole(&tables[1]));
    for (unsigned i = 0; i < 2; i++)
        HOLDS(memcmp(lent_bytes[i], tables[i].bytes, tables[i].length) == 0);
}

/* ---- one run, and one miss behind it ---- */

static void make_buffers(struct source *s, int raw, int upper)
{
    size_t room = (draw(s) * 256u + draw(s)) % MOST_OUTPUT;
    second.length = 0;
    if (raw)
        while (s->at < s->end)
            put(&second, draw(s));
    else
        shape(s, &second, 64);
    lent_place(&input, second.length, upper);
    memcpy(input.bytes, second.bytes, second.length);
    lent_place(&output, room, upper);
    for (size_t i = 0; i < room; i++)
        output.bytes[i] = room_before[i] = (uint8_t)(i * 7 + 1);
}

int LLVMFuzzerTestOneInput(const uint8_t *data, size_t size)
{
    struct source s = {data, data + size};
    if (state.open == NULL) {
        state = lent_new((WORDS + 1) * 8);
        input = lent_new(MOST_INPUT);
        output = lent_new(MOST_OUTPUT);
        tables[0] = lent_new(MOST_TABLE);
        tables[1] = lent_new(MOST_TABLE);
    }
    memset(seen, 0, sizeof seen);
    unsigned plan = draw(&s), part = draw(&s);
    struct miss miss = draw_miss(&s);
    hypervisor = plan >> 4 & 1;
    int sound = make_state(&s, plan & 3, plan >> 2 & 1);
    make_buffers(&s, plan >> 3 & 1, plan >> 2 & 1);
    memcpy(before, state.bytes, state.length);
    struct t1mmu_report r = run(words(), state.length / 8, input.bytes, input.length, output.bytes, output.length);
    judge_kept(r);
    judge_stop(r, sound);
    judge_answers(r.answered, r.taken);
    judge_again(r, part);
    if (r.stop != T1MMU_STOP_UNSOUND) {
        judge_steps(r);
        if (!hypervisor)
            judge_confined(r);
    }
    judge_miss(&miss, plan >> 2 & 1);
    return 0;
}
