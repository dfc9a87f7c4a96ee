/*
 * The C boundary of the library: lengths, rooms and pointers that a caller may get wrong, with every buffer guarded on both sides.
 * What is expected is written here from the documents, not taken from the library.
 */
#include "lent.h"

#include "t1mmu.h"

#define WORDS T1MMU_STATE_WORDS
#define ANSWER T1MMU_ANSWER_BYTES

static unsigned long compared, differ;

static void expect(int holds, const char *what, long at)
{
    compared++;
    if (!holds && differ++ < 20)
        printf("boundary: %s (%ld)\n", what, at);
}

/* ---- lent buffers: state, input, output ---- */

static struct lent state, input, output;
static uint64_t before[2 * WORDS]; /* a state, to compare with */

static uint64_t *words(void) { return (uint64_t *)(void *)state.bytes; }

static void expect_guards(long at)
{
    expect(lent_whole(&state), "guards of the state changed", at);
    expect(lent_whole(&input), "guards of the input changed", at);
    expect(lent_whole(&output), "guards of the output changed", at);
}

static void place_reset(int upper)
{
    lent_place(&state, WORDS * 8, upper);
    expect(t1mmu_reset(words(), WORDS) == 0, "reset of a state of the right length", upper);
}

static void place_input(const uint8_t *bytes, size_t n, int upper)
{
    lent_place(&input, n, upper);
    memcpy(input.bytes, bytes, n);
}

static void place_output(size_t n, int upper)
{
    lent_place(&output, n, upper);
    memset(output.bytes, 0x5a, n);
}

static int is(struct t1mmu_report r, size_t answered, size_t taken, unsigned stop)
{
    return r.answered == answered && r.taken == taken && r.stop == stop;
}

/* The call that is tried: for a guest's stream, or for the hypervisor's. */
typedef struct t1mmu_report runs(uint64_t *, size_t, const uint8_t *, size_t, uint8_t *, size_t);
static runs *const calls[] = {t1mmu_run, t1mmu_run_hypervisor};
#define CALLS (sizeof calls / sizeof *calls)
static runs *call = t1mmu_run;

static struct t1mmu_report run(void) { return call(words(), state.length / 8, input.bytes, input.length, output.bytes, output.length); }

static int state_kept(void) { return memcmp(state.bytes, before, state.length) == 0; }

/* ---- the printed run of document 01 ---- */

enum { COMMANDS = 5 };
static const uint8_t printed[] = {
    0x01, 0, 4, 0, 0, 0, 0, 0, 0, 0, 3,             /* translation on */
    0x01, 0, 3, 0, 0, 0, 0, 0, 0, 0, 0,             /* mode 0 */
    0x07, 0, 1, 0, 3, 0, 0, 0, 0, 0, 0x40, 0x20, 8, /* a load that misses */
    0x02, 0, 1, 0, 0x80, 0, 0, 0, 0, 8, 4, 0x40,    /* the insertion, which mode 0 may not send */
    0x07, 0, 1, 0, 3, 0, 0, 0, 0, 0, 0x40, 0x20, 8, /* the load again */
};
/* Where its commands begin and end. */
#define END_1 T1MMU_WRITE_BYTES
#define END_2 (END_1 + T1MMU_WRITE_BYTES)
#define END_3 (END_2 + T1MMU_ACCESS_BYTES)
#define END_4 (END_3 + T1MMU_INSERT_BYTES)
static const size_t ends[COMMANDS + 1] = {0, END_1, END_2, END_3, END_4, sizeof printed};
static const uint8_t answers[COMMANDS][ANSWER] = {
    {0},
    {0},
    {2, 0x68, 0, 0, 0, 0, 0, 0, 0, 0, 0, 0, 0, 0x40, 0x20, 8, 0, 0, 0, 0, 0, 0x40, 0x20, 0},
    {5, 16},
    {2, 0x68, 0, 0, 0, 0, 0, 0, 0, 0, 0, 0, 0, 0x40, 0x20, 8, 0, 0, 0, 0, 0, 0x40, 0x20, 0},
};
/* What its load gets where the page is there. */
static const uint8_t loaded[ANSWER] = {1, 1, 0, 0, 0, 0, 0, 0, 0, 0, 0, 0, 0, 8, 0, 8};

/* Whether the output has the first n answers of the printed run and nothing behind them. */
static int has_answers(size_t n)
{
    return memcmp(output.bytes, answers, n * ANSWER) == 0 && all_are(output.bytes + n * ANSWER, output.length - n * ANSWER, 0x5a);
}

/* ---- what is tried ---- */

/* Without the miss records a state had T1MMU_SEEN words, up to version 2. */
static const size_t wrong[] = {0, 1, T1MMU_SLOT_AT(0, 0) - 1, T1MMU_SEEN - 1, T1MMU_SEEN, T1MMU_SEEN + 1, WORDS - 1, WORDS + 1, 2 * WORDS};
#define WRONGS (sizeof wrong / sizeof *wrong)

static void constants(void)
{
    expect(t1mmu_version() == T1MMU_VERSION, "version", 0);
    expect(t1mmu_state_words() == WORDS, "state words", 0);
    expect(T1MMU_SLOT_AT(T1MMU_SIDES, 0) == T1MMU_SEEN, "the words behind the last slot", 0);
    expect(T1MMU_SEEN + T1MMU_RECORDS == T1MMU_NEWEST && T1MMU_NEWEST + T1MMU_RECORDS == T1MMU_OLDER
               && T1MMU_OLDER + T1MMU_RECORDS * T1MMU_OLDER_WORDS == WORDS, "the words of the records", 0);
    expect(T1MMU_RECORD_OF(0, 1) == 1 && T1MMU_RECORD_OF(1, 0) == 2 && T1MMU_RECORD_OF(T1MMU_STRANDS, 0) == T1MMU_RECORDS, "records", 0);
    expect(T1MMU_TSB_BASE_OF(0, 1, 0) == 10 && T1MMU_TSB_BASE_OF(1, 1, 1) == 15, "TSB base registers", 0);
    expect(T1MMU_TSB_CONFIGURATION_OF(0, 1) == 17 && T1MMU_TSB_CONFIGURATION_OF(1, 1) == 19, "TSB configuration registers", 0);
    expect(sizeof(struct t1mmu_report) == 24 && offsetof(struct t1mmu_report, stop) == 16, "layout of the report", 0);
    expect(sizeof(struct t1mmu_tte) == 104 && offsetof(struct t1mmu_tte, size) == 96, "layout of the fields", 0);
    expect(sizeof(struct t1mmu_part) == 24 && offsetof(struct t1mmu_part, other) == 1 && offsetof(struct t1mmu_part, start) == 8
               && offsetof(struct t1mmu_part, length) == 16, "layout of a part", 0);
    expect(sizeof(struct t1mmu_answered) == ANSWER, "layout of what a serve answers", 0);
    expect(T1MMU_PAGE_BYTES(T1MMU_8K) == 1u << 13 && T1MMU_PAGE_BYTES(T1MMU_64K) == 1u << 16 && T1MMU_PAGE_BYTES(T1MMU_4M) == 1u << 22
               && T1MMU_PAGE_BYTES(T1MMU_256M) == 1u << 28, "bytes of a page", 0);
    expect(T1MMU_TSB_BYTES(0) == 8192 && T1MMU_TSB_BYTES(15) == 268435456, "bytes of a TSB", 0);
}

/* The register whose cell a word is; none is T1MMU_CELLS. */
static unsigned register_at(size_t word)
{
    for (unsigned strand = 0; strand < T1MMU_STRANDS; strand++)
        for (unsigned number = 0; number < T1MMU_CELLS; number++)
            if (T1MMU_CELL_AT(strand, number) == word)
                return number;
    return T1MMU_CELLS;
}

static void expect_reset(const char *what)
{
    for (size_t i = 0; i < WORDS; i++)
        expect(words()[i] == (register_at(i) == T1MMU_MODE ? 2u : 0u), what, (long)i);
}

static void resets(int upper)
{
    place_reset(upper);
    expect_reset("word of the reset state");
    expect(lent_whole(&state), "reset changed a guard", upper);
    for (size_t k = 0; k < WRONGS; k++) {
        lent_place(&state, wrong[k] * 8, upper);
        memset(state.bytes, 0x33, state.length);
        expect(t1mmu_reset(words(), wrong[k]) == 1, "reset of a wrong length", (long)wrong[k]);
        expect(all_are(state.bytes, state.length, 0x33) && lent_whole(&state), "reset of a wrong length changed bytes", (long)wrong[k]);
    }
    expect(t1mmu_reset(NULL, 0) == 1, "reset of no state", 0);
}

/* A state of a wrong length, zeros too: stop 1, nothing changed. */
static void wrong_lengths(int upper)
{
    for (size_t k = 0; k < WRONGS; k++) {
        lent_place(&state, wrong[k] * 8, upper);
        memset(state.bytes, 0, state.length);
        place_input(printed, sizeof printed, upper);
        place_output(2 * COMMANDS * ANSWER, upper);
        expect(is(run(), 0, 0, 1), "run on a wrong length", (long)wrong[k]);
        expect(all_are(state.bytes, state.length, 0) && has_answers(0), "run on a wrong length changed bytes", (long)wrong[k]);
        expect_guards((long)wrong[k]);
    }
    expect(is(call(NULL, 0, NULL, 0, NULL, 0), 0, 0, 1), "run of nothing at all", 0);
}

static void empty_ranges(int upper)
{
    place_reset(upper);
    place_input(printed, sizeof printed, upper);
    place_output(2 * ANSWER, upper);
    expect(is(call(words(), WORDS, NULL, 0, NULL, 0), 0, 0, 0), "null input, null output", upper);
    expect(is(call(words(), WORDS, NULL, 0, output.bytes, output.length), 0, 0, 0), "null input", upper);
    expect(is(call(words(), WORDS, input.bytes, 0, NULL, 0), 0, 0, 0), "empty input", upper);
    expect(is(call(words(), WORDS, input.bytes, input.length, NULL, 0), 0, 0, 4), "null output", upper);
    expect_reset("an empty run changed the state");
    expect(has_answers(0), "an empty run wrote", upper);
    expect_guards(upper);
}

/* The first `commands` of the printed run with each room. */
static void rooms(size_t commands, int upper)
{
    for (size_t room = 0; room <= 2 * ANSWER + 1; room++) {
        size_t n = room / ANSWER < commands ? room / ANSWER : commands;
        place_reset(upper);
        place_input(printed, ends[commands], upper);
        place_output(room, upper);
        expect(is(run(), n, ends[n], n < commands ? 4 : 0), "report at a room", (long)room);
        expect(has_answers(n), "answers at a room", (long)room);
        expect(memcmp(input.bytes, printed, input.length) == 0, "input changed", (long)room);
        expect_guards((long)room);
    }
}

/* Every start of the printed run: whole commands are answered, and a part of one stops with 3. */
static void prefixes(int upper)
{
    for (size_t length = 0; length <= sizeof printed; length++) {
        size_t n = 0;
        while (n < COMMANDS && ends[n + 1] <= length)
            n++;
        place_reset(upper);
        place_input(printed, length, upper);
        place_output(COMMANDS * ANSWER + 10, upper);
        expect(is(run(), n, ends[n], length == ends[n] ? 0 : 3), "report of a start of the run", (long)length);
        expect(has_answers(n), "answers of a start of the run", (long)length);
        expect_guards((long)length);
    }
}

static void unknown_commands(int upper)
{
    for (unsigned byte = 0; byte < 256; byte++) {
        uint8_t bytes[1] = {(uint8_t)byte};
        place_reset(upper);
        place_input(bytes, 1, upper);
        place_output(ANSWER, upper);
        expect(is(run(), 0, 0, 1 <= byte && byte <= 10 ? 3 : 2), "a single byte", (long)byte);
        expect(has_answers(0), "a single byte wrote", (long)byte);
        expect_guards((long)byte);
    }
}

/* Everything of a stream's bytes and of its room, by the call that is tried. */
static void stream_lengths(int upper)
{
    wrong_lengths(upper);
    empty_ranges(upper);
    for (size_t commands = 0; commands <= COMMANDS; commands++)
        rooms(commands, upper);
    prefixes(upper);
    unknown_commands(upper);
}

/* One word of the reset state set to all ones: sound only in registers 20 to 25, which hold any value. */
static void unsound_words(void)
{
    for (size_t i = 0; i < WORDS; i++) {
        int sound = 20 <= register_at(i) && register_at(i) <= 25;
        place_reset(1);
        place_input(printed, sizeof printed, 1);
        place_output(sizeof answers, 1);
        words()[i] = UINT64_MAX;
        expect(sound ? is(run(), COMMANDS, sizeof printed, 0) : is(run(), 0, 0, 1), "a word of ones", (long)i);
        expect(sound || (words()[i] == UINT64_MAX && has_answers(0)), "an unsound state changed", (long)i);
        expect_guards((long)i);
    }
}

/* The printed run in mode 1 leaves its entry in the lowest slot of the data side: owner 0, page, word, the used bit. */
static void inserted(void)
{
    static const uint64_t slot[T1MMU_SLOT_WORDS] = {0, 0x402000, 0x8000000000080440, 2};
    place_reset(1);
    place_input(printed, sizeof printed, 1);
    input.bytes[END_2 - 1] = T1MMU_PRIVILEGED;
    place_output(sizeof answers, 1);
    expect(is(run(), COMMANDS, sizeof printed, 0), "the printed run in mode 1", 0);
    expect(memcmp(output.bytes, answers, 3 * ANSWER) == 0, "its answers up to the insertion", 0);
    expect(all_are(output.bytes + 3 * ANSWER, ANSWER, 0) && memcmp(output.bytes + 4 * ANSWER, loaded, ANSWER) == 0, "and those behind", 0);
    expect(memcmp(words() + T1MMU_SLOT_AT(T1MMU_DATA, 0), slot, sizeof slot) == 0, "the slot that was filled", 0);
    expect(words()[T1MMU_CELL_AT(0, T1MMU_TRANSLATION)] == 3, "the register that was written", 0);
}

/* ---- who may command ---- */

/* Strand 1 in a mode, all others in another; an entry on either side, for demaps and invalidations to meet, and a lookup kept. */
static void place_modes(unsigned mode, unsigned others)
{
    place_reset(1);
    for (unsigned strand = 0; strand < T1MMU_STRANDS; strand++)
        words()[T1MMU_CELL_AT(strand, T1MMU_MODE)] = strand == 1 ? mode : others;
    for (unsigned side = 0; side < T1MMU_SIDES; side++) {
        words()[T1MMU_SLOT_AT(side, 5) + 2] = UINT64_C(0x8000000000080440);
        words()[T1MMU_SEEN + T1MMU_RECORD_OF(1, side)] = 1;
    }
    memcpy(before, state.bytes, state.length);
}

/* A command whose operands are in order up to number 10, in every mode and by both calls: number 16 below the least mode, and never from it on. */
static void expect_least(const uint8_t *command, size_t n, unsigned least, long at)
{
    for (unsigned mode = 0; mode <= T1MMU_HYPERPRIVILEGED; mode++)
        for (unsigned others = 0; others <= T1MMU_HYPERPRIVILEGED; others++)
            for (size_t k = 0; k < CALLS; k++) {
                call = calls[k];
                place_modes(mode, others);
                place_input(command, n, 1);
                place_output(ANSWER, 1);
                expect(is(run(), 1, n, 0), "a command in a mode", at);
                int refused = output.bytes[0] == 5 && output.bytes[1] == 16;
                expect(refused == (mode < least), "whether a mode may send a command", at);
                expect(!refused || (state_kept() && all_are(output.bytes + 2, ANSWER - 2, 0)), "what a mode may not send", at);
                expect_guards(at);
            }
    call = t1mmu_run;
}

/* A command by both calls with strand 1 in mode 0: refused with the number that is asked first, and nothing changes. */
static void expect_first(const uint8_t *command, size_t n, unsigned number, long at)
{
    for (size_t k = 0; k < CALLS; k++) {
        call = calls[k];
        place_modes(T1MMU_USER, T1MMU_HYPERPRIVILEGED);
        for (unsigned side = 0; side < T1MMU_SIDES; side++)
            words()[T1MMU_CELL_AT(1, T1MMU_TAG_ACCESS + side)] = UINT64_C(1) << 47;
        memcpy(before, state.bytes, state.length);
        place_input(command, n, 1);
        place_output(ANSWER, 1);
        expect(is(run(), 1, n, 0) && output.bytes[0] == 5 && output.bytes[1] == number, "the number that is asked first", at);
        expect(state_kept(), "a refused command changed the state", at);
    }
    call = t1mmu_run;
}

/* By document 02: what mode 1 may write, and what no mode may. */
static int guest_register(unsigned n) { return n == 1 || n == 2 || n == 5 || (8 <= n && n <= 21); }
static int no_register(unsigned n) { return n == 6 || n == 7 || n > 21; }

static void permissions(void)
{
    for (unsigned n = 0; n < 256; n++) {
        const uint8_t write[T1MMU_WRITE_BYTES] = {T1MMU_WRITE, 1, (uint8_t)n};
        const uint8_t insert[T1MMU_INSERT_BYTES] = {T1MMU_INSERT, 1, n & 1, (uint8_t)n, 0x80, 0, 0, 0, 0, 8, 4, 0x40};
        if (no_register(n))
            expect_first(write, sizeof write, 9, (long)n);
        else
            expect_least(write, sizeof write, guest_register(n) ? 1 : 2, (long)n);
        if (n > (T1MMU_REAL | T1MMU_LOCKED))
            expect_first(insert, sizeof insert, 8, (long)n);
        else
            expect_least(insert, sizeof insert, n == 0 ? 1 : 2, (long)n);
    }
    for (uint8_t side = 0; side < T1MMU_SIDES; side++) {
        for (uint8_t flags = 0; flags <= T1MMU_REAL; flags++)
            expect_least((const uint8_t[T1MMU_DEMAP_PAGE_BYTES]){T1MMU_DEMAP_PAGE, 1, side, 2, flags}, T1MMU_DEMAP_PAGE_BYTES, 1, side);
        expect_least((const uint8_t[]){T1MMU_DEMAP_CONTEXT, 1, side, 0}, T1MMU_DEMAP_CONTEXT_BYTES, 1, side);
        expect_least((const uint8_t[]){T1MMU_DEMAP_ALL, 1, side}, T1MMU_DEMAP_ALL_BYTES, 2, side);
        expect_least((const uint8_t[]){T1MMU_POINTERS, 1, side}, T1MMU_POINTERS_BYTES, 1, side);
        expect_least((const uint8_t[]){T1MMU_RATE, 1, side}, T1MMU_RATE_BYTES, 1, side);
    }
    for (uint8_t kind = 0; kind <= T1MMU_NONFAULTING_LOAD; kind++)
        expect_least((const uint8_t[T1MMU_ACCESS_BYTES]){T1MMU_ACCESS, 1, kind, 0, 2}, T1MMU_ACCESS_BYTES, 0, kind);
    for (uint8_t n = 0; n < T1MMU_REGISTERS; n++)
        expect_least((const uint8_t[]){T1MMU_READ, 1, n}, T1MMU_READ_BYTES, 0, n);
}

/* Numbers 5 to 10 come before 16, and 11, 12 and 15 behind it. */
static void permission_order(void)
{
    expect_first((const uint8_t[T1MMU_WRITE_BYTES]){T1MMU_WRITE, 4, 3}, T1MMU_WRITE_BYTES, 5, 1);
    expect_first((const uint8_t[T1MMU_WRITE_BYTES]){T1MMU_WRITE, 1, 1, 0, 0, 0, 0, 0, 0, 0x23, 0x28}, T1MMU_WRITE_BYTES, 10, 1);
    expect_first((const uint8_t[T1MMU_INSERT_BYTES]){T1MMU_INSERT, 1, 2, 4}, T1MMU_INSERT_BYTES, 6, 2);
    expect_first((const uint8_t[T1MMU_INSERT_BYTES]){T1MMU_INSERT, 1, 1, 0}, T1MMU_INSERT_BYTES, 16, 2);
    expect_first((const uint8_t[T1MMU_DEMAP_PAGE_BYTES]){T1MMU_DEMAP_PAGE, 1, 0, 1, 2}, T1MMU_DEMAP_PAGE_BYTES, 7, 3);
    expect_first((const uint8_t[T1MMU_DEMAP_PAGE_BYTES]){T1MMU_DEMAP_PAGE, 1, 1, 1, 2}, T1MMU_DEMAP_PAGE_BYTES, 8, 3);
    expect_first((const uint8_t[T1MMU_DEMAP_PAGE_BYTES]){T1MMU_DEMAP_PAGE, 1, 1, 1, 1, 0, 0, 0x80}, T1MMU_DEMAP_PAGE_BYTES, 16, 3);
    expect_first((const uint8_t[]){T1MMU_DEMAP_CONTEXT, 1, 1, 3}, T1MMU_DEMAP_CONTEXT_BYTES, 7, 4);
    for (uint8_t command = T1MMU_POINTERS; command <= T1MMU_RATE; command++) {
        expect_first((const uint8_t[]){command, 4, 2}, T1MMU_RATE_BYTES, 5, command);
        expect_first((const uint8_t[]){command, 1, 2}, T1MMU_RATE_BYTES, 6, command);
    }
    expect_first((const uint8_t[]){T1MMU_DEMAP_ALL, 1, 2}, T1MMU_DEMAP_ALL_BYTES, 6, 5);
    place_reset(1);
    words()[T1MMU_CELL_AT(2, T1MMU_MODE)] = T1MMU_USER;
    memcpy(before, state.bytes, state.length);
    place_input((const uint8_t[]){T1MMU_RATE, 2, 1}, T1MMU_RATE_BYTES, 1);
    place_output(ANSWER, 1);
    expect(is(run(), 1, T1MMU_RATE_BYTES, 0) && output.bytes[1] == 16 && state_kept(), "16 before 15", 0);
}

/* An invalidation of each side, in every mode: by the hypervisor's call alone, and number 6 first. */
static void invalidations(void)
{
    for (unsigned mode = 0; mode <= T1MMU_HYPERPRIVILEGED; mode++)
        for (unsigned byte = 0; byte < 256; byte++)
            for (size_t k = 0; k < CALLS; k++) {
                const uint8_t command[] = {T1MMU_INVALIDATE, (uint8_t)byte};
                unsigned number = byte >= T1MMU_SIDES ? 6 : calls[k] == t1mmu_run ? 16 : 0;
                call = calls[k];
                place_modes(mode, mode);
                place_input(command, sizeof command, 1);
                place_output(ANSWER, 1);
                expect(is(run(), 1, sizeof command, 0), "an invalidation", (long)byte);
                expect(output.bytes[0] == (number == 0 ? 0 : 5) && output.bytes[1] == number, "what it is answered", (long)byte);
                if (number == 0)
                    memset(before + T1MMU_SLOT_AT(byte, 0), 0, T1MMU_SLOTS * T1MMU_SLOT_WORDS * 8);
                expect(state_kept(), "what it changed", (long)byte);
            }
    call = t1mmu_run;
}

/* ---- the miss records ---- */

#define KEPT T1MMU_KEPT_LOOKUPS
#define HISTORY (KEPT + 20 * 64)

static uint64_t *older(unsigned record) { return words() + T1MMU_OLDER + T1MMU_OLDER_WORDS * record; }

/* Whether the state as it is answers a rate with this kind, this a and this first value, and else zeros. */
static int answers_rate(unsigned strand, unsigned side, unsigned kind, unsigned a, unsigned first)
{
    const uint8_t command[T1MMU_RATE_BYTES] = {T1MMU_RATE, (uint8_t)strand, (uint8_t)side};
    uint8_t answer[ANSWER] = {(uint8_t)kind, (uint8_t)a};
    answer[14] = (uint8_t)(first >> 8);
    answer[15] = (uint8_t)first;
    place_input(command, sizeof command, 1);
    place_output(ANSWER, 1);
    return is(run(), 1, sizeof command, 0) && memcmp(output.bytes, answer, ANSWER) == 0;
}

static int has_rate(unsigned strand, unsigned side, unsigned rate) { return answers_rate(strand, side, T1MMU_VALUE, 0, rate); }

static int has_no_rate(unsigned strand, unsigned side, unsigned number) { return answers_rate(strand, side, T1MMU_REFUSED, number, 0); }

static void rate_operands(void)
{
    place_reset(1);
    for (unsigned byte = 0; byte < 256; byte++) {
        expect(has_no_rate(byte, 2, byte < T1MMU_STRANDS ? 6 : 5), "the rate of strands, with a side that is none", (long)byte);
        expect(has_no_rate(byte, 1, byte < T1MMU_STRANDS ? 15 : 5), "the rate of strands without a lookup", (long)byte);
        expect(has_no_rate(0, byte, byte < T1MMU_SIDES ? 15 : 6), "the rate of sides without a lookup", (long)byte);
    }
    expect_reset("a rate changed the state");
}

static int missed[HISTORY];

/* A bit of a record's words, by the age of its lookup: 0 is the latest. In the newest word are the latest and, above them, the oldest. */
static uint64_t bit_at(unsigned record, size_t in_newest, size_t age)
{
    uint64_t newest = words()[T1MMU_NEWEST + record];
    if (age < in_newest)
        return newest >> age & 1;
    size_t behind = age - in_newest;
    return behind / 64 < T1MMU_OLDER_WORDS ? older(record)[behind / 64] >> behind % 64 & 1 : newest >> age % 64 & 1;
}

/* The words of strand 0's data record, and its rate, against the outcomes of the first n lookups. */
static void expect_history(size_t n)
{
    unsigned record = T1MMU_RECORD_OF(0, T1MMU_DATA);
    size_t kept = n < KEPT ? n : KEPT, in_newest = (n - 1) % 64 + 1, misses = 0, same = 1;
    for (size_t age = 0; age < KEPT; age++) {
        size_t outcome = age < kept && missed[n - 1 - age];
        same = same && bit_at(record, in_newest, age) == outcome;
        misses += outcome;
    }
    expect(words()[T1MMU_SEEN + record] == (n <= KEPT ? n : KEPT + in_newest), "what a record has seen", (long)n);
    expect(same != 0, "the words of a record", (long)n);
    expect(has_rate(0, T1MMU_DATA, (unsigned)(misses * 1000 / kept)), "the rate after so many lookups", (long)n);
}

/* The printed run, then loads that hit and miss: one lookup after the other, until the words have turned often. */
static void histories(void)
{
    const uint8_t *hit = printed + END_4;
    uint8_t miss[T1MMU_ACCESS_BYTES];
    memcpy(miss, hit, sizeof miss);
    miss[T1MMU_ACCESS_BYTES - 3] ^= 0x80;
    inserted();
    missed[0] = 1;
    for (size_t n = 2; n < HISTORY; n++) {
        expect_history(n);
        missed[n] = n % 7 == 3 || n / 400 == 2;
        place_input(missed[n] ? miss : hit, sizeof miss, 1);
        place_output(ANSWER, 1);
        expect(is(run(), 1, sizeof miss, 0) && output.bytes[0] == (missed[n] ? T1MMU_TRAP : T1MMU_PHYSICAL), "a lookup", (long)n);
    }
    expect_history(HISTORY);
    for (unsigned strand = 0; strand < T1MMU_STRANDS; strand++)
        for (unsigned side = 0; side < T1MMU_SIDES; side++)
            expect((strand == 0 && side == T1MMU_DATA) || has_no_rate(strand, side, 15), "the rate of another record", (long)strand);
}

/* Each record by itself with 1,024 misses, and then with one less. */
static void full_records(void)
{
    for (unsigned record = 0; record < T1MMU_RECORDS; record++) {
        unsigned strand = record / T1MMU_SIDES, side = record % T1MMU_SIDES;
        place_reset(1);
        words()[T1MMU_SEEN + record] = KEPT;
        words()[T1MMU_NEWEST + record] = UINT64_MAX;
        memset(older(record), 0xff, T1MMU_OLDER_WORDS * 8);
        expect(has_rate(strand, side, 1000), "a record of misses", (long)record);
        older(record)[T1MMU_OLDER_WORDS - 1] -= UINT64_C(1) << 63;
        expect(has_rate(strand, side, 999), "a record of misses and a hit", (long)record);
    }
}

/* One run on a state with one record of that many lookups, its newest word, and one older word of ones. */
static void expect_record(unsigned record, uint64_t n, uint64_t newest, size_t ones, int sound)
{
    place_reset(1);
    words()[T1MMU_SEEN + record] = n;
    words()[T1MMU_NEWEST + record] = newest;
    if (ones < T1MMU_OLDER_WORDS)
        older(record)[ones] = UINT64_MAX;
    memcpy(before, state.bytes, state.length);
    place_input(printed, 0, 1);
    place_output(0, 1);
    expect(is(run(), 0, 0, sound ? 0 : 1), "a record", (long)n);
    expect(memcmp(state.bytes, before, state.length) == 0, "a record changed", (long)n);
}

/* Every record, with as many lookups: no bit may be set that no lookup kept has. */
static void damaged_records(void)
{
    static const uint64_t counts[] = {0, 1, 2, 63, 64, 65, 66, 127, 128, 129, 960, 961, 1022, 1023, 1024, 1025, 1026, 1087, 1088, 1089, 2048};
    for (unsigned record = 0; record < T1MMU_RECORDS; record++) {
        for (size_t i = 0; i < sizeof counts / sizeof *counts; i++) {
            uint64_t n = counts[i];
            unsigned in_newest = n == 0 ? 0 : n > KEPT ? 64 : (unsigned)((n - 1) % 64) + 1;
            uint64_t most = in_newest == 64 ? UINT64_MAX : (UINT64_C(1) << in_newest) - 1;
            int sound = n <= KEPT + 64;
            expect_record(record, n, 0, T1MMU_OLDER_WORDS, sound);
            expect_record(record, n, most, T1MMU_OLDER_WORDS, sound);
            if (in_newest < 64)
                expect_record(record, n, most + 1, T1MMU_OLDER_WORDS, 0);
            for (size_t j = 0; j < T1MMU_OLDER_WORDS; j++)
                expect_record(record, n, most, j, sound && 64 * (j + 1) < n);
        }
        expect_record(record, UINT64_MAX, 0, T1MMU_OLDER_WORDS, 0);
        expect_record(record, UINT64_C(1) << 32, 0, T1MMU_OLDER_WORDS, 0);
    }
}

/* ---- the miss handler ---- */

#define TSB T1MMU_TSB_BYTES(0)
#define ENTRY T1MMU_TSB_ENTRY_BYTES

static struct lent zero, other;

/* What fits the page 0x402000 of 8 KB in context 0, at entry 1 of 512; the word is the printed run's. */
static const uint8_t fits[ENTRY] = {0, 0, 0, 0, 0, 0, 0, 1, 0x80, 0, 0, 0, 0, 8, 4, 0x40};

static void place_table(struct lent *table, size_t n, int upper)
{
    lent_place(table, n, upper);
    memset(table->bytes, 0, n);
    for (size_t i = 0; i < ENTRY && ENTRY + i < n; i++)
        table->bytes[ENTRY + i] = fits[i];
}

/* The printed run up to its load that misses. */
static void place_missed(int upper)
{
    place_reset(upper);
    place_input(printed, END_3, upper);
    place_output(3 * ANSWER, upper);
    expect(is(run(), 3, END_3, 0) && has_answers(3), "the load that misses", upper);
}

static void expect_part(struct t1mmu_part p, unsigned number, unsigned of_other, size_t start, const char *what, long at)
{
    expect(p.number == number && p.other == of_other && p.start == start && p.length == (number == 0 ? ENTRY : 0u), what, at);
}

static void expect_answer(struct t1mmu_answered a, unsigned kind, unsigned number, const char *what, long at)
{
    expect(a.bytes[0] == kind && a.bytes[1] == number && all_are(a.bytes + 2, ANSWER - 2, 0), what, at);
}

static void expect_kept(const char *what, long at)
{
    expect(state_kept(), what, at);
    expect(lent_whole(&state) && lent_whole(&zero) && lent_whole(&other), "guards changed by the miss handler", at);
}

/* Both calls, refused with a number; nothing changes. */
static void expect_no(unsigned strand, unsigned side, unsigned number, const char *what, long at)
{
    uint8_t s = (uint8_t)strand, t = (uint8_t)side;
    const uint8_t *z = zero.length == 0 ? NULL : zero.bytes, *o = other.length == 0 ? NULL : other.bytes;
    memcpy(before, state.bytes, state.length);
    expect_part(t1mmu_hand_back(words(), state.length / 8, s, t, z, zero.length, o, other.length), number, 0, 0, what, at);
    expect_answer(t1mmu_serve(words(), state.length / 8, s, t, z, zero.length, o, other.length), T1MMU_REFUSED, number, what, at);
    expect_kept(what, at);
}

/* A state of a wrong length: 1, whatever else is wrong. */
static void wrong_states(int upper)
{
    place_table(&zero, TSB, upper);
    place_table(&other, 0, upper);
    for (size_t k = 0; k < WRONGS; k++) {
        lent_place(&state, wrong[k] * 8, upper);
        memset(state.bytes, 0, state.length);
        expect_no(0, 1, 1, "the miss handler on a wrong length", (long)wrong[k]);
        expect_no(255, 255, 1, "number 1 comes first", (long)wrong[k]);
    }
    expect_part(t1mmu_hand_back(NULL, 0, 0, 0, NULL, 0, NULL, 0), 1, 0, 0, "hand back of nothing at all", upper);
    expect_answer(t1mmu_serve(NULL, 0, 0, 0, NULL, 0, NULL, 0), T1MMU_REFUSED, 1, "a serve of nothing at all", upper);
}

static void handler_operands(int upper)
{
    place_missed(upper);
    place_table(&zero, TSB - 1, upper);
    place_table(&other, TSB, upper);
    for (unsigned byte = 0; byte < 256; byte++) {
        expect_no(byte, 2, byte < T1MMU_STRANDS ? 6 : 5, "strands with a side that is none", (long)byte);
        expect_no(0, byte, byte < T1MMU_SIDES ? 14 : 6, "sides with a table that is too short", (long)byte);
        expect_no(byte, 1, byte < T1MMU_STRANDS ? 14 : 5, "strands with a table that is too short", (long)byte);
    }
}

/* What a serve changes: the one slot, and no register. */
static void expect_served(size_t slot, const uint64_t *holds, const char *what, long at)
{
    int same = 1;
    for (size_t i = 0; i < WORDS; i++)
        same = same && words()[i] == (slot <= i && i < slot + T1MMU_SLOT_WORDS ? holds[i - slot] : before[i]);
    expect(same, what, at);
    expect(lent_whole(&state) && lent_whole(&zero) && lent_whole(&other), "guards changed by a serve", at);
}

/* The table used at lengths around its own, the other one at any; then the load again. */
static void handler_lengths(int upper)
{
    static const size_t near[] = {0, 1, ENTRY, 2 * ENTRY, TSB / 2, TSB - ENTRY, TSB - 1, TSB, TSB + 1, TSB + ENTRY, 2 * TSB};
    static const uint64_t slot[T1MMU_SLOT_WORDS] = {0, 0x402000, 0x8000000000080440, 2};
    for (size_t k = 0; k < sizeof near / sizeof *near; k++) {
        place_missed(upper);
        place_table(&other, TSB, upper);
        place_table(&zero, near[k], upper);
        if (near[k] != TSB)
            expect_no(0, 1, 14, "a table of a wrong length", (long)near[k]);
        place_table(&zero, TSB, upper);
        place_table(&other, near[k], upper);
        const uint8_t *o = near[k] == 0 ? NULL : other.bytes;
        memcpy(before, state.bytes, state.length);
        expect_part(t1mmu_hand_back(words(), WORDS, 0, 1, zero.bytes, TSB, o, near[k]), 0, 0, ENTRY, "a part of table zero", (long)near[k]);
        expect_kept("hand back changed the state", (long)near[k]);
        expect_answer(t1mmu_serve(words(), WORDS, 0, 1, zero.bytes, TSB, o, near[k]), T1MMU_DONE, 0, "a serve", (long)near[k]);
        expect_served(T1MMU_SLOT_AT(T1MMU_DATA, 0), slot, "what a serve changed", (long)near[k]);
        expect(memcmp(zero.bytes + ENTRY, fits, ENTRY) == 0 && all_are(zero.bytes, ENTRY, 0), "a table was written", (long)near[k]);
        place_input(printed + END_4, sizeof printed - END_4, upper);
        place_output(ANSWER, upper);
        expect(is(run(), 1, T1MMU_ACCESS_BYTES, 0) && memcmp(output.bytes, loaded, ANSWER) == 0, "the load again", (long)near[k]);
    }
}

/* One range lent as both tables: context 0 and context 5 hand back the same bytes; each fits its own context alone. */
static void one_range(int upper)
{
    place_missed(upper);
    place_table(&zero, TSB, upper);
    place_table(&other, 0, upper);
    words()[T1MMU_CELL_AT(0, T1MMU_TAG_ACCESS + 1)] += 5;
    memcpy(before, state.bytes, state.length);
    expect_part(t1mmu_hand_back(words(), WORDS, 0, 1, zero.bytes, TSB, zero.bytes, TSB), 0, 1, ENTRY, "a part of the other table", upper);
    expect_answer(t1mmu_serve(words(), WORDS, 0, 1, zero.bytes, TSB, zero.bytes, TSB), T1MMU_NOT_IN_TABLE, 0, "context 5", upper);
    expect_kept("not in table changed the state", upper);
    zero.bytes[ENTRY + 1] = 5;
    expect_answer(t1mmu_serve(words(), WORDS, 0, 1, zero.bytes, TSB, zero.bytes, TSB), T1MMU_DONE, 0, "context 5 in the tag", upper);
    words()[T1MMU_CELL_AT(0, T1MMU_TAG_ACCESS + 1)] -= 5;
    expect_answer(t1mmu_serve(words(), WORDS, 0, 1, zero.bytes, TSB, zero.bytes, TSB), T1MMU_NOT_IN_TABLE, 0, "context 0", upper);
}

/* Each single bit of the 16 bytes turned: kind 6, but for the word's bits that are no part of the fit, of which 55:40 get 12. */
static void turned_bits(void)
{
    for (unsigned bit = 0; bit < 8 * ENTRY; bit++) {
        unsigned of_word = bit < 64 ? bit : 64; /* bits are counted from the entry's last byte: the word's first */
        int part_of_fit = of_word == 64 || of_word == 63 || of_word < 4, refused = 40 <= of_word && of_word <= 55;
        place_missed(1);
        place_table(&zero, TSB, 1);
        place_table(&other, 0, 1);
        zero.bytes[2 * ENTRY - 1 - bit / 8] ^= (uint8_t)(1u << bit % 8);
        memcpy(before, state.bytes, state.length);
        expect_part(t1mmu_hand_back(words(), WORDS, 0, 1, zero.bytes, TSB, NULL, 0), 0, 0, ENTRY, "a part with a bit turned", (long)bit);
        expect_answer(t1mmu_serve(words(), WORDS, 0, 1, zero.bytes, TSB, NULL, 0),
                      part_of_fit ? T1MMU_NOT_IN_TABLE : refused ? T1MMU_REFUSED : T1MMU_DONE, refused ? 12 : 0, "a bit turned", (long)bit);
        expect(state_kept() == (part_of_fit || refused), "whether a bit turned changes the state", (long)bit);
    }
}

/* One word of the reset state set to all ones: the miss handler refuses with 1 what a run stops at with 1. */
static void unsound_misses(void)
{
    place_table(&zero, 0, 1);
    place_table(&other, 0, 1);
    for (size_t i = 0; i < WORDS; i++) {
        place_reset(1);
        words()[i] = UINT64_MAX;
        expect_no(0, 0, 20 <= register_at(i) && register_at(i) <= 25 ? 14 : 1, "the miss handler and a word of ones", (long)i);
    }
}

/* N 15: 256 MB between two pages that may not be touched, zeros but for the last entry. */
static void largest_table(void)
{
    const size_t bytes = T1MMU_TSB_BYTES(15);
    const uint64_t page = UINT64_C(0x1fffffe000); /* page 2^24 - 1 of 8 KB: 2^15 - 1 of 4 MB */
    uint8_t *all = mmap(NULL, bytes + 2 * LENT_PAGE, PROT_NONE, MAP_PRIVATE | MAP_ANONYMOUS | MAP_NORESERVE, -1, 0);
    if (all == MAP_FAILED || mprotect(all + LENT_PAGE, bytes, PROT_READ | PROT_WRITE) != 0) {
        perror("largest_table");
        exit(2);
    }
    uint8_t *table = all + LENT_PAGE, *last = table + bytes - ENTRY;
    place_reset(1);
    words()[T1MMU_CELL_AT(3, T1MMU_TSB_BASE_OF(0, 0, 0))] = 15;
    words()[T1MMU_CELL_AT(3, T1MMU_TAG_ACCESS)] = page;
    memcpy(before, state.bytes, state.length);
    for (size_t length = bytes - 1; length <= bytes + 1; length += 2)
        expect_part(t1mmu_hand_back(words(), WORDS, 3, 0, table, length, NULL, 0), 14, 0, 0, "256 MB, and one byte off", (long)length);
    expect_part(t1mmu_hand_back(words(), WORDS, 3, 0, table, bytes, NULL, 0), 0, 0, bytes - ENTRY, "the last entry of 256 MB", 0);
    expect_answer(t1mmu_serve(words(), WORDS, 3, 0, table, bytes, NULL, 0), T1MMU_NOT_IN_TABLE, 0, "256 MB of zeros", 0);
    expect(state_kept(), "256 MB of zeros changed the state", 0);
    memcpy(last, fits, ENTRY);
    last[6] = 0x7f;
    last[7] = 0xff;
    expect_answer(t1mmu_serve(words(), WORDS, 3, 0, table, bytes, NULL, 0), T1MMU_DONE, 0, "the last entry fits", 0);
    expect(words()[T1MMU_SLOT_AT(0, 0) + 1] == page && words()[T1MMU_SLOT_AT(0, 0) + 2] == UINT64_C(0x8000000000080440), "the page served", 0);
    munmap(all, bytes + 2 * LENT_PAGE);
}

/* ---- entry words ---- */

static const unsigned low[13] = {63, 62, 56, 13, 12, 11, 10, 9, 8, 7, 6, 4, 0};
static const unsigned width[13] = {1, 1, 6, 43, 1, 1, 1, 1, 1, 1, 1, 2, 4};

/* A word's fields against shifts; a field of all ones has its own bits and no others. */
static void entry_words(void)
{
    uint64_t word = 0x9e3779b97f4a7c15;
    for (long i = 0; i < 20000; i++) {
        uint64_t f[13];
        struct t1mmu_tte t = t1mmu_unpack(word);
        memcpy(f, &t, sizeof f);
        for (int k = 0; k < 13; k++)
            expect(f[k] == (word >> low[k] & ((UINT64_C(1) << width[k]) - 1)), "a field of a word", k);
        expect(t1mmu_pack(t) == word, "a word packed again", i);
        word ^= word << 13, word ^= word >> 7, word ^= word << 17;
    }
    for (int k = 0; k < 13; k++) {
        uint64_t f[13] = {0};
        struct t1mmu_tte t;
        f[k] = UINT64_MAX;
        memcpy(&t, f, sizeof t);
        expect(t1mmu_pack(t) == ((UINT64_C(1) << width[k]) - 1) << low[k], "a field that is too wide", k);
    }
}

int main(void)
{
    state = lent_new(2 * WORDS * 8);
    input = lent_new(sizeof printed);
    output = lent_new(2 * COMMANDS * ANSWER);
    zero = lent_new(2 * TSB);
    other = lent_new(2 * TSB);
    constants();
    for (int upper = 0; upper < 2; upper++) {
        resets(upper);
        for (size_t k = 0; k < CALLS; k++) {
            call = calls[k];
            stream_lengths(upper);
        }
        call = t1mmu_run;
        wrong_states(upper);
        handler_operands(upper);
        handler_lengths(upper);
        one_range(upper);
    }
    for (size_t k = 0; k < CALLS; k++) {
        call = calls[k];
        unsound_words();
        inserted();
    }
    call = t1mmu_run;
    permissions();
    permission_order();
    invalidations();
    rate_operands();
    histories();
    full_records();
    damaged_records();
    turned_bits();
    unsound_misses();
    largest_table();
    entry_words();
    printf("%lu compared, %lu differ\n", compared, differ);
    return differ == 0 ? 0 : 1;
}
