/*
 * Two runs from C, each command and its answer in words beside its bytes. The first is the printed run of document 01, from reset: strand 0
 * is put into user mode and misses, and may not insert the page. In the second, on the state that the first left, strand 1 does in privileged
 * mode what strand 0 could not; then both find the page. The last line of a run begins as the stream program's does: end, commands answered,
 * bytes taken, stop.
 *
 *     (cd crates/t1mmu && rt lib) && mkdir -p target && gcc -Iinclude -o target/printed_run examples/c/printed_run.c crates/t1mmu/out/libt1mmu.a
 */
#include <inttypes.h>
#include <stdio.h>

#include "t1mmu.h"

/* ---- commands as bytes ---- */

struct stream {
    uint8_t bytes[256];
    size_t length;
};

static void put(struct stream *s, unsigned byte) { s->bytes[s->length++] = (uint8_t)byte; }

static void put8(struct stream *s, uint64_t value)
{
    for (int shift = 56; shift >= 0; shift -= 8)
        put(s, (unsigned)(value >> shift) & 0xff);
}

static void put_write(struct stream *s, unsigned strand, unsigned number, uint64_t value)
{
    put(s, T1MMU_WRITE);
    put(s, strand);
    put(s, number);
    put8(s, value);
}

static void put_insert(struct stream *s, unsigned strand, unsigned side, unsigned flags, uint64_t word)
{
    put(s, T1MMU_INSERT);
    put(s, strand);
    put(s, side);
    put(s, flags);
    put8(s, word);
}

static void put_load(struct stream *s, unsigned strand, unsigned selector, unsigned size, uint64_t address)
{
    put(s, T1MMU_ACCESS);
    put(s, strand);
    put(s, T1MMU_LOAD);
    put(s, selector);
    put(s, size);
    put8(s, address);
}

/* ---- numbers by their names ---- */

static const struct {
    unsigned first;
    const char *name;
} registers[] = {
    {T1MMU_PARTITION, "partition"},
    {T1MMU_PRIMARY_CONTEXT, "primary context"},
    {T1MMU_SECONDARY_CONTEXT, "secondary context"},
    {T1MMU_MODE, "mode"},
    {T1MMU_TRANSLATION, "translation"},
    {T1MMU_ADDRESS_MASK, "address mask"},
    {T1MMU_TSB_BASE, "TSB base"},
    {T1MMU_TSB_CONFIGURATION, "TSB configuration"},
    {T1MMU_TAG_ACCESS, "tag access"},
    {T1MMU_FAULT_ADDRESS, "fault address"},
    {T1MMU_FAULT_STATUS, "fault status"},
};
static const char *const modes[] = {"user", "privileged", "hyperprivileged"};
static const char *const switches[] = {"off", "fetch on, data off", "fetch off, data on", "fetch on, data on"};
static const char *const sides[] = {"instruction TLB", "data TLB"};
static const char *const selectors[] = {"primary context", "secondary context", "nucleus"};
static const char *const pages[] = {"8 KB", "64 KB", "", "4 MB", "", "256 MB"};
static const char *const stops[] = {
    "stopped at the end of the input",
    "stopped at once: the state is not sound",
    "stopped before an unknown command",
    "stopped before an incomplete command",
    "stopped for want of room for an answer",
};

/* The last of the names whose numbers begin at or below this one. */
static const char *register_name(unsigned number)
{
    size_t i = sizeof registers / sizeof *registers - 1;
    while (registers[i].first > number)
        i--;
    return registers[i].name;
}

static const char *refusal_name(unsigned number)
{
    switch (number) {
    case T1MMU_REFUSED_STRAND: return "no such strand";
    case T1MMU_REFUSED_SIDE: return "no such side, or kind of access";
    case T1MMU_REFUSED_SELECTOR: return "no such selector here";
    case T1MMU_REFUSED_OPERAND: return "flags or size without a meaning";
    case T1MMU_REFUSED_REGISTER: return "no such register, or read only";
    case T1MMU_REFUSED_VALUE: return "not a value of the register";
    case T1MMU_REFUSED_ADDRESS: return "an address out of range";
    case T1MMU_REFUSED_WORD: return "not a word of an entry";
    case T1MMU_REFUSED_NO_SLOT: return "all slots are locked";
    case T1MMU_REFUSED_NO_LOOKUP: return "no lookup yet";
    /* an invalidation gets it from t1mmu_run, whatever the modes are */
    case T1MMU_REFUSED_PERMISSION: return "the strand's mode does not permit it";
    default: return "no refusal of a run";
    }
}

static const char *trap_name(unsigned number)
{
    switch (number) {
    case T1MMU_INSTRUCTION_ACCESS_EXCEPTION: return "instruction_access_exception";
    case T1MMU_DATA_ACCESS_EXCEPTION: return "data_access_exception";
    case T1MMU_MEM_ADDRESS_NOT_ALIGNED: return "mem_address_not_aligned";
    case T1MMU_PRIVILEGED_ACTION: return "privileged_action";
    case T1MMU_INSTRUCTION_REAL_TRANSLATION_MISS: return "instruction_real_translation_miss";
    case T1MMU_DATA_REAL_TRANSLATION_MISS: return "data_real_translation_miss";
    case T1MMU_FAST_INSTRUCTION_ACCESS_MMU_MISS: return "fast_instruction_access_MMU_miss";
    case T1MMU_FAST_DATA_ACCESS_MMU_MISS: return "fast_data_access_MMU_miss";
    case T1MMU_FAST_DATA_ACCESS_PROTECTION: return "fast_data_access_protection";
    default: return "no trap of this unit";
    }
}

/* ---- bytes, and what they say ---- */

static uint64_t eight(const uint8_t *at)
{
    uint64_t value = 0;
    for (int i = 0; i < 8; i++)
        value = value << 8 | at[i];
    return value;
}

/* The bytes behind a mark, in a column as wide as an answer. */
static void print_bytes(char mark, const uint8_t *at, size_t n)
{
    printf("%c ", mark);
    for (size_t i = 0; i < n; i++)
        printf("%02x", at[i]);
    printf("%*s", (int)(2 * (T1MMU_ANSWER_BYTES - n) + 2), "");
}

static void print_write(const uint8_t *at)
{
    uint64_t value = eight(at + 3);
    printf("write strand %u, %s = %" PRIu64, at[1], register_name(at[2]), value);
    if (at[2] == T1MMU_MODE)
        printf(" (%s)", modes[value]);
    else if (at[2] == T1MMU_TRANSLATION)
        printf(" (%s)", switches[value]);
    printf("\n");
}

static void print_insert(const uint8_t *at)
{
    struct t1mmu_tte t = t1mmu_unpack(eight(at + 4));
    const char *real = at[3] & T1MMU_REAL ? ", real" : "", *locked = at[3] & T1MMU_LOCKED ? ", locked" : "";
    printf("insert strand %u, %s%s%s: the %s page in tag access", at[1], sides[at[2]], real, locked, pages[t.size]);
    printf(" is at physical 0x%" PRIx64 " (cp %d, w %d)\n", t.address << 13, (int)t.cp, (int)t.w);
}

/* Prints the command at a position and returns its width. */
static size_t print_command(const uint8_t *at)
{
    size_t width = at[0] == T1MMU_WRITE ? T1MMU_WRITE_BYTES : at[0] == T1MMU_INSERT ? T1MMU_INSERT_BYTES : T1MMU_ACCESS_BYTES;
    print_bytes('>', at, width);
    if (at[0] == T1MMU_WRITE)
        print_write(at);
    else if (at[0] == T1MMU_INSERT)
        print_insert(at);
    else
        printf("load strand %u, %s, %u bytes at virtual 0x%" PRIx64 "\n", at[1], selectors[at[3]], 1u << at[4], eight(at + 5));
    return width;
}

static void print_answer(const uint8_t *at)
{
    uint64_t first = eight(at + 8), second = eight(at + 16);
    print_bytes('<', at, T1MMU_ANSWER_BYTES);
    switch (at[0]) {
    case T1MMU_DONE:
        printf("done\n");
        break;
    case T1MMU_PHYSICAL:
        printf("physical 0x%" PRIx64 " (%s, cp %d, e %d, ie %d)\n", first, at[3] == T1MMU_BYPASS_CODE ? "a bypass" : pages[at[3]],
               !!(at[1] & T1MMU_CP), !!(at[1] & T1MMU_E), !!(at[1] & T1MMU_IE));
        break;
    case T1MMU_TRAP:
        printf("trap 0x%02x %s at 0x%" PRIx64, at[1], trap_name(at[1]), first);
        if (at[2] != 0)
            printf(", fault type 0x%02x", at[2]);
        printf("; tag access: page 0x%" PRIx64 ", context %" PRIu64 "\n", second & ~UINT64_C(0x1fff), second & 0x1fff);
        break;
    case T1MMU_REFUSED:
        printf("refused, number %u: %s\n", at[1], refusal_name(at[1]));
        break;
    default:
        printf("kind %u, which these runs do not have\n", at[0]);
        break;
    }
}

/* ---- the runs ---- */

/* A load of 8 bytes that misses, which leaves its page and context in tag access; the insertion of that page; and the load again. */
static void put_miss_and_insert(struct stream *s, unsigned strand)
{
    struct t1mmu_tte page = {0};
    page.v = 1;
    page.address = 0x80000 >> 13;
    page.cp = 1;
    page.w = 1;
    page.size = T1MMU_8K;
    put_load(s, strand, T1MMU_PRIMARY, 3, 0x402008);
    put_insert(s, strand, T1MMU_DATA, 0, t1mmu_pack(page));
    put_load(s, strand, T1MMU_PRIMARY, 3, 0x402008);
}

/* Translation on, and a mode. A strand may do this in mode 2 alone, which is that of reset. */
static void put_guest(struct stream *s, unsigned strand, unsigned mode)
{
    put_write(s, strand, T1MMU_TRANSLATION, T1MMU_FETCH_ON | T1MMU_DATA_ON);
    put_write(s, strand, T1MMU_MODE, mode);
}

/* Runs a stream and prints it; returns whether it ended at its end. */
static int run_and_print(uint64_t *state, const struct stream *s)
{
    static uint8_t answers[16 * T1MMU_ANSWER_BYTES];
    struct t1mmu_report r = t1mmu_run(state, T1MMU_STATE_WORDS, s->bytes, s->length, answers, sizeof answers);
    size_t at = 0;
    for (size_t i = 0; i < r.answered; i++) {
        at += print_command(s->bytes + at);
        print_answer(answers + i * T1MMU_ANSWER_BYTES);
    }
    int printed = printf("end %zu %zu %u", r.answered, r.taken, r.stop);
    printf("%*s%zu commands answered, %zu bytes taken, %s\n", 2 * T1MMU_ANSWER_BYTES + 4 - printed, "", r.answered, r.taken, stops[r.stop]);
    return r.stop == T1MMU_END;
}

int main(void)
{
    static uint64_t state[T1MMU_STATE_WORDS];
    struct stream user = {{0}, 0}, privileged = {{0}, 0};

    if (t1mmu_version() >> 16 != T1MMU_VERSION >> 16 || t1mmu_reset(state, T1MMU_STATE_WORDS) != 0)
        return 1;
    put_guest(&user, 0, T1MMU_USER);
    put_miss_and_insert(&user, 0);
    if (!run_and_print(state, &user))
        return 1;

    printf("\nthe same by strand 1 in privileged mode, and then strand 0's load once more:\n");
    put_guest(&privileged, 1, T1MMU_PRIVILEGED);
    put_miss_and_insert(&privileged, 1);
    put_load(&privileged, 0, T1MMU_PRIMARY, 3, 0x402008);
    return run_and_print(state, &privileged) ? 0 : 1;
}
