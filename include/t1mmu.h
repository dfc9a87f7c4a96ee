/*
 * t1mmu.h - the translation unit of an UltraSPARC T1 core, for C99 and C++.
 *
 * One core: four strands, an instruction TLB (side 0) and a data TLB (side 1) of 64 slots each. The unit has no memory of its own:
 * the caller lends a state of T1MMU_STATE_WORDS words, a stream of commands, and room for answers.
 *
 *     uint64_t state[T1MMU_STATE_WORDS];
 *     t1mmu_reset(state, T1MMU_STATE_WORDS);
 *     struct t1mmu_report r = t1mmu_run(state, T1MMU_STATE_WORDS, commands, length, answers, room);
 *
 * t1mmu_run is for a guest's bytes, too: the mode of the strand that a command names says what it may do (enum t1mmu_mode). Commands of the
 * hypervisor itself go by t1mmu_run_hypervisor, which takes an invalidation as well. Above both stands a miss handler, t1mmu_hand_back and
 * t1mmu_serve, over the guest's TSBs, which the caller lends too.
 *
 * Every call is proved equal to a definition in crates/machine/specs, in its result, in every word of the state and in every byte of
 * the answers, for every value and every length that it may be given; and again to second texts of it, in no word of the first: a plain
 * ledger of entries with numbered places tells all that the two runs and t1mmu_serve leave and return. The proof speaks of the ranges that
 * a pointer and its length name:
 *   - each range is the caller's to read, and state and output to write, for the whole of the call;
 *   - state, input and output do not overlap, nor does state with a table; state is aligned as uint64_t is;
 *   - with length 0 the pointer is not used, and may be null.
 * Nothing else is asked. No call allocates, keeps a pointer, has hidden state, or does input or output: calls on different states may run
 * in different threads at the same time.
 *
 * Link with libt1mmu.a (x86-64 Linux), which `rt lib` in crates/t1mmu writes to crates/t1mmu/out; for the two calls of the miss
 * handler with libt1mmu_miss.a, too (of crates/t1mmu_miss). Of the C library they call memset alone.
 */
#ifndef T1MMU_H
#define T1MMU_H

#include <stddef.h>
#include <stdint.h>

#ifdef __cplusplus
extern "C" {
#endif

/* ---- sizes ---- */

#define T1MMU_VERSION 0x040000u /* 4.0.0: major * 65536 + minor * 256 + patch */
#define T1MMU_STATE_WORDS 776   /* the strands' register cells, then the slots of side 0, then those of side 1, then the miss records */
#define T1MMU_ANSWER_BYTES 24
#define T1MMU_STRANDS 4
#define T1MMU_SIDES 2
#define T1MMU_SLOTS 64     /* of a side */
#define T1MMU_REGISTERS 26 /* register numbers are below it */
#define T1MMU_CELLS 32     /* of a strand: a word for each register number, zero where there is no such register */
#define T1MMU_SLOT_WORDS 4 /* of a slot: owner, page, entry word, flags */
#define T1MMU_RECORDS 8    /* miss records: one for each strand and side, T1MMU_RECORD_OF */
#define T1MMU_KEPT_LOOKUPS 1024 /* the most that a record keeps the outcomes of */
#define T1MMU_OLDER_WORDS 15 /* of a record, beside its newest word: 64 outcomes each, the latest in the lowest bit, 1 for a miss */
#define T1MMU_TSB_ENTRY_BYTES 16 /* of a TSB entry: its tag, then its word, both big-endian */

/* Where in a state a strand's register stands, and where the words of a slot begin. */
#define T1MMU_CELL_AT(strand, number) (T1MMU_CELLS * (strand) + (number))
#define T1MMU_SLOT_AT(side, slot) (T1MMU_CELL_AT(T1MMU_STRANDS, 0) + T1MMU_SLOT_WORDS * (T1MMU_SLOTS * (side) + (slot)))

/*
 * Which miss record is a strand's and side's; and where in a state begins what each has seen (its lookups up to 1,024, from there on 1,024 and
 * those in its newest word, whose other bits are then the oldest kept), then the newest words, one each, then the older words.
 */
#define T1MMU_RECORD_OF(strand, side) (T1MMU_SIDES * (strand) + (side))
#define T1MMU_SEEN 640
#define T1MMU_NEWEST 648
#define T1MMU_OLDER 656

/* The bytes of a TSB whose base register has N, 0 to 15. */
#define T1MMU_TSB_BYTES(n) ((size_t)T1MMU_TSB_ENTRY_BYTES << (9 + (n)))

/* ---- commands: the first byte; then the operands, one byte each unless marked 8, which is big-endian ---- */

enum t1mmu_command {
    T1MMU_WRITE = 0x01,         /* strand, register, value 8 */
    T1MMU_INSERT = 0x02,        /* strand, side, flags (T1MMU_REAL, T1MMU_LOCKED), word 8 */
    T1MMU_DEMAP_PAGE = 0x03,    /* strand, side, selector, flags (T1MMU_REAL), address 8 */
    T1MMU_DEMAP_CONTEXT = 0x04, /* strand, side, selector */
    T1MMU_DEMAP_ALL = 0x05,     /* strand, side */
    T1MMU_INVALIDATE = 0x06,    /* side; by t1mmu_run_hypervisor alone */
    T1MMU_ACCESS = 0x07,        /* strand, kind, selector, size code, address 8 */
    T1MMU_READ = 0x08,          /* strand, register */
    T1MMU_POINTERS = 0x09,      /* strand, side */
    T1MMU_RATE = 0x0A           /* strand, side */
};

/* The bytes of each command, its first byte included. */
#define T1MMU_WRITE_BYTES 11
#define T1MMU_INSERT_BYTES 12
#define T1MMU_DEMAP_PAGE_BYTES 13
#define T1MMU_DEMAP_CONTEXT_BYTES 4
#define T1MMU_DEMAP_ALL_BYTES 3
#define T1MMU_INVALIDATE_BYTES 2
#define T1MMU_ACCESS_BYTES 13
#define T1MMU_READ_BYTES 3
#define T1MMU_POINTERS_BYTES 3
#define T1MMU_RATE_BYTES 3

enum t1mmu_side { T1MMU_INSTRUCTION = 0, T1MMU_DATA = 1 };

enum t1mmu_flag { T1MMU_REAL = 1, T1MMU_LOCKED = 2 };

/* T1MMU_NUCLEUS is context 0. T1MMU_SECONDARY on the instruction side and T1MMU_NUCLEUS on a fetch in mode 0 are refused. */
enum t1mmu_selector { T1MMU_PRIMARY = 0, T1MMU_SECONDARY = 1, T1MMU_NUCLEUS = 2 };

enum t1mmu_kind { T1MMU_FETCH = 0, T1MMU_LOAD = 1, T1MMU_STORE = 2, T1MMU_ATOMIC = 3, T1MMU_NONFAULTING_LOAD = 4 };

/* The size code s of an access is 2^s bytes, 0 to 3; a fetch has 2. */

/* ---- registers of a strand, by number ---- */

enum t1mmu_register {
    T1MMU_PARTITION = 0,         /* 0 to 7 */
    T1MMU_PRIMARY_CONTEXT = 1,   /* 0 to 8191 */
    T1MMU_SECONDARY_CONTEXT = 2, /* 0 to 8191 */
    T1MMU_MODE = 3,              /* enum t1mmu_mode */
    T1MMU_TRANSLATION = 4,       /* T1MMU_FETCH_ON + T1MMU_DATA_ON */
    T1MMU_ADDRESS_MASK = 5,      /* 0 or 1 */
    T1MMU_TSB_BASE = 8,          /* to 15, T1MMU_TSB_BASE_OF: the table's address in 63:13, its N in 3:0, zeros between */
    T1MMU_TSB_CONFIGURATION = 16, /* to 19, T1MMU_TSB_CONFIGURATION_OF: size codes of ps0 in 2:0 and of ps1 in 10:8, else zeros */
    T1MMU_TAG_ACCESS = 20,       /* + side: address 63:13, context 12:0; any value */
    T1MMU_FAULT_ADDRESS = 22,    /* + side: the address used; read only */
    T1MMU_FAULT_STATUS = 24      /* + side: the trap in 15:8, its fault type in 7:0; read only */
};

/* nonzero: 1 for the table of contexts that are not zero; ps: 0 for ps0, 1 for ps1. */
#define T1MMU_TSB_BASE_OF(side, nonzero, ps) (T1MMU_TSB_BASE + 4 * (side) + 2 * (nonzero) + (ps))
#define T1MMU_TSB_CONFIGURATION_OF(side, nonzero) (T1MMU_TSB_CONFIGURATION + 2 * (side) + (nonzero))

/*
 * In T1MMU_HYPERPRIVILEGED an access is a bypass: it is not translated, and its physical address is the address modulo 2^40. Where bit 39 is
 * set that is I/O space, which takes no nonfaulting load and no atomic access: they get T1MMU_DATA_ACCESS_EXCEPTION, with context 0 in tag
 * access.
 *
 * The mode of the strand that a command names also says what the command may do; all else gets T1MMU_REFUSED_PERMISSION (specs: permitted):
 *   - T1MMU_USER: access and read;
 *   - T1MMU_PRIVILEGED: these, and write of registers 1, 2, 5 and 8 to 21, insert with flags 0 (virtual and unlocked), demap page (real, too),
 *     demap context, pointers and rate;
 *   - T1MMU_HYPERPRIVILEGED: all that names a strand.
 * An invalidation names none. It is taken in the hypervisor's streams alone, whatever the modes are; these permit nothing else besides.
 *
 * What a hypervisor may rely on, over any commands that t1mmu_run takes, where every strand that they name is in mode 0 or 1: no strand's
 * partition, mode or translation changes, and every locked entry stays that belongs to a partition in which none of these strands is.
 * (specs: GuestsConfined) What it has to see to itself:
 *   - Any bytes may name any strand, another guest's too, and act as that strand; at reset all are in mode 2. Before it runs a guest's bytes
 *     it sets mode, partition and translation of every strand that they might name.
 *   - Mode 1 may insert any physical address: memory is the hypervisor's to guard.
 *   - No command leaves mode 0 or 1 again, by whichever call it comes. The hypervisor raises a strand's mode itself, between calls, in the
 *     state's word at T1MMU_CELL_AT(strand, T1MMU_MODE), where 0, 1 and 2 are sound.
 */
enum t1mmu_mode { T1MMU_USER = 0, T1MMU_PRIVILEGED = 1, T1MMU_HYPERPRIVILEGED = 2 };

enum t1mmu_translation { T1MMU_FETCH_ON = 1, T1MMU_DATA_ON = 2 };

/* Size codes of an entry word, of the TSB configuration and of a physical answer; and the bytes of a page by its code. */
enum t1mmu_page { T1MMU_8K = 0, T1MMU_64K = 1, T1MMU_4M = 3, T1MMU_256M = 5 };
#define T1MMU_PAGE_BYTES(code) ((uint64_t)1 << (13 + 3 * (code)))

/* In a physical answer in place of a size code: a bypass, which has no page. */
#define T1MMU_BYPASS_CODE 15

/*
 * ---- answers: the kind in byte 0; a, b and c in bytes 1 to 3; the first value in 8 to 15 and the second in 16 to 23, big-endian ----
 *
 * What is not named here is 0, and may gain a meaning in a later minor version, as c of T1MMU_PHYSICAL did in 1.2: bytes 4 to 7 of every
 * answer; a, b, c and the second value of T1MMU_DONE, and its first where nothing is counted; b and the second value of T1MMU_PHYSICAL; c of
 * T1MMU_TRAP; a, b and c of T1MMU_VALUE, and its second value of a register or a rate; a of T1MMU_DISPLACED; b, c and both values of
 * T1MMU_REFUSED; all of T1MMU_NOT_IN_TABLE. Read what is named, and ignore the rest (docs/CHANGELOG.md).
 */

enum t1mmu_answer {
    T1MMU_DONE = 0,      /* first value, for 0x03 to 0x05: the count of entries removed */
    T1MMU_PHYSICAL = 1,  /* a: T1MMU_CP + T1MMU_E + T1MMU_IE; c: enum t1mmu_page, or T1MMU_BYPASS_CODE; first value: the physical address */
    T1MMU_TRAP = 2,      /* a: enum t1mmu_trap; b: fault type; first value: the address as it was used; second: tag access as the trap left it */
    T1MMU_VALUE = 3,     /* first value: the register, or the miss rate; or both values: the pointers of ps0 and ps1 */
    T1MMU_DISPLACED = 4, /* b: its partition; c: 1 if it is real; first value: its page and context, as in tag access; second: its word */
    T1MMU_REFUSED = 5,   /* a: enum t1mmu_refusal; the command changed nothing */
    T1MMU_NOT_IN_TABLE = 6 /* of t1mmu_serve alone: the TSB entry does not fit; nothing changed */
};

enum t1mmu_attribute { T1MMU_CP = 1, T1MMU_E = 2, T1MMU_IE = 4 };

/*
 * For a cache above the unit: a physical answer with a size code holds for its whole page. Until it is dropped, an access of the same strand,
 * kind and selector, of any allowed size, to an aligned address in the T1MMU_PAGE_BYTES(c) around the one asked for would get the same a and c,
 * and the physical address at its own offset. (specs: Extent) Drop it at any insertion, serve, demap or invalidation on its side, by any
 * strand, and at any write of registers 0 to 5 of its strand: docs/PAPER.md, section 9. What was refused changed nothing, and drops nothing.
 * Used bits do not see what such a cache answers; nor is it a lookup, so the miss rate is that of what the cache lets through.
 */

enum t1mmu_trap {
    T1MMU_INSTRUCTION_ACCESS_EXCEPTION = 0x08,
    T1MMU_DATA_ACCESS_EXCEPTION = 0x30,
    T1MMU_MEM_ADDRESS_NOT_ALIGNED = 0x34,
    T1MMU_PRIVILEGED_ACTION = 0x37,
    T1MMU_INSTRUCTION_REAL_TRANSLATION_MISS = 0x3E,
    T1MMU_DATA_REAL_TRANSLATION_MISS = 0x3F,
    T1MMU_FAST_INSTRUCTION_ACCESS_MMU_MISS = 0x64,
    T1MMU_FAST_DATA_ACCESS_MMU_MISS = 0x68,
    T1MMU_FAST_DATA_ACCESS_PROTECTION = 0x6C
};

/* The fault type of an access exception: a sum of the first four, or the last alone. Other traps have 0. */
enum t1mmu_fault {
    T1MMU_FAULT_PRIVILEGED = 0x01,     /* a page with p 1 in mode 0 */
    T1MMU_FAULT_SIDE_EFFECT = 0x02,    /* a nonfaulting load of a page with e 1, or in mode 2 of I/O space */
    T1MMU_FAULT_UNCACHEABLE = 0x04,    /* an atomic access to a page with cp 0, or in mode 2 to I/O space */
    T1MMU_FAULT_NONFAULTING_ONLY = 0x10, /* a page with nfo 1, and no nonfaulting load */
    T1MMU_FAULT_OUT_OF_RANGE = 0x20    /* an address from 2^47 to 2^64 - 2^47 - 1 */
};

/*
 * The miss rate is misses per thousand, rounded down, of the last T1MMU_KEPT_LOOKUPS lookups of a strand and side since reset, or of all where
 * there were fewer. A lookup misses where the access gets trap 0x3E, 0x3F, 0x64 or 0x68. One that finds an entry is no miss, whatever the access
 * gets. An access does not look up where it is refused, gets trap 0x34 or 0x37, is a bypass, into I/O space too, or is out of range.
 * (specs: missRate)
 */

/*
 * Why a command that was taken, or a call of the miss handler, did not act. The first that fails is answered, in the order of the numbers;
 * but T1MMU_REFUSED_PERMISSION is asked between _VALUE and _ADDRESS, and the miss handler asks _TABLE before _ADDRESS. _STATE and _TABLE are
 * of its two calls alone, and these never ask for a permission.
 */
enum t1mmu_refusal {
    T1MMU_REFUSED_STATE = 1, /* the state is not sound, a wrong length included: what a run stops with */
    T1MMU_REFUSED_STRAND = 5,
    T1MMU_REFUSED_SIDE = 6, /* or the kind of an access */
    T1MMU_REFUSED_SELECTOR = 7,
    T1MMU_REFUSED_OPERAND = 8, /* unused flag bits, or the size of an access */
    T1MMU_REFUSED_REGISTER = 9,
    T1MMU_REFUSED_VALUE = 10,
    T1MMU_REFUSED_ADDRESS = 11,
    T1MMU_REFUSED_WORD = 12,
    T1MMU_REFUSED_NO_SLOT = 13,
    T1MMU_REFUSED_TABLE = 14, /* the TSB that is used has not T1MMU_TSB_BYTES(N) bytes */
    T1MMU_REFUSED_NO_LOOKUP = 15, /* of T1MMU_RATE alone: no lookup of the strand and side since reset */
    T1MMU_REFUSED_PERMISSION = 16 /* the strand's mode does not permit the command (enum t1mmu_mode), or the call no invalidation */
};

/* Why a run ended. */
enum t1mmu_stop {
    T1MMU_END = 0,             /* at the end of the input */
    T1MMU_STOP_UNSOUND = 1,    /* the state is not sound, a wrong length included; tested once and first, and nothing changed */
    T1MMU_STOP_UNKNOWN = 2,    /* before a command whose byte is not 0x01 to 0x0A */
    T1MMU_STOP_INCOMPLETE = 3, /* before a command that lacks operand bytes */
    T1MMU_STOP_NO_ROOM = 4     /* before a command for whose answer fewer than 24 bytes are left */
};

/* ---- calls ---- */

/* What a run returns beside the state and the answers. */
struct t1mmu_report {
    size_t answered; /* commands taken, each with its answer */
    size_t taken;    /* bytes of the input that they had */
    uint8_t stop;    /* enum t1mmu_stop */
};

/* What t1mmu_hand_back returns: which part of which table. On a number other than 0 the part is empty, and the rest is 0. */
struct t1mmu_part {
    uint8_t number; /* 0, or T1MMU_REFUSED_STATE, _STRAND, _SIDE or _TABLE */
    uint8_t other;  /* 0: a part of the table for context zero; 1: of the other table */
    size_t start;   /* where in that table */
    size_t length;  /* T1MMU_TSB_ENTRY_BYTES, or 0 */
};

/* What t1mmu_serve returns: the bytes of an answer, as a run writes them. */
struct t1mmu_answered {
    uint8_t bytes[T1MMU_ANSWER_BYTES];
};

/* The fields of an entry word (a sun4v TTE), from bit 63 down. address is bits 55:13 of the word: shift it left by 13 for bytes. */
struct t1mmu_tte {
    uint64_t v;       /* bit 63 */
    uint64_t nfo;     /* bit 62 */
    uint64_t soft2;   /* bits 61:56 */
    uint64_t address; /* bits 55:13 */
    uint64_t ie;      /* bit 12 */
    uint64_t e;       /* bit 11 */
    uint64_t cp;      /* bit 10 */
    uint64_t cv;      /* bit 9 */
    uint64_t p;       /* bit 8 */
    uint64_t ep;      /* bit 7 */
    uint64_t w;       /* bit 6 */
    uint64_t soft;    /* bits 5:4 */
    uint64_t size;    /* bits 3:0 */
};

/* The version of the library that is linked; T1MMU_VERSION is that of this header. (specs: version) */
uint32_t t1mmu_version(void);

/* The words of a state: T1MMU_STATE_WORDS. (specs: stateWords counts) */
size_t t1mmu_state_words(void);

/*
 * Writes the reset state: all zero, every strand in mode 2, both sides empty, no lookup kept. Returns 0.
 * With words other than T1MMU_STATE_WORDS it changes nothing and returns 1. (specs: resetOf, resetNumber)
 */
uint8_t t1mmu_reset(uint64_t *state, size_t words);

/*
 * Takes command after command from the input, and writes an answer of 24 bytes for each behind the last one in the output. It ends at
 * the end of the input, or before the first command that is unknown, incomplete, or without room for its answer; that command is neither
 * counted nor taken, and earlier ones keep their effect. A refused command is answered and stepped over, and changes nothing in the state.
 * A state that is not sound, of a wrong length too, stops the run with 1 at once: state and output stay as they are.
 * Output behind the answers keeps its bytes. A sound state is sound after every run. (specs: runOf)
 * Whether the state is sound is asked once a run, at the cost of some two dozen hits: give a run many commands where you can.
 * Every invalidation is refused: this is the call for bytes that are not the hypervisor's own.
 */
struct t1mmu_report t1mmu_run(uint64_t *state, size_t words, const uint8_t *input, size_t length, uint8_t *output, size_t room);

/*
 * The same for a stream of the hypervisor's own: it takes T1MMU_INVALIDATE, too. In all else it is t1mmu_run; a strand's mode counts as there.
 */
struct t1mmu_report t1mmu_run_hypervisor(uint64_t *state, size_t words, const uint8_t *input, size_t length, uint8_t *output, size_t room);

/*
 * The miss handler: two calls above the unit, which look for the page of a strand's tag access in the guest's TSBs. The caller lends two
 * tables, one for context zero and one for all other contexts; the context in tag access of the side picks the table, and with it the
 * base register (for N) and the configuration register (for the page size of ps0). The table used has T1MMU_TSB_BYTES(N) bytes, else both
 * calls are refused with T1MMU_REFUSED_TABLE; the other one may have any length. The entry stands at byte
 * 16 * ((address / page size) mod 2^(9 + N)) of its table: at the ps0 pointer of command 0x09, less the table's address, which plays no part.
 * Tables are only read; they may be the same range, or overlap. A table of length 0 may be null.
 *
 * Number 1, whether the state is sound, is asked at each call, at the cost of some two dozen hits: most of what the call takes.
 */

/*
 * Which 16 bytes the miss handler looks at, whatever stands in them; the state is only read. Refused: 1, 5, 6, 14, in this order.
 * (specs: partOf)
 */
struct t1mmu_part t1mmu_hand_back(const uint64_t *state, size_t words, uint8_t strand, uint8_t side, const uint8_t *zero, size_t zero_length,
                                  const uint8_t *other, size_t other_length);

/*
 * Serves the miss that tag access is about. The 16 bytes fit when their tag has the context in bits 60:48, bits 63:22 of the address in bits
 * 41:0 (with ps0 of 256 MB only bits 63:28 are compared, and the tag's bits 5:0 are free) and zeros elsewhere, and their word has v 1 and in
 * all four bits the size code of ps0. A word that fits is inserted as by command 0x02 with flags 0, virtual and unlocked, and the answer is that
 * insertion's: T1MMU_DONE, T1MMU_DISPLACED, or T1MMU_REFUSED with 11, 12 or 13, which are asked on a fit alone. Bytes that do not fit are
 * answered T1MMU_NOT_IN_TABLE. Refused before it looks at them: 1, 5, 6, 14, in this order, answered as T1MMU_REFUSED.
 *
 * Serving writes no register, is no lookup and so not in the miss rate, and looks at no mode. Where an entry goes in, slots of its side
 * change and nothing else; where none does, nothing changes. (specs: servedOf)
 *
 * What a caller does: an access is answered with trap 0x64 (side 0) or 0x68 (side 1); it serves the strand and side, and on T1MMU_DONE or
 * T1MMU_DISPLACED sends the access again; on T1MMU_NOT_IN_TABLE it hands the trap to the guest. After a real miss (0x3E, 0x3F) tag access has
 * context 0, and serving would put in a *virtual* entry of context 0, which a real access never finds: do not serve those.
 */
struct t1mmu_answered t1mmu_serve(uint64_t *state, size_t words, uint8_t strand, uint8_t side, const uint8_t *zero, size_t zero_length,
                                  const uint8_t *other, size_t other_length);

/* All fields of an entry word; t1mmu_pack of them is the word again. (specs: unpacked) */
struct t1mmu_tte t1mmu_unpack(uint64_t word);

/*
 * The entry word of the fields. Of a field only the bits of its width are taken; where every field fits its width, t1mmu_unpack of the
 * word gives them back. Any word is packed, also one that an insertion refuses. (specs: packed)
 */
uint64_t t1mmu_pack(struct t1mmu_tte fields);

#ifdef __cplusplus
}
#endif

#endif
