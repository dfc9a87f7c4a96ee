//! The numbers of `include/t1mmu.h` under the same names, without `T1MMU_`; the crate's tests hold each to the header.

macro_rules! numbers {
    ($($(#[$about:meta])* $name:ident: $type:ty = $value:expr;)*) => {
        $($(#[$about])* pub const $name: $type = $value;)*

        /// Every number above by its name, for a comparison with the header.
        pub const ALL: &[(&str, u64)] = &[$((stringify!($name), $name as u64)),*];
    };
}

numbers! {
    /// The version that this crate is written for: major * 65536 + minor * 256 + patch.
    VERSION: u32 = 0x04_00_00;
    /// The words of a state.
    STATE_WORDS: usize = 776;
    /// The bytes of an answer.
    ANSWER_BYTES: usize = 24;
    STRANDS: usize = 4;
    SIDES: usize = 2;
    /// The slots of a side.
    SLOTS: usize = 64;
    /// Register numbers are below it.
    REGISTERS: usize = 26;
    /// The words of a strand in a state: one for each register number, zero where there is no such register.
    CELLS: usize = 32;
    /// The words of a slot in a state: owner, page, entry word, flags.
    SLOT_WORDS: usize = 4;
    /// Miss records: one for each strand and side, [`record_of`].
    RECORDS: usize = 8;
    /// The most lookups that a record keeps the outcomes of.
    KEPT_LOOKUPS: usize = 1024;
    /// The words of a record beside its newest one: 64 outcomes each, the latest in the lowest bit, 1 for a miss.
    OLDER_WORDS: usize = 15;
    /// The bytes of a TSB entry: its tag, then its word.
    TSB_ENTRY_BYTES: usize = 16;

    /// Where in a state begins what each record has seen: its lookups up to 1,024, from there on 1,024 and those in its newest word.
    SEEN: usize = 640;
    /// Where in a state the newest words of the records begin, one each; beyond 1,024 lookups the other bits are the oldest kept.
    NEWEST: usize = 648;
    /// Where in a state the older words of the records begin, [`OLDER_WORDS`] each.
    OLDER: usize = 656;

    // Commands, by their first byte.
    WRITE: u8 = 0x01;
    INSERT: u8 = 0x02;
    DEMAP_PAGE: u8 = 0x03;
    DEMAP_CONTEXT: u8 = 0x04;
    DEMAP_ALL: u8 = 0x05;
    /// Of [`crate::Unit::run_hypervisor`] alone.
    INVALIDATE: u8 = 0x06;
    ACCESS: u8 = 0x07;
    READ: u8 = 0x08;
    POINTERS: u8 = 0x09;
    /// Misses per thousand of the last [`KEPT_LOOKUPS`] lookups, rounded down.
    RATE: u8 = 0x0A;

    // The bytes of each command, its first byte included.
    WRITE_BYTES: usize = 11;
    INSERT_BYTES: usize = 12;
    DEMAP_PAGE_BYTES: usize = 13;
    DEMAP_CONTEXT_BYTES: usize = 4;
    DEMAP_ALL_BYTES: usize = 3;
    INVALIDATE_BYTES: usize = 2;
    ACCESS_BYTES: usize = 13;
    READ_BYTES: usize = 3;
    POINTERS_BYTES: usize = 3;
    RATE_BYTES: usize = 3;

    /// Side 0.
    INSTRUCTION: u8 = 0;
    /// Side 1.
    DATA: u8 = 1;

    /// Flag of an insertion or of a demap of a page: the entry is real.
    REAL: u8 = 1;
    /// Flag of an insertion: the entry is locked.
    LOCKED: u8 = 2;

    // Selectors.
    PRIMARY: u8 = 0;
    SECONDARY: u8 = 1;
    /// Context 0.
    NUCLEUS: u8 = 2;

    // Kinds of access.
    FETCH: u8 = 0;
    LOAD: u8 = 1;
    STORE: u8 = 2;
    ATOMIC: u8 = 3;
    NONFAULTING_LOAD: u8 = 4;

    // Registers of a strand.
    /// 0 to 7.
    PARTITION: u8 = 0;
    /// 0 to 8191.
    PRIMARY_CONTEXT: u8 = 1;
    /// 0 to 8191.
    SECONDARY_CONTEXT: u8 = 2;
    /// [`USER`], [`PRIVILEGED`] or [`HYPERPRIVILEGED`].
    MODE: u8 = 3;
    /// [`FETCH_ON`] + [`DATA_ON`].
    TRANSLATION: u8 = 4;
    /// 0 or 1.
    ADDRESS_MASK: u8 = 5;
    /// The first of eight: [`tsb_base_of`].
    TSB_BASE: u8 = 8;
    /// The first of four: [`tsb_configuration_of`].
    TSB_CONFIGURATION: u8 = 16;
    /// That of side 0; the next one is side 1's.
    TAG_ACCESS: u8 = 20;
    /// That of side 0; the next one is side 1's. Read only.
    FAULT_ADDRESS: u8 = 22;
    /// That of side 0; the next one is side 1's. Read only.
    FAULT_STATUS: u8 = 24;

    // Values of the mode; what a mode does not permit gets [`REFUSED_PERMISSION`].
    /// May send [`ACCESS`] and [`READ`].
    USER: u64 = 0;
    /// May also [`WRITE`] registers 1, 2, 5 and 8 to 21, [`INSERT`] with flags 0, and send [`DEMAP_PAGE`], [`DEMAP_CONTEXT`], [`POINTERS`] and
    /// [`RATE`].
    PRIVILEGED: u64 = 1;
    /// May send all that names a strand. Accesses bypass translation. I/O space, where bit 39 of the address is set, takes no nonfaulting load
    /// and no atomic access.
    HYPERPRIVILEGED: u64 = 2;

    // Bits of the translation register.
    FETCH_ON: u64 = 1;
    DATA_ON: u64 = 2;

    // Size codes of an entry word, of the TSB configuration and of a physical answer, its fourth byte; a Rust name has no digit in front.
    PAGE_8K: u64 = 0;
    PAGE_64K: u64 = 1;
    PAGE_4M: u64 = 3;
    PAGE_256M: u64 = 5;
    /// In a physical answer in place of a size code: a bypass, which has no page.
    BYPASS_CODE: u64 = 15;

    // Kinds of answer, their first byte.
    DONE: u8 = 0;
    PHYSICAL: u8 = 1;
    TRAP: u8 = 2;
    VALUE: u8 = 3;
    DISPLACED: u8 = 4;
    REFUSED: u8 = 5;
    /// Of [`crate::Unit::serve`] alone: the TSB entry does not fit.
    NOT_IN_TABLE: u8 = 6;

    // Attributes of a physical answer, its second byte.
    CP: u8 = 1;
    E: u8 = 2;
    IE: u8 = 4;

    // Traps.
    INSTRUCTION_ACCESS_EXCEPTION: u8 = 0x08;
    DATA_ACCESS_EXCEPTION: u8 = 0x30;
    MEM_ADDRESS_NOT_ALIGNED: u8 = 0x34;
    PRIVILEGED_ACTION: u8 = 0x37;
    INSTRUCTION_REAL_TRANSLATION_MISS: u8 = 0x3E;
    DATA_REAL_TRANSLATION_MISS: u8 = 0x3F;
    FAST_INSTRUCTION_ACCESS_MMU_MISS: u8 = 0x64;
    FAST_DATA_ACCESS_MMU_MISS: u8 = 0x68;
    FAST_DATA_ACCESS_PROTECTION: u8 = 0x6C;

    /// Fault type: a page with p 1 in mode 0.
    FAULT_PRIVILEGED: u8 = 0x01;
    /// Fault type: a nonfaulting load of a page with e 1, or in mode 2 of I/O space.
    FAULT_SIDE_EFFECT: u8 = 0x02;
    /// Fault type: an atomic access to a page with cp 0, or in mode 2 to I/O space.
    FAULT_UNCACHEABLE: u8 = 0x04;
    /// Fault type: a page with nfo 1, and no nonfaulting load.
    FAULT_NONFAULTING_ONLY: u8 = 0x10;
    /// Fault type: an address from 2^47 to 2^64 - 2^47 - 1.
    FAULT_OUT_OF_RANGE: u8 = 0x20;

    // Why a command that was taken, or a call of the miss handler, did not act.
    /// The state is not sound; of the miss handler's two calls alone.
    REFUSED_STATE: u8 = 1;
    REFUSED_STRAND: u8 = 5;
    /// The side, or the kind of an access.
    REFUSED_SIDE: u8 = 6;
    REFUSED_SELECTOR: u8 = 7;
    /// Flag bits without a meaning, or the size of an access.
    REFUSED_OPERAND: u8 = 8;
    REFUSED_REGISTER: u8 = 9;
    REFUSED_VALUE: u8 = 10;
    REFUSED_ADDRESS: u8 = 11;
    REFUSED_WORD: u8 = 12;
    REFUSED_NO_SLOT: u8 = 13;
    /// The TSB that is used has another length; of the miss handler's two calls alone.
    REFUSED_TABLE: u8 = 14;
    /// No lookup of the strand and side since reset; of [`RATE`] alone.
    REFUSED_NO_LOOKUP: u8 = 15;
    /// The strand's mode does not permit the command, or the call no invalidation. Asked between [`REFUSED_VALUE`] and [`REFUSED_ADDRESS`].
    REFUSED_PERMISSION: u8 = 16;

    // Why a run ended; [`crate::Stop`] has them as an enum.
    END: u8 = 0;
    STOP_UNSOUND: u8 = 1;
    STOP_UNKNOWN: u8 = 2;
    STOP_INCOMPLETE: u8 = 3;
    STOP_NO_ROOM: u8 = 4;
}

/// The TSB base register of a side; `nonzero` for the table of contexts that are not zero, `ps` 0 for ps0 and 1 for ps1.
pub const fn tsb_base_of(side: u8, nonzero: bool, ps: u8) -> u8 {
    TSB_BASE + 4 * side + 2 * nonzero as u8 + ps
}

/// The TSB configuration register of a side; `nonzero` for the table of contexts that are not zero.
pub const fn tsb_configuration_of(side: u8, nonzero: bool) -> u8 {
    TSB_CONFIGURATION + 2 * side + nonzero as u8
}

/// The bytes of a TSB whose base register has N, 0 to 15.
pub const fn tsb_bytes(n: u32) -> usize {
    TSB_ENTRY_BYTES << (9 + n)
}

/// The bytes of a page by its size code; none where it has no page, as [`BYPASS_CODE`].
pub const fn page_bytes(code: u64) -> Option<u64> {
    match code {
        PAGE_8K | PAGE_64K | PAGE_4M | PAGE_256M => Some(1 << (13 + 3 * code)),
        _ => None,
    }
}

/// Where in a state a strand's register stands.
pub const fn cell_at(strand: usize, register: u8) -> usize {
    CELLS * strand + register as usize
}

/// Where in a state the words of a slot begin.
pub const fn slot_at(side: usize, slot: usize) -> usize {
    cell_at(STRANDS, 0) + SLOT_WORDS * (SLOTS * side + slot)
}

/// Which of the records is a strand's and side's.
pub const fn record_of(strand: usize, side: usize) -> usize {
    SIDES * strand + side
}
