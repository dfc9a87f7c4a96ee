//! Deliberate errors of the model, to show that the comparison would see such an error in the library.
use std::sync::atomic::{AtomicU8, Ordering};

#[derive(Clone, Copy, PartialEq, Debug)]
#[repr(u8)]
pub enum Broken {
    Nothing,
    /// a miss sets the used bit of slot 0
    UsedBitOnMiss,
    /// displacement takes the highest unlocked slot without a used bit
    DisplaceHighest,
    /// demap all removes locked entries too
    ForgetLocked,
    /// number 13 is asked before number 12
    WrongOrder12And13,
    /// the third choice clears only unlocked entries' used bits
    ClearUnlockedOnly,
    /// real entries are compared by context
    ContextOnReal,
    /// the offset is added to the word's address as it stands
    UnroundedAddress,
    /// demap all reaches other partitions
    DemapAllPartitions,
    /// number 13 where an overlapped entry frees a slot
    RefuseDespiteOverlap,
    /// the mask holds in mode 2 too
    MaskInMode2,
    /// a dirty empty slot passes as sound
    DirtyEmptySlots,
    /// a trap of a bypass into I/O space leaves the selected context in tag access
    IoSelectedContext,
    /// or leaves tag access as it was
    IoTagKept,
    /// its fault types are swapped
    IoKindsSwapped,
    /// bit 40 stands for bit 39
    IoBit40,
    /// mode 1 has it, too
    IoInMode1,
    /// it comes before step 1
    IoBeforeAlignment,
    /// I/O space takes no stores either
    IoStopsStores,
    /// a bypass says size code 0
    BypassCode0,
    /// a hit has no size code
    HitCode0,
    /// a hit says that it has no page
    HitCode15,
    /// the largest pages have the size code of the next ones
    HitCode5As3,
    /// a lookup whose entry faults counts as a miss
    FaultNotedAsMiss,
    /// an access out of range counts as a miss
    RangeNoted,
    /// a rate of one lookup fewer than are kept
    RateOfLast1023,
    RateRoundedUp,
    /// number 15 is asked before number 6
    RateAskedBeforeSide,
    /// both sides of a strand share a record
    OneRecordForSides,
    /// invalidation empties the side's records
    InvalidateForgetsLookups,
    /// number 16 is asked before number 10
    ModeBeforeValue,
    /// before number 8
    ModeBeforeFlags,
    /// before number 6
    ModeBeforeSide,
    /// after number 11
    ModeAfterRange,
    /// after numbers 12 and 13
    ModeAfterSlot,
    /// after number 15
    ModeAfterRecord,
    /// every strand is asked for the mode of strand 0
    ModeOfStrand0,
    Mode1WritesPartition,
    Mode1WritesMode,
    Mode1WritesTranslation,
    Mode1InsertsReal,
    Mode1InsertsLocked,
    Mode1DemapsAll,
    /// a real page is demapped in mode 2 alone
    RealDemapByMode2,
    /// a stream marked as the hypervisor's may send everything
    HypervisorMayAll,
    /// a stream that is not marked so may send invalidate
    InvalidateUnmarked,
    /// the miss handler takes the table of the other contexts
    ServeSwapped,
    /// N of the ps1 table
    ServePs1Base,
    /// the size code of ps1
    ServePs1Size,
    /// a table that is too long will do
    ServeLongTable,
    /// the table that is not used has to have its length, too
    ServeBothLengths,
    /// the entry's place by 8 KB pages at every size code
    ServeBy8K,
    /// hand back gives a part only where the entry fits
    HandBackFitOnly,
    ServeAnyContext,
    ServeAnyAddress,
    /// tag bits 63:61 may be set
    ServeTagAbove,
    /// tag bits 47:42 may be set
    ServeTagBetween,
    /// an entry word with v 0 fits
    ServeInvalid,
    ServeAnySize,
    /// three bits of the word's size are compared
    ServeSizeBit3,
    /// 256 MB pages are compared down to bit 22
    ServeFine,
    /// all pages are compared down to bit 28 only
    ServeCoarse,
    /// a word that number 12 refuses does not fit
    ServeWordChecked,
    /// 11 to 13 are asked of an entry that does not fit
    ServeAskedFirst,
    /// in place of number 13, done
    ServeNever13,
    ServeReal,
    ServeLocked,
    /// the new entry has no used bit
    ServeUnused,
    /// a serve clears fault status
    ServeWrites,
    /// in mode 2 nothing is in the table
    ServeByMode,
    /// in mode 0 a fit gets number 16
    ServeAsksMode,
    ServeLittleEndian,
    /// a serve counts as a lookup
    ServeNoted,
}

const NAMES: &[(&str, Broken)] = &[
    ("used-bit-on-miss", Broken::UsedBitOnMiss),
    ("displace-highest", Broken::DisplaceHighest),
    ("forget-locked", Broken::ForgetLocked),
    ("wrong-order-12-13", Broken::WrongOrder12And13),
    ("clear-unlocked-only", Broken::ClearUnlockedOnly),
    ("context-on-real", Broken::ContextOnReal),
    ("unrounded-address", Broken::UnroundedAddress),
    ("demap-all-partitions", Broken::DemapAllPartitions),
    ("refuse-despite-overlap", Broken::RefuseDespiteOverlap),
    ("mask-in-mode-2", Broken::MaskInMode2),
    ("dirty-empty-slots", Broken::DirtyEmptySlots),
    ("io-selected-context", Broken::IoSelectedContext),
    ("io-tag-kept", Broken::IoTagKept),
    ("io-kinds-swapped", Broken::IoKindsSwapped),
    ("io-bit-40", Broken::IoBit40),
    ("io-in-mode-1", Broken::IoInMode1),
    ("io-before-alignment", Broken::IoBeforeAlignment),
    ("io-stops-stores", Broken::IoStopsStores),
    ("bypass-code-0", Broken::BypassCode0),
    ("hit-code-0", Broken::HitCode0),
    ("hit-code-15", Broken::HitCode15),
    ("hit-code-5-as-3", Broken::HitCode5As3),
    ("fault-noted-as-miss", Broken::FaultNotedAsMiss),
    ("range-noted", Broken::RangeNoted),
    ("rate-of-last-1023", Broken::RateOfLast1023),
    ("rate-rounded-up", Broken::RateRoundedUp),
    ("rate-asked-before-side", Broken::RateAskedBeforeSide),
    ("one-record-for-sides", Broken::OneRecordForSides),
    ("invalidate-forgets-lookups", Broken::InvalidateForgetsLookups),
    ("mode-before-value", Broken::ModeBeforeValue),
    ("mode-before-flags", Broken::ModeBeforeFlags),
    ("mode-before-side", Broken::ModeBeforeSide),
    ("mode-after-range", Broken::ModeAfterRange),
    ("mode-after-slot", Broken::ModeAfterSlot),
    ("mode-after-record", Broken::ModeAfterRecord),
    ("mode-of-strand-0", Broken::ModeOfStrand0),
    ("mode-1-writes-partition", Broken::Mode1WritesPartition),
    ("mode-1-writes-mode", Broken::Mode1WritesMode),
    ("mode-1-writes-translation", Broken::Mode1WritesTranslation),
    ("mode-1-inserts-real", Broken::Mode1InsertsReal),
    ("mode-1-inserts-locked", Broken::Mode1InsertsLocked),
    ("mode-1-demaps-all", Broken::Mode1DemapsAll),
    ("real-demap-by-mode-2", Broken::RealDemapByMode2),
    ("hypervisor-may-all", Broken::HypervisorMayAll),
    ("invalidate-unmarked", Broken::InvalidateUnmarked),
    ("serve-swapped", Broken::ServeSwapped),
    ("serve-ps1-base", Broken::ServePs1Base),
    ("serve-ps1-size", Broken::ServePs1Size),
    ("serve-long-table", Broken::ServeLongTable),
    ("serve-both-lengths", Broken::ServeBothLengths),
    ("serve-by-8k", Broken::ServeBy8K),
    ("hand-back-fit-only", Broken::HandBackFitOnly),
    ("serve-any-context", Broken::ServeAnyContext),
    ("serve-any-address", Broken::ServeAnyAddress),
    ("serve-tag-above", Broken::ServeTagAbove),
    ("serve-tag-between", Broken::ServeTagBetween),
    ("serve-invalid", Broken::ServeInvalid),
    ("serve-any-size", Broken::ServeAnySize),
    ("serve-size-bit-3", Broken::ServeSizeBit3),
    ("serve-fine", Broken::ServeFine),
    ("serve-coarse", Broken::ServeCoarse),
    ("serve-word-checked", Broken::ServeWordChecked),
    ("serve-asked-first", Broken::ServeAskedFirst),
    ("serve-never-13", Broken::ServeNever13),
    ("serve-real", Broken::ServeReal),
    ("serve-locked", Broken::ServeLocked),
    ("serve-unused", Broken::ServeUnused),
    ("serve-writes", Broken::ServeWrites),
    ("serve-by-mode", Broken::ServeByMode),
    ("serve-asks-mode", Broken::ServeAsksMode),
    ("serve-little-endian", Broken::ServeLittleEndian),
    ("serve-noted", Broken::ServeNoted),
];

static CHOSEN: AtomicU8 = AtomicU8::new(Broken::Nothing as u8);

/// Breaks the model for the rest of the process.
pub fn choose(name: &str) -> Result<(), String> {
    let names: Vec<&str> = NAMES.iter().map(|(n, _)| *n).collect();
    let found = NAMES.iter().find(|(n, _)| *n == name).ok_or(format!("{name}: one of {names:?}"))?;
    CHOSEN.store(found.1 as u8, Ordering::Relaxed);
    Ok(())
}

pub fn names() -> Vec<&'static str> {
    NAMES.iter().map(|(n, _)| *n).collect()
}

pub fn is(which: Broken) -> bool {
    CHOSEN.load(Ordering::Relaxed) == which as u8
}

/// The size code of a hit, by a model that may be broken.
pub fn code(code: u8) -> u8 {
    match code {
        _ if is(Broken::HitCode0) => 0,
        _ if is(Broken::HitCode15) => 15,
        5 if is(Broken::HitCode5As3) => 3,
        _ => code,
    }
}
