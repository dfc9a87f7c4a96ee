//! The translation unit of an UltraSPARC T1 core, over the proved library (`libt1mmu.a`, `libt1mmu_miss.a`).
//!
//! Every call is proved equal to a definition in `crates/machine/specs`, and again to a second text of it; this crate adds types and names, and lends slices.
//! The proof asks that the ranges lent may be read, and that those written overlap no other: `&[u8]` and `&mut [u8]` say just that.
//! [`numbers`] has what commands and answers are made of; [`sys`] has the C calls themselves.

use std::fmt;

pub mod numbers;
pub mod sys;

pub use numbers::{ANSWER_BYTES, STATE_WORDS, VERSION};

/// The fields of an entry word (a sun4v TTE), from bit 63 down. `address` is bits 55:13 of the word.
#[repr(C)]
#[derive(Clone, Copy, Debug, Default, PartialEq, Eq)]
pub struct Tte {
    pub v: u64,
    pub nfo: u64,
    pub soft2: u64,
    pub address: u64,
    pub ie: u64,
    pub e: u64,
    pub cp: u64,
    pub cv: u64,
    pub p: u64,
    pub ep: u64,
    pub w: u64,
    pub soft: u64,
    pub size: u64,
}

/// Why a run ended.
#[derive(Clone, Copy, Debug, PartialEq, Eq)]
pub enum Stop {
    /// At the end of the input.
    End,
    /// The state is not sound: nothing was taken and nothing changed.
    Unsound,
    /// Before a command whose byte is not known.
    Unknown,
    /// Before a command that lacks operand bytes.
    Incomplete,
    /// Before a command for whose answer fewer than 24 bytes are left.
    NoRoom,
}

impl Stop {
    /// The document's number.
    pub fn number(self) -> u8 {
        match self {
            Stop::End => numbers::END,
            Stop::Unsound => numbers::STOP_UNSOUND,
            Stop::Unknown => numbers::STOP_UNKNOWN,
            Stop::Incomplete => numbers::STOP_INCOMPLETE,
            Stop::NoRoom => numbers::STOP_NO_ROOM,
        }
    }

    fn of(number: u8) -> Stop {
        match number {
            numbers::END => Stop::End,
            numbers::STOP_UNSOUND => Stop::Unsound,
            numbers::STOP_UNKNOWN => Stop::Unknown,
            numbers::STOP_INCOMPLETE => Stop::Incomplete,
            numbers::STOP_NO_ROOM => Stop::NoRoom,
            _ => unreachable!("the library proves its stop to be one of these"),
        }
    }
}

/// What a run returns beside the state and the answers.
#[derive(Clone, Copy, Debug, PartialEq, Eq)]
pub struct Report {
    /// Commands taken, each with an answer of 24 bytes.
    pub answered: usize,
    /// Bytes of the input that they had.
    pub taken: usize,
    pub stop: Stop,
}

/// Why no part of a table is handed back, in the order asked.
#[derive(Clone, Copy, Debug, PartialEq, Eq)]
pub enum NoPart {
    /// The state is not sound.
    State,
    /// The strand is not 0 to 3.
    Strand,
    /// The side is not 0 or 1.
    Side,
    /// The table used has not [`numbers::tsb_bytes`] of its N.
    Table,
}

impl NoPart {
    /// The document's number, which [`Unit::serve`] answers with.
    pub fn number(self) -> u8 {
        match self {
            NoPart::State => numbers::REFUSED_STATE,
            NoPart::Strand => numbers::REFUSED_STRAND,
            NoPart::Side => numbers::REFUSED_SIDE,
            NoPart::Table => numbers::REFUSED_TABLE,
        }
    }

    fn of(number: u8) -> NoPart {
        match number {
            numbers::REFUSED_STATE => NoPart::State,
            numbers::REFUSED_STRAND => NoPart::Strand,
            numbers::REFUSED_SIDE => NoPart::Side,
            numbers::REFUSED_TABLE => NoPart::Table,
            _ => unreachable!("the library proves its number to be one of these"),
        }
    }
}

/// One of the two calls that run a stream.
type Run = unsafe extern "C" fn(*mut u64, usize, *const u8, usize, *mut u8, usize) -> sys::Report;

/// The state of one core.
#[derive(Clone, PartialEq, Eq)]
pub struct Unit {
    words: Box<[u64; STATE_WORDS]>,
}

impl Unit {
    /// A core at reset: all zero, every strand in mode 2, both TLBs empty, no lookup kept.
    pub fn reset() -> Unit {
        let mut words = Box::new([0; STATE_WORDS]);
        // SAFETY: the pointer and the length are of one array that is ours alone.
        let number = unsafe { sys::t1mmu_reset(words.as_mut_ptr(), words.len()) };
        assert_eq!(number, 0, "the linked library has states of another length");
        Unit { words }
    }

    /// A core from words that were kept. They need not be sound: a run then stops with [`Stop::Unsound`].
    pub fn from_words(words: [u64; STATE_WORDS]) -> Unit {
        Unit { words: Box::new(words) }
    }

    /// The words of the state, to be kept.
    pub fn words(&self) -> &[u64; STATE_WORDS] {
        &self.words
    }

    /// Takes command after command from the input and writes an answer of 24 bytes for each; output behind them keeps its bytes.
    /// Soundness is asked once a run, at the cost of some two dozen hits: give a run many commands where you can.
    ///
    /// The bytes may be a guest's. The mode of the strand that a command names says what it may do ([`numbers::USER`] and the two behind it),
    /// and an invalidation is refused. Where every strand named is in mode 0 or 1, no partition, mode or translation changes, and every
    /// locked entry stays that belongs to a partition in which none of these strands is. At reset all are in mode 2, so set them first. No
    /// command leaves mode 0 or 1 again: the host does, in the words of the state ([`Unit::words`], [`numbers::cell_at`],
    /// [`Unit::from_words`]).
    pub fn run(&mut self, input: &[u8], output: &mut [u8]) -> Report {
        self.run_by(sys::t1mmu_run, input, output)
    }

    /// The same for a stream of the hypervisor's own: it takes [`numbers::INVALIDATE`], too. Modes count as in [`Unit::run`].
    pub fn run_hypervisor(&mut self, input: &[u8], output: &mut [u8]) -> Report {
        self.run_by(sys::t1mmu_run_hypervisor, input, output)
    }

    fn run_by(&mut self, call: Run, input: &[u8], output: &mut [u8]) -> Report {
        // SAFETY: three slices, so readable, the mutable ones ours alone, and none overlaps another.
        let report = unsafe { call(self.words.as_mut_ptr(), self.words.len(), input.as_ptr(), input.len(), output.as_mut_ptr(), output.len()) };
        Report { answered: report.answered, taken: report.taken, stop: Stop::of(report.stop) }
    }

    /// The 16 bytes of the guest's TSB where the ps0 pointer of tag access points: a part of `zero` where its context is zero, else of `other`.
    /// The part lives as long as the tables, not as the borrow of the unit. What stands in it is not looked at.
    pub fn hand_back<'a>(&self, strand: u8, side: u8, zero: &'a [u8], other: &'a [u8]) -> Result<&'a [u8], NoPart> {
        let words = &self.words;
        // SAFETY: three slices that are only read.
        let part = unsafe {
            sys::t1mmu_hand_back(words.as_ptr(), words.len(), strand, side, zero.as_ptr(), zero.len(), other.as_ptr(), other.len())
        };
        if part.number != 0 {
            return Err(NoPart::of(part.number));
        }
        let table = if part.other == 0 { zero } else { other };
        Ok(&table[part.start..part.start + part.length])
    }

    /// Serves the miss that tag access is about from the guest's TSBs. Where the 16 bytes that [`Unit::hand_back`] gives fit, their word is
    /// inserted, virtual and unlocked, and the answer is that insertion's; else it is [`numbers::NOT_IN_TABLE`]. Where hand back
    /// gives no part the answer is [`numbers::REFUSED`] with its number. Like hand back it asks for soundness at each call.
    pub fn serve(&mut self, strand: u8, side: u8, zero: &[u8], other: &[u8]) -> [u8; ANSWER_BYTES] {
        let words = &mut self.words;
        // SAFETY: three slices; the state is ours alone, and the tables are only read.
        let answered = unsafe {
            sys::t1mmu_serve(words.as_mut_ptr(), words.len(), strand, side, zero.as_ptr(), zero.len(), other.as_ptr(), other.len())
        };
        answered.bytes
    }
}

impl fmt::Debug for Unit {
    fn fmt(&self, f: &mut fmt::Formatter<'_>) -> fmt::Result {
        f.debug_struct("Unit").field("nonzero_words", &self.words.iter().filter(|w| **w != 0).count()).finish()
    }
}

/// All fields of an entry word; [`pack`] of them is the word again.
pub fn unpack(word: u64) -> Tte {
    // SAFETY: numbers alone go over.
    unsafe { sys::t1mmu_unpack(word) }
}

/// The entry word of the fields; of each only the bits of its width are taken.
pub fn pack(fields: Tte) -> u64 {
    // SAFETY: numbers alone go over.
    unsafe { sys::t1mmu_pack(fields) }
}

/// The version of the library that is linked.
pub fn version() -> u32 {
    // SAFETY: nothing goes over.
    unsafe { sys::t1mmu_version() }
}

/// The words of a state, as the library that is linked has them.
pub fn state_words() -> usize {
    // SAFETY: nothing goes over.
    unsafe { sys::t1mmu_state_words() }
}
