//! The unit as document 01 has it, with document 02's miss handler, miss rates and permissions: plain structs, one scan for each question.
//! Comments name the section that decides. Only the places of registers, slots and records in the lent words are the library's; what they
//! mean is written again, here and in `record`.
use crate::broken::{self, Broken};
use crate::command::{decode, strand_of, width, Command};
use crate::record::Record;
use t1mmu::numbers::{cell_at, slot_at, ANSWER_BYTES, CELLS, REGISTERS, SIDES, SLOTS, SLOT_WORDS, STATE_WORDS, STRANDS};
pub use t1mmu::sys::{Part, Report};

#[derive(Clone, Copy, Debug, PartialEq)]
pub struct Entry {
    pub partition: u64,
    pub real: bool,
    pub context: u64,
    pub page: u64,
    pub word: u64,
    pub locked: bool,
    pub used: bool,
}

#[derive(Clone, Debug, PartialEq)]
pub struct Model {
    /// by strand and number; 6 and 7 are no registers and stay 0
    pub registers: [[u64; REGISTERS]; STRANDS],
    pub sides: [[Option<Entry>; SLOTS]; SIDES],
    /// of lookups, by strand and side
    pub records: [[Record; SIDES]; STRANDS],
    /// what happened inside, for coverage
    pub events: Vec<Event>,
}

#[derive(Clone, Copy, Debug, PartialEq)]
pub enum Event {
    /// number 16 was asked, in the mode of the strand named, none for invalidate
    Asked { command: Command, mode: Option<u64>, hypervisor: bool, told: Permission },
    Inserted(Choice),
    /// a lookup found this entry
    Found(Entry),
    /// and the access ended in a physical address
    Translated { fetch: bool, real: bool, code: u8 },
    Bypassed { kind: u8, io: bool },
    /// a bypass that I/O space does not take; whether translation is on, the selected context is not 0, and a bit above 39 is set
    IoFault { kind: u8, translating: bool, context: bool, above: bool },
    /// a rate was told, of as many lookups as are ever kept or of fewer
    Rated { full: bool, rate: u64 },
    /// a table of the right length was looked at; whether the one not looked at has the length that its own N asks for
    Looked { other: bool, unused_right: bool },
    /// the TSB entry fails by this alone
    Misfit(Misfit),
    /// the TSB entry fits, whatever the strand's mode; whether its tag has bits that are not compared and differ from the address
    Fits { mode: u64, n: u64, code: u64, free_bits: bool },
    /// an entry that a serve put in
    Served(Entry),
}

#[derive(Clone, Copy, Debug, PartialEq, Eq)]
pub enum Permission {
    Permitted,
    /// 16; and the number that a permitted command would have been refused by, if any
    Refused { before: Option<u8> },
}

/// What a TSB entry can fail to fit by.
#[derive(Clone, Copy, Debug, PartialEq, Eq)]
pub enum Misfit {
    Context,
    Address,
    TagAbove,
    TagBetween,
    Invalid,
    SizeCode,
    SizeBit3,
}

pub const MISFITS: [(Misfit, Broken); 7] = [
    (Misfit::Context, Broken::ServeAnyContext),
    (Misfit::Address, Broken::ServeAnyAddress),
    (Misfit::TagAbove, Broken::ServeTagAbove),
    (Misfit::TagBetween, Broken::ServeTagBetween),
    (Misfit::Invalid, Broken::ServeInvalid),
    (Misfit::SizeCode, Broken::ServeAnySize),
    (Misfit::SizeBit3, Broken::ServeSizeBit3),
];

/// How an insertion came to its slot.
#[derive(Clone, Copy, Debug, PartialEq, Eq, PartialOrd, Ord)]
pub enum Choice {
    Empty,
    EmptyAfterOverlap,
    EmptyAfterSeveralOverlaps,
    FullSideOverlap,
    LowestUnused,
    UsedBitsCleared,
}

pub const CHOICES: [Choice; 6] = [
    Choice::Empty,
    Choice::EmptyAfterOverlap,
    Choice::EmptyAfterSeveralOverlaps,
    Choice::FullSideOverlap,
    Choice::LowestUnused,
    Choice::UsedBitsCleared,
];

#[derive(Clone, Copy, Debug, PartialEq)]
pub enum Answer {
    Done { count: u64 },
    /// the size code of the page, 15 where there is none
    Physical { attributes: u8, code: u8, address: u64 },
    Trap { number: u8, fault: u8, address: u64, tag: u64 },
    Read { first: u64, second: u64 },
    Displaced { entry: Entry },
    Refused { number: u8 },
    NotInTable,
}

// ---- addresses and entry words

/// 47 bits, sign-extended ("Addresses and entry words").
pub fn in_range(address: u64) -> bool {
    address < 1 << 47 || address >= (1u64 << 47).wrapping_neg()
}

/// The page's bytes by its size code; none for a code that is not listed.
pub fn page_size(code: u64) -> Option<u64> {
    match code {
        0 => Some(1 << 13),
        1 => Some(1 << 16),
        3 => Some(1 << 22),
        5 => Some(1 << 28),
        _ => None,
    }
}

fn bit(word: u64, n: u32) -> bool {
    word >> n & 1 == 1
}

/// Number 12: live, of a listed size, and its address below 2^40.
pub fn word_allowed(word: u64) -> bool {
    bit(word, 63) && page_size(word & 15).is_some() && word >> 40 & 0xFFFF == 0
}

/// The page size of a word that passed number 12.
fn size_of(word: u64) -> u64 {
    page_size(word & 15).expect("a listed size")
}

fn round_down(address: u64, size: u64) -> u64 {
    address & !(size - 1)
}

impl Entry {
    fn holds(&self, address: u64) -> bool {
        round_down(address, size_of(self.word)) == self.page
    }

    /// Same owner, and one of the pages reaches into the other ("Insertion and removal").
    pub fn overlaps(&self, other: &Entry) -> bool {
        let agree = self.partition == other.partition && self.real == other.real && self.context == other.context;
        agree && (self.holds(other.page) || other.holds(self.page))
    }
}

// ---- registers

pub fn known(register: u8) -> bool {
    matches!(register, 0..=5 | 8..=25)
}

fn writable(register: u8) -> bool {
    matches!(register, 0..=5 | 8..=21)
}

/// Number 10, for a writable register.
fn value_allowed(register: u8, value: u64) -> bool {
    match register {
        0 => value <= 7,
        1 | 2 => value <= 8191,
        3 => value <= 2,
        4 => value <= 3,
        5 => value <= 1,
        8..=15 => value & 0x1FF0 == 0,
        16..=19 => value & !0x707 == 0 && page_size(value & 7).is_some() && page_size(value >> 8 & 7).is_some(),
        _ => true,
    }
}

// ---- the state as words

fn entry_of(slot: &[u64]) -> Option<Entry> {
    let [owner, page, word, flags] = [slot[0], slot[1], slot[2], slot[3]];
    let entry = Entry {
        partition: owner >> 14,
        real: bit(owner, 13),
        context: owner & 0x1FFF,
        page,
        word,
        locked: bit(flags, 0),
        used: bit(flags, 1),
    };
    let fits = entry.partition <= 7 && flags <= 3 && !(entry.real && entry.context != 0);
    let sound = fits && word_allowed(word) && in_range(page) && round_down(page, size_of(word)) == page;
    sound.then_some(entry)
}

fn words_of(slot: &Option<Entry>) -> [u64; SLOT_WORDS] {
    match slot {
        None => [0; SLOT_WORDS],
        Some(e) => [e.partition << 14 | (e.real as u64) << 13 | e.context, e.page, e.word, e.locked as u64 | (e.used as u64) << 1],
    }
}

/// One side; none when a slot is not sound or two live entries overlap.
fn side_of(words: &[u64]) -> Option<[Option<Entry>; SLOTS]> {
    let mut side = [None; SLOTS];
    for (i, slot) in words.chunks(SLOT_WORDS).enumerate() {
        if bit(slot[2], 63) {
            side[i] = Some(entry_of(slot)?);
        } else if slot != [0; SLOT_WORDS] && !broken::is(Broken::DirtyEmptySlots) {
            return None;
        }
    }
    let live: Vec<Entry> = side.iter().flatten().copied().collect();
    for (i, one) in live.iter().enumerate() {
        if live[i + 1..].iter().any(|other| one.overlaps(other)) {
            return None;
        }
    }
    Some(side)
}

impl Model {
    /// Mode 2 on every strand, and nothing else ("Registers").
    pub fn reset() -> Model {
        let mut registers = [[0; REGISTERS]; STRANDS];
        for strand in &mut registers {
            strand[3] = 2;
        }
        Model { registers, sides: [[None; SLOTS]; SIDES], records: Default::default(), events: Vec::new() }
    }

    /// The state that the words hold; none where it is not sound (number 1).
    pub fn from_words(words: &[u64]) -> Option<Model> {
        if words.len() != STATE_WORDS {
            return None;
        }
        let mut model = Model::reset();
        for (strand, registers) in model.registers.iter_mut().enumerate() {
            for number in 0..CELLS as u8 {
                let value = words[cell_at(strand, number)];
                let sound = if known(number) { value_allowed(number, value) } else { value == 0 };
                if !sound {
                    return None;
                }
                if let Some(register) = registers.get_mut(number as usize) {
                    *register = value;
                }
            }
        }
        for (side, slots) in model.sides.iter_mut().enumerate() {
            *slots = side_of(&words[slot_at(side, 0)..slot_at(side + 1, 0)])?;
        }
        for (strand, records) in model.records.iter_mut().enumerate() {
            for (side, record) in records.iter_mut().enumerate() {
                *record = Record::from_words(words, strand, side)?;
            }
        }
        Some(model)
    }

    pub fn to_words(&self) -> Vec<u64> {
        let mut words = vec![0; STATE_WORDS];
        for (strand, registers) in self.registers.iter().enumerate() {
            words[cell_at(strand, 0)..][..REGISTERS].copy_from_slice(registers);
        }
        for (side, slots) in self.sides.iter().enumerate() {
            for (i, slot) in slots.iter().enumerate() {
                words[slot_at(side, i)..][..SLOT_WORDS].copy_from_slice(&words_of(slot));
            }
        }
        for (strand, records) in self.records.iter().enumerate() {
            records.iter().enumerate().for_each(|(side, record)| record.to_words(&mut words, strand, side));
        }
        words
    }
}

// ---- questions 5 to 13, 15 and 16

fn side_of_kind(kind: u8) -> usize {
    if kind == 0 {
        0
    } else {
        1
    }
}

/// Each question as the number it answers with and whether it fails; the first that fails answers.
type Question = (u8, bool);

fn first_failing(questions: &[Question]) -> Option<u8> {
    questions.iter().find(|(_, fails)| *fails).map(|(number, _)| *number)
}

/// The least mode that may send a command which names a strand (document 02, U6).
fn least_mode(command: Command) -> u64 {
    match command {
        Command::Access { .. } | Command::Read { .. } => 0,
        Command::DemapPage { flags: 1, .. } if broken::is(Broken::RealDemapByMode2) => 2,
        Command::DemapPage { .. } | Command::DemapContext { .. } | Command::Pointers { .. } | Command::Rate { .. } => 1,
        Command::Write { register: 1 | 2 | 5 | 8..=21, .. } | Command::Insert { flags: 0, .. } => 1,
        Command::Write { register: 4, .. } if broken::is(Broken::Mode1WritesTranslation) => 1,
        Command::Write { register: 0, .. } if broken::is(Broken::Mode1WritesPartition) => 1,
        Command::Write { register: 3, .. } if broken::is(Broken::Mode1WritesMode) => 1,
        Command::Insert { flags: 1, .. } if broken::is(Broken::Mode1InsertsReal) => 1,
        Command::Insert { flags: 2, .. } if broken::is(Broken::Mode1InsertsLocked) => 1,
        Command::DemapAll { .. } if broken::is(Broken::Mode1DemapsAll) => 1,
        Command::Write { .. } | Command::Insert { .. } | Command::DemapAll { .. } => 2,
        Command::Invalidate { .. } => unreachable!("it names no strand"),
    }
}

/// Whether a question comes before 16: those up to 10 do, those from 11 on do not.
fn asked_before_16(number: u8) -> bool {
    let misplaced = match number {
        6 => Broken::ModeBeforeSide,
        8 => Broken::ModeBeforeFlags,
        10 => Broken::ModeBeforeValue,
        11 => Broken::ModeAfterRange,
        12 | 13 => Broken::ModeAfterSlot,
        15 => Broken::ModeAfterRecord,
        _ => return number <= 10,
    };
    (number <= 10) != broken::is(misplaced)
}

impl Model {
    /// The mode of the strand that a command names; its strand is good.
    fn mode_of(&self, command: Command) -> Option<u64> {
        let strand = strand_of(command)?;
        let strand = if broken::is(Broken::ModeOfStrand0) { 0 } else { strand };
        Some(self.registers[strand as usize][3])
    }

    /// Number 16: by the mode of the strand, or where there is none by the stream.
    fn permitted(&self, command: Command, hypervisor: bool) -> bool {
        match self.mode_of(command) {
            Some(mode) => mode >= least_mode(command) || hypervisor && broken::is(Broken::HypervisorMayAll),
            None => hypervisor || broken::is(Broken::InvalidateUnmarked),
        }
    }

    /// The first question that fails.
    fn refusal(&mut self, command: Command, hypervisor: bool) -> Option<u8> {
        let other = self.refusal_but_16(command);
        if other.is_some_and(asked_before_16) {
            return other;
        }
        let permitted = self.permitted(command, hypervisor);
        let told = if permitted { Permission::Permitted } else { Permission::Refused { before: other } };
        self.events.push(Event::Asked { command, mode: self.mode_of(command), hypervisor, told });
        if permitted { other } else { Some(16) }
    }

    fn refusal_but_16(&self, command: Command) -> Option<u8> {
        // The registers of a strand that is none are never looked at: number 5 comes first.
        let strand_fails = |strand: u8| strand > 3;
        match command {
            Command::Write { strand, register, value } => first_failing(&[
                (5, strand_fails(strand)),
                (9, !writable(register)),
                (10, !value_allowed(register, value)),
            ]),
            Command::Insert { strand, side, flags, word } => {
                let early = [(5, strand_fails(strand)), (6, side > 1), (8, flags > 3)];
                first_failing(&early).or_else(|| self.insertion_refusal(strand, side, flags, word))
            }
            Command::DemapPage { strand, side, selector, flags, address } => first_failing(&[
                (5, strand_fails(strand)),
                (6, side > 1),
                (7, selector > 2 || selector == 1 && side == 0),
                (8, flags > 1),
                (11, !in_range(address)),
            ]),
            Command::DemapContext { strand, side, selector } => first_failing(&[
                (5, strand_fails(strand)),
                (6, side > 1),
                (7, selector > 2 || selector == 1 && side == 0),
            ]),
            Command::DemapAll { strand, side } => first_failing(&[(5, strand_fails(strand)), (6, side > 1)]),
            Command::Invalidate { side } => first_failing(&[(6, side > 1)]),
            Command::Access { strand, kind, selector, size, .. } => {
                let early = [(5, strand_fails(strand)), (6, kind > 4)];
                first_failing(&early).or_else(|| self.access_refusal(strand, kind, selector, size))
            }
            Command::Read { strand, register } => first_failing(&[(5, strand_fails(strand)), (9, !known(register))]),
            Command::Pointers { strand, side } => first_failing(&[(5, strand_fails(strand)), (6, side > 1)]),
            Command::Rate { strand, side } => {
                // Nor is the record of a side that is none: number 6 comes before 15.
                let empty = self.records.get(strand as usize).is_some_and(|of| of[record_side(side.min(1) as usize)].is_empty());
                let before_6 = empty && broken::is(Broken::RateAskedBeforeSide);
                first_failing(&[(5, strand_fails(strand)), (15, before_6), (6, side > 1), (15, empty)])
            }
        }
    }

    /// 7 and 8 of an access whose strand and kind are good.
    fn access_refusal(&self, strand: u8, kind: u8, selector: u8, size: u8) -> Option<u8> {
        let fetch = kind == 0;
        let user = self.registers[strand as usize][3] == 0;
        let selector_fails = selector > 2 || selector == 1 && fetch || selector == 2 && fetch && user;
        let size_fails = size > 3 || fetch && size != 2;
        first_failing(&[(7, selector_fails), (8, size_fails)])
    }

    /// 11, 12 and 13 of an insertion whose strand, side and flags are good.
    fn insertion_refusal(&self, strand: u8, side: u8, flags: u8, word: u64) -> Option<u8> {
        let tag = self.registers[strand as usize][20 + side as usize];
        let slots = &self.sides[side as usize];
        let stuck = slots.iter().all(|s| s.is_some_and(|e| e.locked));
        if !in_range(round_down(tag, 1 << 13)) {
            return Some(11);
        }
        if broken::is(Broken::WrongOrder12And13) && stuck && !word_allowed(word) {
            return Some(13);
        }
        if !word_allowed(word) {
            return Some(12);
        }
        let new = self.new_entry(strand, side, flags, word);
        let overlapped = slots.iter().flatten().any(|e| e.overlaps(&new));
        if stuck && (!overlapped || broken::is(Broken::RefuseDespiteOverlap)) {
            return Some(13);
        }
        None
    }

    /// Owner and page by the strand's registers; the page's start by the word's size ("Insertion and removal").
    fn new_entry(&self, strand: u8, side: u8, flags: u8, word: u64) -> Entry {
        let registers = &self.registers[strand as usize];
        let tag = registers[20 + side as usize];
        let real = flags & 1 == 1;
        Entry {
            partition: registers[0],
            real,
            context: if real { 0 } else { tag & 0x1FFF },
            page: round_down(tag, size_of(word)),
            word,
            locked: flags & 2 == 2,
            used: true,
        }
    }
}

// ---- insertion and removal

impl Model {
    fn insert(&mut self, side: usize, new: Entry) -> Answer {
        let slots = &mut self.sides[side];
        let full = slots.iter().all(|s| s.is_some());
        let mut removed = 0;
        for slot in slots.iter_mut() {
            if slot.is_some_and(|e| e.overlaps(&new)) {
                *slot = None;
                removed += 1;
            }
        }
        if let Some(i) = slots.iter().position(|s| s.is_none()) {
            slots[i] = Some(new);
            self.events.push(Event::Inserted(match removed {
                0 => Choice::Empty,
                _ if full => Choice::FullSideOverlap,
                1 => Choice::EmptyAfterOverlap,
                _ => Choice::EmptyAfterSeveralOverlaps,
            }));
            return Answer::Done { count: 0 };
        }
        let unused = |s: &Option<Entry>| s.is_some_and(|e| !e.locked && !e.used);
        let mut place = slots.iter().position(unused);
        if broken::is(Broken::DisplaceHighest) {
            place = slots.iter().rposition(unused);
        }
        self.events.push(Event::Inserted(if place.is_some() { Choice::LowestUnused } else { Choice::UsedBitsCleared }));
        let place = place.unwrap_or_else(|| {
            for e in slots.iter_mut().flatten() {
                e.used = e.locked && broken::is(Broken::ClearUnlockedOnly);
            }
            slots.iter().position(|s| s.is_some_and(|e| !e.locked)).expect("number 13 was asked")
        });
        let displaced = slots[place].expect("no slot is empty");
        slots[place] = Some(new);
        Answer::Displaced { entry: displaced }
    }

    /// Empties the slots of the side whose entries pass the test; the answer has their number.
    fn remove(&mut self, side: u8, goes: impl Fn(&Entry) -> bool) -> Answer {
        let mut count = 0;
        for slot in self.sides[side as usize].iter_mut() {
            if slot.is_some_and(|e| goes(&e)) {
                *slot = None;
                count += 1;
            }
        }
        Answer::Done { count }
    }

    /// By selector: registers 1 and 2, and no register for the nucleus.
    fn selected_context(&self, strand: u8, selector: u8) -> u64 {
        match selector {
            0 => self.registers[strand as usize][1],
            1 => self.registers[strand as usize][2],
            _ => 0,
        }
    }
}

// ---- access

struct Access {
    strand: u8,
    side: usize,
    kind: u8,
    nucleus: bool,
    size: u8,
    /// the address used: masked where the mask holds
    address: u64,
    /// the selected context
    context: u64,
}

impl Model {
    fn access(&mut self, strand: u8, kind: u8, selector: u8, size: u8, address: u64) -> Answer {
        let registers = &self.registers[strand as usize];
        let masked = registers[5] == 1 && (registers[3] != 2 || broken::is(Broken::MaskInMode2));
        let access = Access {
            strand,
            side: side_of_kind(kind),
            kind,
            nucleus: selector == 2,
            size,
            address: if masked { address & 0xFFFF_FFFF } else { address },
            context: self.selected_context(strand, selector),
        };
        self.translate(&access)
    }

    /// Steps 1 to 8, first match.
    fn translate(&mut self, a: &Access) -> Answer {
        let registers = self.registers[a.strand as usize];
        let (mode, fetch) = (registers[3], a.kind == 0);
        let stopped = io_fault(a).filter(|_| mode == 2 || mode == 1 && broken::is(Broken::IoInMode1));
        let aligned = a.address % (1 << a.size) == 0 || stopped.is_some() && broken::is(Broken::IoBeforeAlignment);
        if !aligned {
            return self.trap_keeping_tag(a, 0x34);
        }
        if mode == 0 && !fetch && a.nucleus {
            return self.trap_keeping_tag(a, 0x37);
        }
        if let Some(fault) = stopped {
            return self.io_trap(a, fault);
        }
        if mode == 2 {
            let attributes = if bit(a.address, 39) { 2 } else { 1 };
            let code = if broken::is(Broken::BypassCode0) { 0 } else { 15 };
            self.events.push(Event::Bypassed { kind: a.kind, io: bit(a.address, 39) });
            return Answer::Physical { attributes, code, address: a.address % (1 << 40) };
        }
        if !in_range(a.address) {
            if broken::is(Broken::RangeNoted) {
                self.note(a.strand, a.side, true);
            }
            return self.trap(a, if fetch { 0x08 } else { 0x30 }, 0x20);
        }
        let translating = bit(registers[4], a.side as u32);
        let Some(slot) = self.find(a, registers[0], !translating) else {
            return self.miss(a, translating);
        };
        let entry = self.sides[a.side][slot].as_mut().expect("a live entry was found");
        entry.used = true;
        let word = entry.word;
        let real = entry.real;
        self.events.push(Event::Found(*entry));
        let fault = fault_type(word, mode, a.kind);
        let protected = (a.kind == 2 || a.kind == 3) && !bit(word, 6);
        self.note(a.strand, a.side, broken::is(Broken::FaultNotedAsMiss) && (fault != 0 || protected));
        if fault != 0 {
            return self.trap(a, if fetch { 0x08 } else { 0x30 }, fault);
        }
        if protected {
            return self.trap(a, 0x6C, 0);
        }
        let attributes = bit(word, 10) as u8 + 2 * bit(word, 11) as u8 + 4 * bit(word, 12) as u8;
        let size = size_of(word);
        let start = if broken::is(Broken::UnroundedAddress) { word_address(word) } else { round_down(word_address(word), size) };
        let code = (word & 15) as u8;
        self.events.push(Event::Translated { fetch, real, code });
        Answer::Physical { attributes, code: broken::code(code), address: start + a.address % size }
    }

    fn find(&self, a: &Access, partition: u64, real: bool) -> Option<usize> {
        let context_agrees = |e: &Entry| if real && !broken::is(Broken::ContextOnReal) { true } else { e.context == a.context };
        let answers = |e: &Entry| e.partition == partition && e.real == real && context_agrees(e) && e.holds(a.address);
        self.sides[a.side].iter().position(|s| s.as_ref().is_some_and(answers))
    }

    fn miss(&mut self, a: &Access, translating: bool) -> Answer {
        self.note(a.strand, a.side, true);
        if broken::is(Broken::UsedBitOnMiss) {
            if let Some(e) = &mut self.sides[a.side][0] {
                e.used = true;
            }
        }
        let number = match (translating, a.side) {
            (true, 0) => 0x64,
            (true, _) => 0x68,
            (false, 0) => 0x3E,
            (false, _) => 0x3F,
        };
        self.trap(a, number, 0)
    }

    /// A trap that writes tag access; without translation it has no context ("Access", last paragraph).
    fn trap(&mut self, a: &Access, number: u8, fault: u8) -> Answer {
        let translating = bit(self.registers[a.strand as usize][4], a.side as u32);
        self.trap_with_tag(a, number, fault, if translating { a.context } else { 0 })
    }

    /// Document 02, U4: of a bypass, so that no context is meant, translation on or off.
    fn io_trap(&mut self, a: &Access, fault: u8) -> Answer {
        let translating = bit(self.registers[a.strand as usize][4], a.side as u32);
        self.events.push(Event::IoFault { kind: a.kind, translating, context: a.context != 0, above: a.address >> 40 != 0 });
        match (broken::is(Broken::IoSelectedContext), broken::is(Broken::IoTagKept)) {
            (true, _) => self.trap(a, 0x30, fault),
            (_, true) => self.record(a, 0x30, fault),
            _ => self.trap_with_tag(a, 0x30, fault, 0),
        }
    }

    fn trap_with_tag(&mut self, a: &Access, number: u8, fault: u8, context: u64) -> Answer {
        self.registers[a.strand as usize][20 + a.side] = round_down(a.address, 1 << 13) | context;
        self.record(a, number, fault)
    }

    fn trap_keeping_tag(&mut self, a: &Access, number: u8) -> Answer {
        self.record(a, number, 0)
    }

    /// What each trap leaves: fault address and fault status.
    fn record(&mut self, a: &Access, number: u8, fault: u8) -> Answer {
        let registers = &mut self.registers[a.strand as usize];
        registers[22 + a.side] = a.address;
        registers[24 + a.side] = number as u64 * 256 + fault as u64;
        Answer::Trap { number, fault, address: a.address, tag: registers[20 + a.side] }
    }
}

/// Step 3 as document 02's U4 amends it: the fault type of a bypass, where it has one.
fn io_fault(a: &Access) -> Option<u8> {
    let io = bit(a.address, if broken::is(Broken::IoBit40) { 40 } else { 39 });
    match a.kind {
        _ if !io => None,
        4 => Some(if broken::is(Broken::IoKindsSwapped) { 0x04 } else { 0x02 }),
        3 => Some(if broken::is(Broken::IoKindsSwapped) { 0x02 } else { 0x04 }),
        2 if broken::is(Broken::IoStopsStores) => Some(0x04),
        _ => None,
    }
}

/// Step 6.
fn fault_type(word: u64, mode: u64, kind: u8) -> u8 {
    let mut sum = 0;
    if bit(word, 8) && mode == 0 {
        sum += 0x01;
    }
    if kind == 4 && bit(word, 11) {
        sum += 0x02;
    }
    if kind == 3 && !bit(word, 10) {
        sum += 0x04;
    }
    if bit(word, 62) && kind != 4 {
        sum += 0x10;
    }
    sum
}

/// The address bits of an entry word.
fn word_address(word: u64) -> u64 {
    word & 0x00FF_FFFF_FFFF_E000
}

// ---- miss rates (document 02, U5)

/// Whose record is meant, by a model that may be broken.
fn record_side(side: usize) -> usize {
    if broken::is(Broken::OneRecordForSides) { 0 } else { side }
}

impl Model {
    /// A lookup found an entry, or it missed.
    fn note(&mut self, strand: u8, side: usize, missed: bool) {
        self.records[strand as usize][record_side(side)].note(missed);
    }

    fn rate(&mut self, strand: u8, side: u8) -> Answer {
        let record = &self.records[strand as usize][record_side(side as usize)];
        let rate = record.rate();
        self.events.push(Event::Rated { full: record.is_full(), rate });
        Answer::Read { first: rate, second: 0 }
    }
}

// ---- pointers

impl Model {
    /// The tables are those of tag access's context: zero or not.
    fn pointers(&self, strand: u8, side: u8) -> Answer {
        let registers = &self.registers[strand as usize];
        let side = side as usize;
        let tag = registers[20 + side];
        let other = if tag & 0x1FFF != 0 { 1 } else { 0 };
        let configuration = registers[16 + 2 * side + other];
        let pointer = |base: u64, code: u64| {
            let n = base & 15;
            round_down(base, 1 << (13 + n)) + tsb_offset(n, code, tag)
        };
        let base = 8 + 4 * side + 2 * other;
        Answer::Read {
            first: pointer(registers[base], configuration & 7),
            second: pointer(registers[base + 1], configuration >> 8 & 7),
        }
    }
}

/// Where in its table the entry of a tag access stands, in bytes.
fn tsb_offset(n: u64, code: u64, tag: u64) -> u64 {
    16 * (round_down(tag, 1 << 13) / page_size(code).expect("an allowed size") % (1 << (9 + n)))
}

// ---- the miss handler (document 02, U1)

/// What the context of tag access picks: the table, its N and its ps0.
struct Tsb {
    tag: u64,
    other: usize,
    n: u64,
    code: u64,
}

fn tsb_length(n: u64) -> usize {
    16 << (9 + n)
}

impl Model {
    fn base_n(&self, strand: u8, side: u8, other: usize) -> u64 {
        let ps = broken::is(Broken::ServePs1Base) as usize;
        self.registers[strand as usize][8 + 4 * side as usize + 2 * other + ps] & 15
    }

    fn tsb(&self, strand: u8, side: u8) -> Tsb {
        let registers = &self.registers[strand as usize];
        let tag = registers[20 + side as usize];
        let other = if tag & 0x1FFF == 0 { 0 } else { 1 };
        let configuration = registers[16 + 2 * side as usize + other];
        let code = if broken::is(Broken::ServePs1Size) { configuration >> 8 & 7 } else { configuration & 7 };
        Tsb { tag, other, n: self.base_n(strand, side, other), code }
    }

    /// 5, 6 and 14; else the part of the table used at the ps0 pointer.
    fn part(&self, strand: u8, side: u8, tables: [&[u8]; 2]) -> Part {
        let refused = |number: u8| Part { number, ..Part::default() };
        if let Some(number) = first_failing(&[(5, strand > 3), (6, side > 1)]) {
            return refused(number);
        }
        let tsb = self.tsb(strand, side);
        let used = if broken::is(Broken::ServeSwapped) { 1 - tsb.other } else { tsb.other };
        let (length, wanted) = (tables[used].len(), tsb_length(tsb.n));
        let unused_wrong = tables[1 - used].len() != tsb_length(self.base_n(strand, side, 1 - tsb.other));
        if length < wanted || length > wanted && !broken::is(Broken::ServeLongTable) || broken::is(Broken::ServeBothLengths) && unused_wrong {
            return refused(14);
        }
        let code = if broken::is(Broken::ServeBy8K) { 0 } else { tsb.code };
        let start = tsb_offset(tsb.n, code, tsb.tag) as usize;
        Part { number: 0, other: used as u8, start, length: 16 }
    }

    pub fn hand_back(&self, strand: u8, side: u8, tables: [&[u8]; 2]) -> Part {
        let part = self.part(strand, side, tables);
        let entry = || &tables[part.other as usize][part.start..part.start + 16];
        if broken::is(Broken::HandBackFitOnly) && part.number == 0 && !self.misfits(&self.tsb(strand, side), entry()).is_empty() {
            return Part::default();
        }
        part
    }

    /// All that the 16 bytes fail by; none where they fit.
    fn misfits(&self, tsb: &Tsb, entry: &[u8]) -> Vec<Misfit> {
        let (tag, word) = (eight(&entry[..8]), eight(&entry[8..]));
        let from = match tsb.code {
            _ if broken::is(Broken::ServeFine) => 22,
            5 => 28,
            _ if broken::is(Broken::ServeCoarse) => 28,
            _ => 22,
        };
        let fails = |misfit: Misfit| match misfit {
            Misfit::Context => tag >> 48 & 0x1FFF != tsb.tag & 0x1FFF,
            Misfit::Address => (tag & 0x3FF_FFFF_FFFF) >> (from - 22) != tsb.tag >> from,
            Misfit::TagAbove => tag >> 61 != 0,
            Misfit::TagBetween => tag >> 42 & 0x3F != 0,
            Misfit::Invalid => !bit(word, 63),
            Misfit::SizeCode => word & 7 != tsb.code,
            Misfit::SizeBit3 => bit(word, 3),
        };
        let mut all: Vec<Misfit> = MISFITS.iter().filter(|(m, ignored)| fails(*m) && !broken::is(*ignored)).map(|(m, _)| *m).collect();
        if broken::is(Broken::ServeWordChecked) && word >> 40 & 0xFFFF != 0 {
            all.push(Misfit::Invalid);
        }
        all
    }

    /// Hand back's refusals; on a fit alone those of command 0x02 without flags, and its insertion.
    pub fn serve(&mut self, strand: u8, side: u8, tables: [&[u8]; 2]) -> Answer {
        let part = self.part(strand, side, tables);
        if part.number != 0 {
            return Answer::Refused { number: part.number };
        }
        let tsb = self.tsb(strand, side);
        let entry = &tables[part.other as usize][part.start..part.start + part.length];
        let word = eight(&entry[8..]);
        let unused_right = tables[1 - tsb.other].len() == tsb_length(self.base_n(strand, side, 1 - tsb.other));
        self.events.push(Event::Looked { other: tsb.other == 1, unused_right });
        let misfits = self.misfits(&tsb, entry);
        let refusal = self.insertion_refusal(strand, side, 0, word);
        let asked_first = refusal.filter(|_| broken::is(Broken::ServeAskedFirst));
        if let Some(number) = asked_first {
            return Answer::Refused { number };
        }
        if broken::is(Broken::ServeAsksMode) && misfits.is_empty() && self.registers[strand as usize][3] == 0 {
            return Answer::Refused { number: 16 };
        }
        if !misfits.is_empty() || broken::is(Broken::ServeByMode) && self.registers[strand as usize][3] == 2 {
            self.events.extend((misfits.len() == 1).then(|| Event::Misfit(misfits[0])));
            return Answer::NotInTable;
        }
        let (mode, free_bits) = (self.registers[strand as usize][3], eight(&entry[..8]) & 0x3F != tsb.tag >> 22 & 0x3F);
        self.events.push(Event::Fits { mode, n: tsb.n, code: tsb.code, free_bits });
        match refusal {
            Some(13) if broken::is(Broken::ServeNever13) => Answer::Done { count: 0 },
            Some(number) => Answer::Refused { number },
            None => self.serve_with(strand, side, word),
        }
    }

    fn serve_with(&mut self, strand: u8, side: u8, word: u64) -> Answer {
        let flags = broken::is(Broken::ServeReal) as u8 + 2 * broken::is(Broken::ServeLocked) as u8;
        let mut new = self.new_entry(strand, side, flags, word);
        new.used = !broken::is(Broken::ServeUnused);
        if broken::is(Broken::ServeWrites) {
            self.registers[strand as usize][24 + side as usize] = 0;
        }
        let answer = self.insert(side as usize, new);
        if broken::is(Broken::ServeNoted) {
            self.note(strand, side as usize, false);
        }
        self.events.push(Event::Served(new));
        answer
    }
}

fn eight(bytes: &[u8]) -> u64 {
    if broken::is(Broken::ServeLittleEndian) {
        return bytes.iter().rev().fold(0, |sum, &b| sum * 256 + b as u64);
    }
    bytes.iter().fold(0, |sum, &b| sum * 256 + b as u64)
}

/// Hand back over the caller's words.
pub fn hand_back(words: &[u64], strand: u8, side: u8, tables: [&[u8]; 2]) -> Part {
    Model::from_words(words).map_or(Part { number: 1, ..Part::default() }, |model| model.hand_back(strand, side, tables))
}

/// A serve over the caller's words; what happened inside beside the answer.
pub fn serve(words: &mut [u64], strand: u8, side: u8, tables: [&[u8]; 2]) -> ([u8; ANSWER_BYTES], Vec<Event>) {
    let Some(mut model) = Model::from_words(words) else {
        return (answer_bytes(&Answer::Refused { number: 1 }), Vec::new());
    };
    let answer = model.serve(strand, side, tables);
    words.copy_from_slice(&model.to_words());
    (answer_bytes(&answer), model.events)
}

// ---- a command, a run

impl Model {
    /// A command of a stream, which the caller marks as the hypervisor's or does not.
    pub fn step(&mut self, command: Command, hypervisor: bool) -> Answer {
        if let Some(number) = self.refusal(command, hypervisor) {
            return Answer::Refused { number };
        }
        match command {
            Command::Write { strand, register, value } => {
                self.registers[strand as usize][register as usize] = value;
                Answer::Done { count: 0 }
            }
            Command::Insert { strand, side, flags, word } => {
                let new = self.new_entry(strand, side, flags, word);
                self.insert(side as usize, new)
            }
            Command::DemapPage { strand, side, selector, flags, address } => {
                let (partition, context) = (self.registers[strand as usize][0], self.selected_context(strand, selector));
                let real = flags == 1;
                self.remove(side, |e| e.partition == partition && e.real == real && (real || e.context == context) && e.holds(address))
            }
            Command::DemapContext { strand, side, selector } => {
                let (partition, context) = (self.registers[strand as usize][0], self.selected_context(strand, selector));
                self.remove(side, |e| e.partition == partition && !e.real && e.context == context)
            }
            Command::DemapAll { strand, side } => {
                let partition = self.registers[strand as usize][0];
                let (any_lock, any_partition) = (broken::is(Broken::ForgetLocked), broken::is(Broken::DemapAllPartitions));
                self.remove(side, |e| (e.partition == partition || any_partition) && (!e.locked || any_lock))
            }
            Command::Invalidate { side } => {
                self.remove(side, |_| true);
                if broken::is(Broken::InvalidateForgetsLookups) {
                    self.records.iter_mut().for_each(|of| of[side as usize] = Record::default());
                }
                Answer::Done { count: 0 }
            }
            Command::Access { strand, kind, selector, size, address } => self.access(strand, kind, selector, size, address),
            Command::Read { strand, register } => Answer::Read { first: self.registers[strand as usize][register as usize], second: 0 },
            Command::Pointers { strand, side } => self.pointers(strand, side),
            Command::Rate { strand, side } => self.rate(strand, side),
        }
    }

    /// Commands up to the end of the bytes or to the first that meets 2, 3 or 4.
    pub fn run_commands(&mut self, hypervisor: bool, input: &[u8], output: &mut [u8]) -> Report {
        let mut report = Report { answered: 0, taken: 0, stop: 0 };
        while report.taken < input.len() {
            let Some(width) = width(input[report.taken]) else {
                report.stop = 2;
                break;
            };
            if input.len() - report.taken < width {
                report.stop = 3;
                break;
            }
            if output.len() - ANSWER_BYTES * report.answered < ANSWER_BYTES {
                report.stop = 4;
                break;
            }
            let answer = self.step(decode(&input[report.taken..]), hypervisor);
            output[ANSWER_BYTES * report.answered..][..ANSWER_BYTES].copy_from_slice(&answer_bytes(&answer));
            report.answered += 1;
            report.taken += width;
        }
        report
    }
}

/// One run over the caller's words; what happened inside beside the report.
pub fn run(words: &mut [u64], hypervisor: bool, input: &[u8], output: &mut [u8]) -> (Report, Vec<Event>) {
    let Some(mut model) = Model::from_words(words) else {
        return (Report { answered: 0, taken: 0, stop: 1 }, Vec::new());
    };
    let report = model.run_commands(hypervisor, input, output);
    words.copy_from_slice(&model.to_words());
    (report, model.events)
}

/// Kind, a, b, c in front, the two values behind ("The stream").
pub fn answer_bytes(answer: &Answer) -> [u8; ANSWER_BYTES] {
    let (kind, a, b, c, first, second) = match *answer {
        Answer::Done { count } => (0, 0, 0, 0, count, 0),
        Answer::Physical { attributes, code, address } => (1, attributes, 0, code, address, 0),
        Answer::Trap { number, fault, address, tag } => (2, number, fault, 0, address, tag),
        Answer::Read { first, second } => (3, 0, 0, 0, first, second),
        Answer::Displaced { entry: e } => (4, 0, e.partition as u8, e.real as u8, e.page + e.context, e.word),
        Answer::Refused { number } => (5, number, 0, 0, 0, 0),
        Answer::NotInTable => (6, 0, 0, 0, 0, 0),
    };
    let mut bytes = [0; ANSWER_BYTES];
    bytes[..4].copy_from_slice(&[kind, a, b, c]);
    bytes[8..16].copy_from_slice(&first.to_be_bytes());
    bytes[16..].copy_from_slice(&second.to_be_bytes());
    bytes
}
