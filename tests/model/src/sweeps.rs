//! Cases taken one after the other instead of at random: every operand byte, every register with values at its bounds, every
//! attribute of a word in every mode, every command in every mode, bypasses at the ends of I/O space, every state that is one bit away from
//! a full one, every pair of page sizes side by side, every TSB entry that is one bit away from one that fits, histories of lookups until a
//! record has come round.
use crate::command::{decode, encode, strand_of, width, Command};
use crate::compare::{Step, Stream};
use crate::generate::Run;
use crate::model::{Entry, Model};
use crate::random::Random;
use crate::record::{outcomes_at, seen_at, Record, SEEN_MOST};
use crate::states::Start;
use crate::tables::{place_of, tag_for, Miss, Table, TsbEntry};
use t1mmu::numbers::{tsb_base_of, tsb_bytes, tsb_configuration_of};
use t1mmu::numbers::{ADDRESS_MASK, FAULT_ADDRESS, FAULT_STATUS, MODE, PARTITION, PRIMARY_CONTEXT, SECONDARY_CONTEXT, TAG_ACCESS, TRANSLATION};
use t1mmu::numbers::{ANSWER_BYTES, LOCKED, REAL, SIDES, SLOTS, STATE_WORDS, STRANDS};

const PAGE: u64 = 0x4000_0000;

/// A run with room for all its answers, and for part of another one.
fn run_of(commands: Vec<Command>) -> Step {
    run_by(false, commands)
}

/// Likewise, of a stream that is marked as the hypervisor's or is not.
fn run_by(hypervisor: bool, commands: Vec<Command>) -> Step {
    let room = ANSWER_BYTES * commands.len() + 7;
    Step::Run(Run { hypervisor, input: commands.into_iter().flat_map(encode).collect(), room })
}

fn steps_from_reset(seed: u64, steps: Vec<Step>) -> Stream {
    Stream { seed, start: Start::Reset, words: Model::reset().to_words(), steps }
}

fn from_reset(seed: u64, commands: Vec<Command>) -> Stream {
    steps_from_reset(seed, vec![run_of(commands)])
}

fn from_words(seed: u64, start: Start, words: Vec<u64>) -> Stream {
    let commands = [Command::Read { strand: 0, register: MODE }, Command::DemapAll { strand: 0, side: 1 }];
    // a sound state gets to the length of its table, which is refused with 14
    let miss = Miss { strand: 0, side: 1, zero: Table::default(), other: Table::default() };
    Stream { seed, start, words, steps: vec![Step::Serve(miss), run_and_rates(commands)] }
}

/// A run that ends in the rates of all records.
fn run_and_rates(commands: impl IntoIterator<Item = Command>) -> Step {
    run_of(commands.into_iter().chain(rates()).collect())
}

/// The strand and side of each record.
fn records() -> impl Iterator<Item = (u8, u8)> {
    (0..STRANDS as u8).flat_map(|strand| (0..SIDES as u8).map(move |side| (strand, side)))
}

/// The rates of all records.
fn rates() -> impl Iterator<Item = Command> {
    records().map(|(strand, side)| Command::Rate { strand, side })
}

/// Both sides full: all sizes, partitions and contexts, real and virtual, locked and not. The records have all bits that they may have: none,
/// those of one lookup, of a word and one more or fewer, of all but one, all while the count goes on and after.
fn full_state() -> Vec<u64> {
    let mut model = Model::reset();
    for (i, slot) in model.sides.iter_mut().flatten().enumerate() {
        let q = (i % SLOTS) as u64;
        let real = q % 5 == 0;
        *slot = Some(Entry {
            partition: q % 8,
            real,
            context: if real { 0 } else { q * 130 },
            page: if q % 2 == 0 { (q + 1) << 28 } else { (q << 28).wrapping_neg() },
            word: 1 << 63 | q << 30 | [0, 1, 3, 5][q as usize % 4],
            locked: q % 3 == 0,
            used: q % 7 != 0,
        });
    }
    for (record, count) in model.records.iter_mut().flatten().zip([0, 1, 63, 65, 1023, 1024, 1025, 1088]) {
        *record = Record::of(vec![true; count]);
    }
    let words = model.to_words();
    assert!(Model::from_words(&words).is_some(), "flips start from a sound state");
    words
}

/// Every register number with every single bit and with values around the bounds.
fn registers() -> Stream {
    let mut values: Vec<u64> = (0..64).map(|b| 1 << b).collect();
    values.extend([0, 3, 5, 6, 7, 9, 8190, 8191, 8193, 0x1FEF, 0x1FF0, 0x1FFF, 0x2000, 0x200F, u64::MAX, !0x1FF0]);
    values.extend((0..8).flat_map(|ps1| (0..8).map(move |ps0| ps1 * 256 + ps0)));
    let mut commands = Vec::new();
    for register in 0..=255 {
        for &value in &values {
            commands.push(Command::Write { strand: (register % 4), register, value });
            commands.push(Command::Read { strand: (register % 4), register });
            commands.push(Command::Pointers { strand: (register % 4), side: (value % 2) as u8 });
        }
    }
    from_reset(1, commands)
}

/// In one mode and stream each command with each operand byte from 0 to 255, the other operands as they stand.
fn operands(mode: u64, hypervisor: bool) -> Stream {
    let word = 1 << 63 | 0x440;
    let plain = [
        Command::Write { strand: 1, register: PRIMARY_CONTEXT, value: 5 },
        Command::Insert { strand: 1, side: 1, flags: 0, word },
        Command::DemapPage { strand: 1, side: 1, selector: 0, flags: 0, address: PAGE },
        Command::DemapContext { strand: 1, side: 1, selector: 0 },
        Command::DemapAll { strand: 1, side: 1 },
        Command::Invalidate { side: 1 },
        Command::Access { strand: 1, kind: 1, selector: 0, size: 3, address: PAGE },
        Command::Access { strand: 1, kind: 0, selector: 0, size: 2, address: PAGE },
        Command::Read { strand: 1, register: TAG_ACCESS + 1 },
        Command::Pointers { strand: 1, side: 1 },
        Command::Rate { strand: 1, side: 1 },
    ];
    let mut input = encode(Command::Write { strand: 1, register: MODE, value: mode });
    for command in plain {
        let bytes = encode(command);
        // Operands of one byte stand in front of those of eight.
        let small = if bytes.len() > 8 { bytes.len() - 8 } else { bytes.len() };
        for at in 1..small {
            for byte in 0..=255 {
                let mut changed = bytes.clone();
                changed[at] = byte;
                input.extend(changed);
            }
        }
    }
    // No command has fewer than two bytes.
    let room = ANSWER_BYTES * input.len() / 2;
    steps_from_reset(2, vec![Step::Run(Run { hypervisor, input, room })])
}

/// Every command code, alone and with operands, with and without room.
fn codes() -> Vec<Stream> {
    let run = |code: u8, length: usize, room: usize| {
        let mut input = vec![0; length];
        input[0] = code;
        Step::Run(Run { hypervisor: length % 2 == 0, input, room })
    };
    let longest = (0..=255).filter_map(width).max().expect("a known code");
    let rooms = [0, ANSWER_BYTES - 1, ANSWER_BYTES, ANSWER_BYTES + 1, 2 * ANSWER_BYTES];
    let steps = |code: u8| (1..=longest).flat_map(move |n| rooms.map(|room| run(code, n, room))).collect();
    (0..=255).map(|code| steps_from_reset(code as u64, steps(code))).collect()
}

/// All of nfo, ie, e, cp, p, w in one mode, translation and mask, met by every kind, selector and size; strand 0 inserts them.
fn attributes(mode: u64, translation: u64, mask: u64) -> Stream {
    let mut commands = Vec::new();
    for (register, value) in [(TRANSLATION, translation), (ADDRESS_MASK, mask), (PRIMARY_CONTEXT, 5), (SECONDARY_CONTEXT, 6), (MODE, mode)] {
        commands.push(Command::Write { strand: 2, register, value });
    }
    for bits in 0..64u64 {
        let word = 1 << 63 | (bits >> 5) << 62 | (bits >> 2 & 7) << 10 | (bits >> 1 & 1) << 8 | (bits & 1) << 6 | 0x55_5555_2000;
        for (side, context, flags) in [(0, 5, 0), (1, 5, 0), (1, 6, 0), (1, 0, 0), (0, 0, 0), (0, 0, 1), (1, 5, 1)] {
            commands.push(Command::Write { strand: 0, register: TAG_ACCESS + side, value: PAGE | context });
            commands.push(Command::Insert { strand: 0, side, flags, word });
        }
        for kind in 0..6 {
            for selector in 0..4 {
                (0..5).for_each(|size| accesses(&mut commands, kind, selector, size));
            }
        }
    }
    commands.extend(rates());
    from_reset(3 + 8 * mode + 2 * translation + mask, commands)
}

fn accesses(commands: &mut Vec<Command>, kind: u8, selector: u8, size: u8) {
    for address in [PAGE + 0x18, PAGE + 0x1FFC, PAGE + 0x7_0000_0010, 0x0000_8000_4000_0000, PAGE + 1] {
        commands.push(Command::Access { strand: 2, kind, selector, size, address });
    }
}

/// In one mode, translation and mask every kind, selector and size at the ends of I/O space and off alignment, and every bit of an address
/// alone and alone missing; after each of them the data side's tag access, fault registers and pointers.
fn bypasses(mode: u64, translation: u64, mask: u64) -> Stream {
    let write = |register, value| Command::Write { strand: 3, register, value };
    let mut commands = vec![write(TRANSLATION, translation), write(ADDRESS_MASK, mask), write(PRIMARY_CONTEXT, 5), write(SECONDARY_CONTEXT, 6)];
    // a table of its own for context zero
    commands.extend((0..4).map(|n| write(tsb_base_of(1, n > 1, n % 2), 0x1_0000_0000 << n)));
    commands.push(write(MODE, mode));
    let below = [0x7F_FFFF_FFF8, 0x100_0000_0000, 0xFFFF_FF7F_FFFF_FFF8];
    let inside = [0x80_0000_0000, 0xFF_FFFF_FFF8, 0x180_0000_0010, 0xFFFF_FFFF_FFFF_FFF8, 0x80_0000_000F];
    let mut add = |kind, selector, size, address| {
        commands.push(Command::Access { strand: 3, kind, selector, size, address });
        commands.extend([TAG_ACCESS + 1, FAULT_ADDRESS + 1, FAULT_STATUS + 1].map(|register| Command::Read { strand: 3, register }));
        commands.push(Command::Pointers { strand: 3, side: 1 });
    };
    for kind in 0..5 {
        for selector in 0..3 {
            (0..4).for_each(|size| below.into_iter().chain(inside).for_each(|address| add(kind, selector, size, address)));
        }
        (0..64).for_each(|b| [1 << b, !(1u64 << b)].into_iter().for_each(|address| add(kind, 0, if kind == 0 { 2 } else { 0 }, address)));
    }
    commands.extend(rates());
    from_reset(10 + 8 * mode + 2 * translation + mask, commands)
}

/// Two entries of one owner, or of two, for each pair of sizes, the second at and around the ends of the first.
fn neighbours() -> Vec<Stream> {
    let sizes = [(0, 13), (1, 16), (3, 22), (5, 28)];
    let mut all = Vec::new();
    for (one, by) in sizes {
        for (other, other_by) in sizes {
            for base in [PAGE, 0xFFFF_FFFF_F000_0000, 0, 0xFFFF_8000_0000_0000] {
                for (n, near) in [0, 1 << by, (1u64 << by) - 1, 1 << other_by, 1u64.wrapping_neg(), 1 << 13, 1 << 22].into_iter().enumerate() {
                    let second = base.wrapping_add(near) >> other_by << other_by;
                    let owners = [(0, false, 0), (0, false, 1), (0, true, 0), (1, false, 0)];
                    all.extend(owners.map(|owner| pair([base, one], [second, other], owner, n)));
                }
            }
        }
    }
    all
}

/// Two entries by page and size code, the first of owner 0, the other of the owner given.
fn pair(one: [u64; 2], other: [u64; 2], owner: (u64, bool, u64), n: usize) -> Stream {
    let mut model = Model::reset();
    let entry = |(partition, real, context), [page, code]: [u64; 2], used| {
        Some(Entry { partition, real, context, page, word: 1 << 63 | code, locked: false, used })
    };
    let side = &mut model.sides[n % 2];
    side[n * 5] = entry((0, false, 0), one, true);
    side[SLOTS - 1 - n] = entry(owner, other, false);
    from_words(4, Start::PlantedOverlap, model.to_words())
}

/// Every state one bit away from a full one and from reset.
fn flips() -> impl Iterator<Item = Stream> {
    let starts = [full_state(), Model::reset().to_words()];
    starts.into_iter().flat_map(|words| {
        (0..STATE_WORDS * 64).map(move |i| {
            let mut flipped = words.clone();
            flipped[i / 64] ^= 1 << (i % 64);
            from_words(5, Start::FlippedBit, flipped)
        })
    })
}

/// A miss of one strand, side, context, N and ps0, with what is written for it: the registers of ps1 and of the other table differ.
struct Asked {
    strand: u8,
    side: u8,
    context: u64,
    n: u32,
    code: u64,
}

/// Bits on both sides of the lowest bit that a tag has, and of the lowest that is compared for 256 MB.
const MISSED: u64 = 0x0000_1234_5A5A_6000;

impl Asked {
    fn registers(&self) -> Step {
        let (side, nonzero) = (self.side, self.context != 0);
        let write = |register, value| Command::Write { strand: self.strand, register, value };
        run_of(vec![
            write(tsb_base_of(side, nonzero, 0), 0x7_0000_0000 + self.n as u64),
            write(tsb_base_of(side, nonzero, 1), 0x7_0000_0000 + (self.n as u64 + 1) % 16),
            write(tsb_base_of(side, !nonzero, 0), 0x7_0000_0000 + (self.n as u64 + 2) % 16),
            write(tsb_configuration_of(side, nonzero), self.code + 256 * if self.code == 0 { 1 } else { 0 }),
            write(TAG_ACCESS + side, MISSED + self.context),
        ])
    }

    fn fitting(&self) -> TsbEntry {
        TsbEntry { tag: tag_for(MISSED + self.context), word: 1 << 63 | 0x5_5555_2440 | self.code }
    }

    /// The table used with one entry and of one length; the other one of another.
    fn miss(&self, entry: TsbEntry, length: usize, unused: usize) -> Step {
        let used = Table { length, everywhere: None, entries: vec![(place_of(MISSED, self.n, self.code), entry)] };
        let unused = Table { length: unused, everywhere: Some(self.fitting()), entries: Vec::new() };
        let (zero, other) = if self.context == 0 { (used, unused) } else { (unused, used) };
        Step::Serve(Miss { strand: self.strand, side: self.side, zero, other })
    }

    fn stream(&self, seed: u64, misses: impl Iterator<Item = Step>) -> Stream {
        steps_from_reset(seed, [self.registers()].into_iter().chain(misses).collect())
    }
}

/// For each side, both tables and each ps0: the entry that fits, and each that is one bit away.
fn tsb_bits() -> impl Iterator<Item = Stream> {
    let each = (0..2).flat_map(|side| [0, 0x1555].into_iter().flat_map(move |context| [0, 1, 3, 5].map(|code| (side, context, code))));
    each.map(|(side, context, code)| {
        let asked = Asked { strand: 3, side, context, n: 0, code };
        let flipped = (0..128).map(|bit| {
            let TsbEntry { tag, word } = asked.fitting();
            if bit < 64 { TsbEntry { tag: tag ^ 1 << bit, word } } else { TsbEntry { tag, word: word ^ 1 << (bit - 64) } }
        });
        asked.stream(7, [asked.fitting()].into_iter().chain(flipped).map(|entry| asked.miss(entry, tsb_bytes(0), 0)))
    })
}

/// For each N, both tables and each ps0: lengths at and around those of a table, and of the unused one.
fn tsb_lengths() -> impl Iterator<Item = Stream> {
    let each = (0..6).flat_map(|n| [0, 1].into_iter().flat_map(move |context| [0, 1, 3, 5].map(|code| (n, context, code))));
    each.map(|(n, context, code)| {
        let asked = Asked { strand: 1, side: 1, context, n, code };
        let right = tsb_bytes(n);
        let used = [0, 1, 15, 16, 17, right / 2, right - 16, right - 1, right + 1, right + 16, right * 2].map(|length| (length, right));
        let unused = [0, 1, right - 1, right, right + 1, right * 4].map(|length| (right, length));
        asked.stream(8, used.into_iter().chain(unused).map(|(used, unused)| asked.miss(asked.fitting(), used, unused)))
    })
}

/// Every strand byte, and every side byte.
fn tsb_operands() -> Stream {
    let asked = Asked { strand: 0, side: 0, context: 5, n: 0, code: 0 };
    let with = |strand: u8, side: u8| Asked { strand, side, context: 5, n: 0, code: 0 }.miss(asked.fitting(), tsb_bytes(0), 3);
    asked.stream(9, (0..=255).flat_map(|byte| [with(byte, 0), with(0, byte), with(byte, 2)]))
}

/// On all strands mode 1 with both sides translating, and one page on each side, in which stores fault.
fn looking_up() -> Vec<Command> {
    let strands = 0..STRANDS as u8;
    let write = |strand: u8, register: u8, value: u64| Command::Write { strand, register, value };
    let mut commands: Vec<Command> = strands.flat_map(|strand| [write(strand, TRANSLATION, 3), write(strand, MODE, 1)]).collect();
    for side in 0..SIDES as u8 {
        commands.push(write(0, TAG_ACCESS + side, PAGE));
        commands.push(Command::Insert { strand: 0, side, flags: 0, word: 1 << 63 | 0x400 });
    }
    commands
}

/// The lookup number n of a strand and side, which misses or finds the page; on the data side by each kind in turn.
fn lookup((strand, side): (u8, u8), n: usize, missed: bool) -> Command {
    let kind = side * (1 + n as u8 % 4);
    Command::Access { strand, kind, selector: 0, size: 2, address: PAGE + 8 * (n as u64 % 1024) + if missed { 0x2000 } else { 0 } }
}

/// Whether lookup n misses: never, always, by a pattern that does not come round with a word, at random.
const MIXES: [fn(usize, &mut Random) -> bool; 4] = [|_, _| false, |_, _| true, |n, _| n * n % 11 < 4, |_, r| r.percent(30)];

/// As many lookups on each record, one on each in turn, by one mix or another; now and then all rates.
fn history(length: usize, turn: usize) -> Stream {
    let mut r = Random::new((length * MIXES.len() + turn) as u64);
    let mut commands = Vec::new();
    for n in 0..length {
        commands.extend(records().enumerate().map(|(i, of)| lookup(of, n, MIXES[(i + turn) % MIXES.len()](n, &mut r))));
    }
    let parts = commands.chunks(997).map(|part| run_and_rates(part.to_vec()));
    steps_from_reset(11, [run_and_rates(looking_up())].into_iter().chain(parts).collect())
}

/// Histories at and around the lengths at which a record is full and has come round, and of one lookup and none.
fn histories() -> impl Iterator<Item = Stream> {
    let lengths = [0, 1].into_iter().chain(1023..=1026).chain(2047..=2050).chain([5000]);
    lengths.flat_map(|length| (0..MIXES.len()).map(move |turn| history(length, turn)))
}

/// From records of every count, another one for each strand and side: lookups past the next two words.
fn further() -> impl Iterator<Item = Stream> {
    (0..=SEEN_MOST).map(|count| {
        let mut r = Random::new(count as u64);
        let mut model = Model::reset();
        for (i, record) in model.records.iter_mut().flatten().enumerate() {
            *record = Record::of((0..(count + 137 * i) % (SEEN_MOST + 1)).map(|_| r.percent(50)));
        }
        let lookups = (0..130).map(|n| run_and_rates(records().map(|of| lookup(of, n, n % 3 == 0))));
        let steps = [run_of(looking_up())].into_iter().chain(lookups).collect();
        Stream { seed: 12, start: Start::Sound, words: model.to_words(), steps }
    })
}

/// Refusals of a rate in their order, on empty records and with one lookup of one strand and side.
fn rate_refusals() -> Stream {
    let bytes = [0, 1, 2, 3, 4, 5, 127, 128, 255];
    let all = || bytes.into_iter().flat_map(|strand| bytes.map(|side| Command::Rate { strand, side }));
    from_reset(13, looking_up().into_iter().chain(all()).chain([lookup((2, 1), 0, true)]).chain(all()).collect())
}

/// A hit and a miss on each record: one more of either would change the rate.
fn hit_and_miss() -> impl Iterator<Item = Command> {
    records().flat_map(|of| [lookup(of, 0, false), lookup(of, 1, true)])
}

/// Accesses of one mode that never look up: misaligned, of the nucleus in mode 0, bypasses, out of range, refused.
fn no_lookups(mode: u64) -> Vec<Command> {
    const IO: u64 = 0x80_0000_0000;
    const OUT: u64 = 0x0000_8000_0000_0000;
    // mode, kind, selector, size, address
    let mut all = vec![(1, 1, 0, 1, PAGE + 1), (1, 0, 0, 2, PAGE + 2), (0, 3, 0, 3, PAGE + 4), (0, 1, 2, 3, PAGE), (0, 4, 2, 3, PAGE)];
    all.extend((0..5).flat_map(|kind| [(2, kind, 0, 2, PAGE), (2, kind, 0, 2, IO)]));
    all.extend((0..5).flat_map(|kind| [(0, kind, 0, 2, OUT), (1, kind, 0, 2, OUT + PAGE)]));
    all.extend([(1, 5, 0, 3, PAGE), (1, 1, 3, 3, PAGE), (1, 0, 1, 2, PAGE), (0, 0, 2, 2, PAGE), (1, 1, 0, 4, PAGE), (1, 0, 0, 3, PAGE)]);
    let access = |(_, kind, selector, size, address)| Command::Access { strand: 0, kind, selector, size, address };
    let mut commands: Vec<Command> = all.into_iter().filter(|(of, ..)| *of == mode).map(access).collect();
    commands.push(Command::Access { strand: STRANDS as u8, kind: 1, selector: 0, size: 3, address: PAGE });
    commands
}

/// Commands that are no access, on strand 0 and both sides.
fn other_commands() -> impl Iterator<Item = Command> {
    (0..SIDES as u8).flat_map(|side| {
        let strand = 0;
        [
            Command::Write { strand, register: TAG_ACCESS + side, value: PAGE },
            Command::Insert { strand, side, flags: 0, word: 1 << 63 },
            Command::DemapPage { strand, side, selector: 0, flags: 0, address: PAGE },
            Command::DemapContext { strand, side, selector: 0 },
            Command::DemapAll { strand, side },
            Command::Invalidate { side },
            Command::Read { strand, register: FAULT_STATUS + side },
            Command::Pointers { strand, side },
            Command::Rate { strand, side },
        ]
    })
}

/// The same command on each strand that there is.
fn on_strands(command: Command) -> impl Iterator<Item = Command> {
    let bytes = encode(command);
    (0..STRANDS as u8).map(move |strand| {
        let mut named = bytes.clone();
        if strand_of(command).is_some_and(|of| of < STRANDS as u8) {
            named[1] = strand;
        }
        decode(&named)
    })
}

/// What is no lookup leaves every record, empty or not: in one mode, permitted or not, all rates after each of it. No command leads back to
/// mode 2, so that the modes are set in the words.
fn untouched(mode: u64, hypervisor: bool, empty: bool) -> Stream {
    let mut model = Model::reset();
    for command in looking_up().into_iter().chain(hit_and_miss().filter(|_| !empty)) {
        model.step(command, false);
    }
    model.registers.iter_mut().for_each(|strand| strand[MODE as usize] = mode);
    let quiet = no_lookups(mode).into_iter().chain(other_commands()).flat_map(on_strands);
    let steps = quiet.map(|command| run_by(hypervisor, [command].into_iter().chain(rates()).collect())).collect();
    Stream { seed: 14, start: Start::Sound, words: model.to_words(), steps }
}

/// So does a serve, of an entry that fits, of one that does not, and one that is refused.
fn served() -> Stream {
    let mut steps = vec![run_of(looking_up().into_iter().chain(hit_and_miss()).collect())];
    for (strand, side) in records() {
        let asked = Asked { strand, side, context: 5, n: 0, code: 0 };
        let other = TsbEntry { tag: 0, ..asked.fitting() };
        let misses = [(asked.fitting(), tsb_bytes(0)), (other, tsb_bytes(0)), (asked.fitting(), 0)];
        steps.push(asked.registers());
        steps.extend(misses.into_iter().flat_map(|(entry, length)| [asked.miss(entry, length, 0), run_and_rates([])]));
    }
    steps_from_reset(15, steps)
}

/// The words of reset, but for one record of as many misses.
fn all_missed((strand, side): (u8, u8), count: usize) -> Vec<u64> {
    let mut words = Model::reset().to_words();
    Record::of(vec![true; count]).to_words(&mut words, strand as usize, side as usize);
    words
}

/// Every count up to the greatest and past it, over no outcome and over a bit in every place.
fn damaged_counts(of: (u8, u8)) -> impl Iterator<Item = Vec<u64>> {
    let counts = (0..=SEEN_MOST as u64 + 1).chain([1 << 32, 1 << 32 | 1, 1 << 63, u64::MAX]);
    counts.flat_map(move |count| {
        [0, SEEN_MOST].map(|under| {
            let mut words = all_missed(of, under);
            words[seen_at(of.0 as usize, of.1 as usize)] = count;
            words
        })
    })
}

/// For counts at the ends of words all outcomes that they may have, and with each bit more.
fn damaged_outcomes(of: (u8, u8)) -> impl Iterator<Item = Vec<u64>> {
    let counts = [0, 1, 2, 63, 64, 65, 127, 128, 129, 960, 961, 1023, 1024];
    counts.into_iter().flat_map(move |count| {
        let allowed = all_missed(of, count);
        let bits = outcomes_at(of.0 as usize, of.1 as usize).into_iter().flat_map(|at| (0..u64::BITS).map(move |bit| (at, 1 << bit)));
        let more: Vec<(usize, u64)> = bits.filter(|(at, bit)| allowed[*at] & bit == 0).collect();
        [(0, 0)].into_iter().chain(more).map(move |(at, bit)| {
            let mut words = allowed.clone();
            words[at] |= bit;
            words
        })
    })
}

fn damaged() -> impl Iterator<Item = Stream> {
    let states = records().flat_map(damaged_counts).chain(records().flat_map(damaged_outcomes));
    states.map(|words| from_words(16, Start::BadRecord, words))
}

/// Each mode, in a stream that is marked as the hypervisor's and in one that is not.
fn callers() -> impl Iterator<Item = (u64, bool)> {
    (0..3).flat_map(|mode| [(mode, false), (mode, true)])
}

/// A strand in one mode between strands in another, pages of its partition on each side, one unlocked, one locked and one real, and a lookup
/// of each side kept where its mode looks up. It is strand 0 that inserts the pages, while still in mode 2.
fn between(strand: u8, mode: u64, others: u64) -> Vec<Command> {
    let write = |strand: u8, register: u8, value: u64| Command::Write { strand, register, value };
    let mut all = Vec::new();
    for side in 0..SIDES as u8 {
        for (flags, page) in [(0, PAGE), (LOCKED, PAGE + 0x2000), (REAL, PAGE)] {
            all.extend([write(0, TAG_ACCESS + side, page), Command::Insert { strand: 0, side, flags, word: 1 << 63 | 0x440 }]);
        }
    }
    for of in 0..STRANDS as u8 {
        all.extend([write(of, TRANSLATION, 3), write(of, MODE, if of == strand { mode } else { others })]);
    }
    all.extend(records().map(|of| lookup(of, 0, false)));
    all
}

/// Every command with every register and with flags, sides and selectors at and past their bounds. Mode 2 is not left: the commands behind
/// would find another one.
fn every_command(strand: u8, mode: u64) -> Vec<Command> {
    let write = |register: u8, value: u64| Command::Write { strand, register, value };
    let mut all = Vec::new();
    for register in 0..=255 {
        let values = [0, 1, 2, 3, 7, 0x101, 8191, 8192, 0x2000, u64::MAX].into_iter();
        all.extend(values.filter(|value| register != MODE || mode != 2 || *value > 1).map(|value| write(register, value)));
        all.push(Command::Read { strand, register });
    }
    // tag access is in range again, and the partition that of the pages
    all.extend([write(TAG_ACCESS, PAGE), write(TAG_ACCESS + 1, PAGE), write(PARTITION, 0)]);
    for side in 0..=SIDES as u8 {
        let flags = (0..6).chain([0x80, 0xFF]);
        all.extend(flags.clone().map(|flags| Command::Insert { strand, side, flags, word: 1 << 63 | 0x440 }));
        for selector in 0..4 {
            all.extend(flags.clone().map(|flags| Command::DemapPage { strand, side, selector, flags, address: PAGE + 8 }));
            all.push(Command::DemapContext { strand, side, selector });
        }
        all.extend([Command::DemapAll { strand, side }, Command::Pointers { strand, side }, Command::Rate { strand, side }]);
        all.push(Command::Invalidate { side });
    }
    all.extend((0..6).map(|kind| Command::Access { strand, kind, selector: 0, size: 2, address: PAGE + 8 }));
    all
}

/// Who may command, document 02's U6: the whole table of modes, streams and commands, with every strand between strands in the other modes.
/// Each command is a run of its own, so that the state is compared after it.
fn permissions() -> impl Iterator<Item = Stream> {
    let strands = |mode: u64, hypervisor: bool| (0..STRANDS as u8).map(move |strand| (mode, hypervisor, strand));
    let each = callers().flat_map(move |(mode, hypervisor)| strands(mode, hypervisor));
    let each = each.flat_map(|(mode, hypervisor, strand)| [1, 2].map(|n| (mode, hypervisor, strand, (mode + n) % 3)));
    each.map(|(mode, hypervisor, strand, others)| {
        let steps = every_command(strand, mode).into_iter().map(|command| run_by(hypervisor, vec![command]));
        steps_from_reset(17, [run_of(between(strand, mode, others))].into_iter().chain(steps).collect())
    })
}

/// 16 in its place between the others: strand 1 in one mode and stream, its tag access in range or not, side 1 full of locked entries or
/// empty, lookups kept or not; then commands that each other question refuses or not, each a run of its own.
fn orders() -> impl Iterator<Item = Stream> {
    let states = (0..8).map(|n| [n & 1 == 1, n & 2 == 2, n & 4 == 4]);
    let each = callers().flat_map(move |caller| states.clone().map(move |state| (caller, state)));
    each.map(|((mode, hypervisor), [out, full, kept])| {
        let write = |strand: u8, register: u8, value: u64| Command::Write { strand, register, value };
        let sides = || 0..SIDES as u8;
        let mut before = Vec::new();
        if full {
            // of a context that no selector has
            let locked = |n: u64| [write(0, TAG_ACCESS + 1, n << 28 | 9), Command::Insert { strand: 0, side: 1, flags: LOCKED, word: 1 << 63 }];
            before.extend((0..SLOTS as u64).flat_map(locked));
        }
        let tags = sides().map(|side| write(1, TAG_ACCESS + side, if out { OUT_OF_RANGE } else { PAGE }));
        let down = [write(1, TRANSLATION, 3), write(1, MODE, mode)];
        // a lookup that misses leaves a page in range: behind it mode 0 has none out of range
        match kept {
            true => before.extend(down.into_iter().chain(sides().map(|side| lookup((1, side), 0, true))).chain(tags)),
            false => before.extend(tags.chain(down)),
        }
        let steps = ordered().into_iter().map(|command| run_by(hypervisor, vec![command]));
        steps_from_reset(18, [run_of(before)].into_iter().chain(steps).collect())
    })
}

const OUT_OF_RANGE: u64 = 1 << 47;

/// Commands with each operand good and bad, in all combinations. What a good one does is no matter to those behind it, but for
/// invalidations, which come last.
fn ordered() -> Vec<Command> {
    let mut all = Vec::new();
    for strand in [1, STRANDS as u8] {
        for (register, value) in [(1, 5), (1, 8192), (4, 3), (4, 4), (0, 0), (0, 8), (3, 3), (6, 0), (22, 0), (99, 0), (255, u64::MAX)] {
            all.push(Command::Write { strand, register, value });
        }
        for side in 0..=SIDES as u8 {
            for selector in 0..4 {
                all.push(Command::DemapContext { strand, side, selector });
                for flags in 0..3 {
                    all.extend([PAGE, OUT_OF_RANGE].map(|address| Command::DemapPage { strand, side, selector, flags, address }));
                }
            }
            for flags in 0..6 {
                // v 0, a size that is not listed, and a good one
                all.extend([0, 1 << 63 | 2, 1 << 63].map(|word| Command::Insert { strand, side, flags, word }));
            }
            all.extend([Command::Pointers { strand, side }, Command::Rate { strand, side }, Command::DemapAll { strand, side }]);
        }
        all.extend((0..6).map(|kind| Command::Access { strand, kind, selector: 2, size: 2, address: OUT_OF_RANGE }));
        all.extend([0, 6, 22, 26].map(|register| Command::Read { strand, register }));
    }
    all.extend((0..=SIDES as u8).map(|side| Command::Invalidate { side }));
    all
}

/// A strand goes down from mode 2 to 1 and to 0 and never up, whoever runs the stream.
fn lowered() -> Stream {
    let write = |strand: u8, value: u64| [Command::Write { strand, register: MODE, value }, Command::Read { strand, register: MODE }];
    let down = [2, 1, 2, 0, 1, 2].map(|value| (0, value)).into_iter().chain([0, 1, 2].map(|value| (1, value)));
    let steps = down.flat_map(|(strand, value)| [false, true].map(|hypervisor| run_by(hypervisor, write(strand, value).to_vec())));
    steps_from_reset(19, steps.collect())
}

pub fn all() -> impl Iterator<Item = Stream> {
    let each = || (0..3).flat_map(|mode| (0..4).flat_map(move |translation| (0..2).map(move |mask| (mode, translation, mask))));
    let modes = each().flat_map(|(mode, translation, mask)| [attributes(mode, translation, mask), bypasses(mode, translation, mask)]);
    let lengths = (0..=2 * STATE_WORDS + 120).filter(|n| *n != STATE_WORDS).map(|n| from_words(6, Start::WrongLength, vec![0; n]));
    let misses = tsb_bits().chain(tsb_lengths()).chain([tsb_operands()]);
    let untouched = callers().flat_map(|(mode, hypervisor)| [untouched(mode, hypervisor, true), untouched(mode, hypervisor, false)]);
    let lookups = histories().chain(further()).chain([rate_refusals(), served()]).chain(untouched).chain(damaged());
    let states = neighbours().into_iter().chain(flips()).chain(lengths);
    let operands = callers().map(|(mode, hypervisor)| operands(mode, hypervisor));
    let permissions = permissions().chain(orders()).chain([lowered()]);
    [registers()].into_iter().chain(operands).chain(codes()).chain(modes).chain(states).chain(misses).chain(lookups).chain(permissions)
}
