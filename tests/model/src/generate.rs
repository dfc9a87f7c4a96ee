//! Random command streams and misses, dense in hard cases.
use crate::command::{encode, Command};
use crate::model::Model;
use crate::random::Random;
use crate::tables::{place_of, tag_for, Miss, Table, TsbEntry};
use t1mmu::numbers::{ADDRESS_MASK, MODE, PARTITION, PRIMARY_CONTEXT, SECONDARY_CONTEXT, TRANSLATION};
use t1mmu::numbers::{ANSWER_BYTES, REGISTERS, SIDES, STRANDS};
use t1mmu::numbers::{tsb_base_of, tsb_bytes, tsb_configuration_of, FAULT_ADDRESS, LOCKED, TAG_ACCESS, TSB_BASE, TSB_CONFIGURATION};
use t1mmu::numbers::{HYPERPRIVILEGED, PRIVILEGED, USER};

/// One run of a stream: whether it is marked as the hypervisor's, its bytes, and its room for answers.
pub struct Run {
    pub hypervisor: bool,
    pub input: Vec<u8>,
    pub room: usize,
}

#[derive(Clone, Copy, Debug, PartialEq)]
pub enum Profile {
    /// many pages on few owners: full sides, displacement, used bits that run out
    Fill,
    /// locked insertions until no slot is to be had
    Locks,
    /// pages of all sizes side by side: full sides of mixed sizes
    Mixed,
    /// few addresses, all page sizes: overlaps and demaps
    Dense,
    /// ends of ranges and of the address space, masks
    Edges,
    /// malformed operands
    Malformed,
}

const PROFILES: [Profile; 6] = [Profile::Fill, Profile::Locks, Profile::Mixed, Profile::Dense, Profile::Edges, Profile::Malformed];

const EDGES: [u64; 16] = [
    0,
    0x2000,
    0xFFFF_E000,
    0x1_0000_0000,
    0x80_0000_0000,
    0xFF_FFFF_E000,
    0x100_0000_0000,
    0x0000_7FFF_F000_0000,
    0x0000_7FFF_FFFF_E000,
    0x0000_8000_0000_0000,
    0xFFFF_7FFF_F000_0000,
    0xFFFF_7FFF_FFFF_E000,
    0xFFFF_8000_0000_0000,
    0xFFFF_FFFF_F000_0000,
    0xFFFF_FFFF_FFFF_0000,
    0xFFFF_FFFF_FFFF_E000,
];

const CODES: [u64; 4] = [0, 1, 3, 5];

/// The modes that may send what a privileged guest may, and those that may send all.
const GUESTS: &[u64] = &[PRIVILEGED, HYPERPRIVILEGED];
const ALL: &[u64] = &[HYPERPRIVILEGED];

/// The pools that a stream draws from.
pub struct Scene {
    pub profile: Profile,
    /// of the strands, in a start state or after the setup; no command gets a strand back to mode 2
    pub modes: [u64; STRANDS],
    /// strands in mode 2 are not named, and no run is marked
    pub guests: bool,
    partitions: Vec<u64>,
    contexts: Vec<u64>,
    pages: Vec<u64>,
    codes: Vec<u64>,
    lock_percent: u64,
    bad_percent: u64,
    side: Option<u8>,
}

fn some_of(r: &mut Random, most: u64, mut draw: impl FnMut(&mut Random) -> u64) -> Vec<u64> {
    let n = 1 + r.below(most);
    (0..n).map(|_| draw(r)).collect()
}

impl Scene {
    pub fn new(r: &mut Random) -> Scene {
        let profile = r.pick(&PROFILES);
        let crowded = matches!(profile, Profile::Fill | Profile::Locks | Profile::Mixed);
        let owners = if r.percent(50) { 1 } else { 3 };
        let guests = r.percent(12);
        let mut modes = [(); STRANDS].map(|()| r.pick(&[USER, USER, PRIVILEGED, PRIVILEGED, PRIVILEGED, HYPERPRIVILEGED]));
        // one that may do all; or, of guests, one that there is to name
        let keeper = &mut modes[r.below(STRANDS as u64) as usize];
        match guests {
            true => *keeper = r.pick(&[USER, PRIVILEGED, PRIVILEGED]),
            false if r.percent(90) => *keeper = HYPERPRIVILEGED,
            false => {}
        }
        let base = r.pick(&[0, 0x1000_0000, 0x7000_0000, 0xFFFF_FFFC_F000_0000, 0x0000_7FFC_F000_0000]);
        let pages = match profile {
            Profile::Fill | Profile::Locks => (0..70 + r.below(60)).map(|i| base + i * 0x2000).collect(),
            Profile::Mixed => (0..160).map(|i| (base + i % 32 * 0x1000_0000) + r.pick(&[0, 0, 0x2000, 0x1_0000, 0x40_0000, 0xFFF_E000])).collect(),
            Profile::Dense | Profile::Malformed => {
                (0..12).map(|_| base + r.pick(&[0, 1, 2, 7, 8, 9, 0x1FF, 0x200, 0x201, 0x7FFF]) * 0x2000).collect()
            }
            Profile::Edges => EDGES.to_vec(),
        };
        Scene {
            profile,
            modes,
            guests,
            partitions: some_of(r, owners, |r| r.below(8)),
            contexts: some_of(r, owners, |r| r.pick(&[0, 0, 1, 2, 4096, 8190, 8191])),
            pages,
            codes: match profile {
                Profile::Fill | Profile::Locks => vec![0, 0, 0, 0, 0, 0, 0, 0, 0, 0, 0, 0, 0, 0, 0, 1],
                Profile::Mixed => vec![0, 0, 0, 1, 1, 3, 5],
                _ => CODES.to_vec(),
            },
            lock_percent: match profile {
                Profile::Locks => 100 - r.pick(&[0, 0, 1, 3]),
                _ => r.pick(&[0, 5, 30]),
            },
            bad_percent: if profile == Profile::Malformed { 15 } else { 1 },
            side: if crowded { Some(r.below(2) as u8) } else { None },
        }
    }

    fn bad(&self, r: &mut Random) -> bool {
        r.percent(self.bad_percent)
    }

    /// Mostly below `n`, at the rate of the scene just past it or any byte.
    fn operand(&self, r: &mut Random, n: u8) -> u8 {
        match (self.bad(r), r.percent(50)) {
            (false, _) => r.below(n as u64) as u8,
            (true, true) => n,
            (true, false) => r.next() as u8,
        }
    }

    /// Mostly one whose mode is among those given: most commands are permitted.
    fn strand(&self, r: &mut Random, state: &Model, modes: &[u64]) -> u8 {
        let mode = |strand: &u8| state.registers[*strand as usize][MODE as usize];
        let named: Vec<u8> = (0..STRANDS as u8).filter(|s| !self.guests || mode(s) != HYPERPRIVILEGED).collect();
        let fitting: Vec<u8> = named.iter().copied().filter(|s| modes.contains(&mode(s))).collect();
        match (self.bad(r), r.percent(88)) {
            (false, true) if !fitting.is_empty() => r.pick(&fitting),
            (false, _) if !named.is_empty() => r.pick(&named),
            _ => self.operand(r, STRANDS as u8),
        }
    }

    fn a_side(&self, r: &mut Random) -> u8 {
        match self.side {
            Some(side) if r.percent(90) => side,
            _ => self.operand(r, SIDES as u8),
        }
    }

    fn address(&self, r: &mut Random) -> u64 {
        let page = r.pick(&self.pages);
        let near = r.pick(&[0, 0, 0, 0, 8, 0x1FF8, 0x1FFF, 0x2000, 0xFFF8, 0x3F_FFF8, 0xFFF_FFF8, 0u64.wrapping_sub(8), 0x1_0000_0000]);
        match r.below(10) {
            0 => r.pick(&EDGES).wrapping_add(near),
            1 => page.wrapping_add(near),
            2 => r.next() >> r.below(64),
            _ => page.wrapping_add(r.below(0x2000) & !7),
        }
    }

    pub fn word(&self, r: &mut Random) -> u64 {
        let mut word = 1 << 63 | (r.next() & 0x3F00_00FF_FFFF_FEB0) | r.pick(&self.codes);
        for (flag, percent) in [(62, 15), (8, 25), (6, 60)] {
            word |= (r.percent(percent) as u64) << flag;
        }
        if r.percent(30) {
            word &= !0x0FFF_E000;
        }
        if self.bad(r) {
            word ^= match r.below(4) {
                0 => 1 << 63,
                1 => 1 << (40 + r.below(16)),
                2 => 1 << r.below(4),
                _ => r.next() << 40 & 0x00FF_FFFF_FFFF_FFFF,
            };
        }
        word
    }

    /// A value that the register takes, or at the scene's rate one that it may not.
    pub fn value(&self, r: &mut Random, register: u8) -> u64 {
        if self.bad(r) {
            return match r.below(3) {
                0 => r.next(),
                1 => 1 << r.below(64),
                _ => r.pick(&[2, 3, 4, 8, 8192, 0x10, 0x1000, 0x1FF0, 2, 4, 6, 7, 0x200, 0x400, 0x600, 0x700, 0x800, 0x8]),
            };
        }
        match register {
            // guests have neighbours in all of them
            PARTITION if self.guests => r.below(8),
            PARTITION => r.pick(&self.partitions),
            PRIMARY_CONTEXT | SECONDARY_CONTEXT => r.pick(&self.contexts),
            // what is below mode 2 stays there
            MODE => r.pick(&[USER, PRIVILEGED, HYPERPRIVILEGED, HYPERPRIVILEGED, HYPERPRIVILEGED, HYPERPRIVILEGED]),
            TRANSLATION => r.pick(&[0, 1, 2, 3, 3, 3, 3, 3]),
            ADDRESS_MASK => r.pick(&[0, 0, 0, 1]),
            TSB_BASE..TSB_CONFIGURATION => r.next() & !0x1FF0 & r.pick(&[u64::MAX, !15, 0xFFFF_FFFF]),
            TSB_CONFIGURATION..TAG_ACCESS => r.pick(&CODES) + 256 * r.pick(&CODES),
            TAG_ACCESS..FAULT_ADDRESS => self.tag(r),
            _ => r.next(),
        }
    }

    pub fn tag(&self, r: &mut Random) -> u64 {
        let address = if r.percent(90) { r.pick(&self.pages) } else { self.address(r) };
        address & !0x1FFF | r.pick(&self.contexts)
    }

    fn register(&self, r: &mut Random) -> u8 {
        match r.below(10) {
            // what guests may not write
            _ if self.guests && r.percent(30) => r.pick(&[PARTITION, MODE]),
            0..=2 => PARTITION + r.below(6) as u8,
            3..=5 => TAG_ACCESS + r.below(2) as u8,
            6..=8 => TSB_BASE + r.below(12) as u8,
            // between the registers, read only, and past them
            _ if self.bad(r) || r.percent(20) => r.pick(&[6, 7, 22, 23, 24, 25, 26, 31, 32, 255]),
            _ => TAG_ACCESS + r.below(2) as u8,
        }
    }

    fn write(&self, r: &mut Random, state: &Model, register: u8) -> Command {
        let modes = if matches!(register, PARTITION | MODE | TRANSLATION) { ALL } else { GUESTS };
        Command::Write { strand: self.strand(r, state, modes), register, value: self.value(r, register) }
    }

    /// Registers so that most accesses look up, and that a miss of a strand in mode 0 can be served; the mode last.
    fn setup(&self, r: &mut Random) -> Vec<Command> {
        let mut all = Vec::new();
        for strand in 0..STRANDS as u8 {
            let mode = self.modes[strand as usize];
            let write = |register, value| Command::Write { strand, register, value };
            for register in (PARTITION..=ADDRESS_MASK).filter(|n| *n != MODE) {
                if r.percent(97) {
                    all.push(write(register, self.value(r, register)));
                }
            }
            if mode == USER && r.percent(70) {
                let nonzero = r.percent(70);
                let (side, n, code) = (r.below(SIDES as u64) as u8, r.below(6), r.pick(&self.codes));
                all.extend([write(tsb_base_of(side, nonzero, 0), n), write(tsb_configuration_of(side, nonzero), code)]);
            }
            if r.percent(97) {
                all.push(write(MODE, mode));
            }
        }
        all
    }

    /// An insertion, mostly with a fresh tag access.
    fn insertion(&self, r: &mut Random, state: &Model, all: &mut Vec<Command>) {
        let locked = LOCKED * r.percent(self.lock_percent) as u8;
        let real = r.percent(20) as u8;
        let flags = if self.bad(r) { r.next() as u8 } else { real + locked };
        let (strand, side) = (self.strand(r, state, if flags == 0 { GUESTS } else { ALL }), self.a_side(r));
        if r.percent(92) {
            all.push(Command::Write { strand, register: TAG_ACCESS + side % 2, value: self.tag(r) });
        }
        all.push(Command::Insert { strand, side, flags, word: self.word(r) });
    }

    fn access(&self, r: &mut Random, state: &Model) -> Command {
        let side = self.a_side(r);
        let kind = if side == 0 { 0 } else { self.operand(r, 5) };
        let selector = match (kind, self.bad(r)) {
            (_, true) => r.below(5) as u8,
            (0, _) => r.pick(&[0, 0, 0, 2]),
            _ => r.pick(&[0, 0, 0, 1, 1, 2]),
        };
        let size = match (kind, self.bad(r)) {
            (_, true) => r.below(6) as u8,
            (0, _) => 2,
            _ => r.below(4) as u8,
        };
        let strand = self.strand(r, state, &[USER, PRIVILEGED]);
        let mut address = self.address(r);
        // a bypass into I/O space
        if state.registers.get(strand as usize).is_some_and(|of| of[MODE as usize] == HYPERPRIVILEGED) && r.percent(30) {
            address |= 1 << 39;
        }
        if r.percent(90) {
            address &= !((1u64 << (size % 64)) - 1);
        }
        Command::Access { strand, kind, selector, size, address }
    }

    fn removal(&self, r: &mut Random, state: &Model) -> Command {
        let (strand, side) = (self.strand(r, state, GUESTS), self.a_side(r));
        let selector = if side == 0 && !self.bad(r) { r.pick(&[0, 0, 2]) } else { self.operand(r, 3) };
        let crowded = self.side.is_some() && !self.guests;
        match r.below(100) {
            0..=59 => {
                let flags = if self.bad(r) { r.next() as u8 } else { r.percent(25) as u8 };
                Command::DemapPage { strand, side, selector, flags, address: self.address(r) }
            }
            60..=79 if !crowded || r.percent(10) => Command::DemapContext { strand, side, selector },
            80..=92 if !crowded || r.percent(10) => Command::DemapAll { strand: self.strand(r, state, ALL), side },
            93..=99 if !crowded || r.percent(5) => Command::Invalidate { side },
            _ => Command::DemapPage { strand, side, selector, flags: 0, address: self.address(r) },
        }
    }

    fn add(&self, r: &mut Random, state: &Model, all: &mut Vec<Command>) {
        let (insertions, accesses, removals) = match self.profile {
            Profile::Fill | Profile::Mixed => (45, 45, 2),
            Profile::Locks => (70, 20, 1),
            Profile::Dense => (30, 40, 15),
            Profile::Edges => (25, 45, 10),
            Profile::Malformed => (25, 30, 15),
        };
        let draw = r.below(100);
        if draw < insertions {
            self.insertion(r, state, all);
        } else if draw < insertions + accesses {
            all.push(self.access(r, state));
        } else if draw < insertions + accesses + removals {
            all.push(self.removal(r, state));
        } else {
            let register = self.register(r);
            all.push(match r.below(6) {
                0 | 1 => self.write(r, state, register),
                2 => {
                    let register = if r.percent(95) { r.below(REGISTERS as u64) as u8 } else { r.next() as u8 };
                    Command::Read { strand: self.strand(r, state, &[USER, PRIVILEGED]), register }
                }
                3 => Command::Pointers { strand: self.strand(r, state, GUESTS), side: self.operand(r, SIDES as u8) },
                _ => Command::Rate { strand: self.strand(r, state, GUESTS), side: self.operand(r, SIDES as u8) },
            });
        }
    }

    /// About `n` commands, each drawn with the modes that those before it leave.
    fn commands(&self, r: &mut Random, state: &Model, hypervisor: bool, first: bool, n: usize) -> Vec<Command> {
        let mut all = if first && r.percent(95) { self.setup(r) } else { Vec::new() };
        let (mut state, mut taken, n) = (state.clone(), 0, all.len() + n);
        while all.len() < n {
            for &command in &all[taken..] {
                state.step(command, hypervisor);
            }
            taken = all.len();
            self.add(r, &state, &mut all);
        }
        all
    }

    /// Whether a run is marked.
    fn mark(&self, r: &mut Random) -> bool {
        !self.guests && r.percent(40)
    }

    /// One run of about `n` commands; some end in an unknown code, in half a command or for want of room.
    pub fn run(&self, r: &mut Random, state: &Model, first: bool, n: usize) -> Run {
        let hypervisor = self.mark(r);
        let commands = self.commands(r, state, hypervisor, first, n);
        let mut input: Vec<u8> = commands.iter().flat_map(|&c| encode(c)).collect();
        let mut room = ANSWER_BYTES * commands.len() + r.below(60) as usize;
        match r.below(20) {
            0 | 1 => input.truncate(r.below(input.len() as u64 + 1) as usize),
            2 => input.extend([r.pick(&[0, 0x0B, 0x0C, 0x10, 0x80, 0xFF]), 0, 0]),
            3 | 4 => room = r.below(room as u64 + 1) as usize,
            5 => room = r.below(100) as usize,
            6 => (0..r.below(40)).for_each(|_| input.push(r.mostly(12))),
            7 => input.clear(),
            _ => {}
        }
        Run { hypervisor, input, room }
    }
}

/// A miss as it is made: its strand and side, tag access, and the registers that this picks.
struct Made {
    strand: u8,
    side: u8,
    tag: u64,
    n: u32,
    code: u64,
}

impl Made {
    /// An access of the page by the primary context.
    fn access(&self, r: &mut Random) -> Command {
        let (kind, address) = ((self.side == 1) as u8, (self.tag & !0x1FFF) + r.below(0x800) * 4);
        Command::Access { strand: self.strand, kind, selector: 0, size: 2, address }
    }
}

/// Misses. Registers are written first, so that tables can be made in which the entry of tag access stands, or nearly.
impl Scene {
    /// What leads to a miss, the miss, and what follows it. By the strand's mode registers are written for it, or it is as they stand.
    pub fn miss(&self, r: &mut Random, state: &Model) -> (Run, Miss, Run) {
        let (strand, side) = (self.strand(r, state, &[USER, PRIVILEGED, HYPERPRIVILEGED]), self.a_side(r));
        let registers = &state.registers[strand as usize % STRANDS];
        let mode = registers[MODE as usize];
        let by_access = mode == USER || r.percent(if mode == PRIVILEGED { 50 } else { 15 });
        let virtually = match mode {
            _ if !by_access => true,
            HYPERPRIVILEGED => r.percent(90),
            _ => registers[TRANSLATION as usize] >> (side % 2) & 1 == 1,
        };
        let made = self.made(r, registers, strand, side, virtually);
        let mut commands = if mode == USER { Vec::new() } else { self.tsb_registers(r, &made) };
        match by_access {
            true => self.missing_access(r, &made, mode, virtually, &mut commands),
            false => commands.push(Command::Write { strand, register: TAG_ACCESS + side % 2, value: made.tag }),
        }
        // now and then tag access is as it happens to be
        if r.percent(4) {
            commands.clear();
        }
        let mut after = Vec::new();
        if r.percent(70) {
            after.push(made.access(r));
        }
        (0..r.below(4)).for_each(|_| self.add(r, state, &mut after));
        let marks = [self.mark(r), self.mark(r)];
        let run = |commands: Vec<Command>, hypervisor| {
            let room = ANSWER_BYTES * commands.len();
            Run { hypervisor, input: commands.into_iter().flat_map(encode).collect(), room }
        };
        (run(commands, marks[0]), self.tables(r, &made), run(after, marks[1]))
    }

    /// In mode 0 by the registers of the strand; no table is longer than N 5 asks for.
    fn made(&self, r: &mut Random, registers: &[u64], strand: u8, side: u8, virtually: bool) -> Made {
        let user = registers[MODE as usize] == USER;
        let mut tag = self.tag(r);
        if user {
            let address = if registers[ADDRESS_MASK as usize] == 1 { tag & 0xFFFF_FFFF } else { tag };
            tag = address & !0x1FFF | registers[PRIMARY_CONTEXT as usize];
        }
        if !virtually {
            tag &= !0x1FFF;
        }
        let (n, code) = (r.pick(&[0, 0, 0, 0, 0, 1, 1, 2, 3, 4, 5]), r.pick(&self.codes));
        if !user {
            return Made { strand, side, tag, n, code };
        }
        let nonzero = tag % 0x2000 != 0;
        let n = registers[tsb_base_of(side % 2, nonzero, 0) as usize] % 16;
        let code = registers[tsb_configuration_of(side % 2, nonzero) as usize] % 8;
        Made { strand, side, tag, n: n.min(5) as u32, code }
    }

    /// N and sizes of the table used; mostly ps1's N too, and now and then that of the other table.
    fn tsb_registers(&self, r: &mut Random, made: &Made) -> Vec<Command> {
        let (strand, side, nonzero) = (made.strand, made.side % 2, made.tag % 0x2000 != 0);
        let write = |register, value| Command::Write { strand, register, value };
        let base = |r: &mut Random, n: u32| r.next() & !0x1FFF | n as u64;
        let mut all = vec![
            write(tsb_base_of(side, nonzero, 0), base(r, made.n)),
            write(tsb_configuration_of(side, nonzero), made.code + 256 * r.pick(&CODES)),
        ];
        for (register, percent) in [(tsb_base_of(side, nonzero, 1), 80), (tsb_base_of(side, !nonzero, 0), 40)] {
            let n = r.below(4) as u32;
            all.extend(r.percent(percent).then(|| write(register, base(r, n))));
        }
        all
    }

    /// An access of the page, which leaves it in tag access unless it hits; what the mode may write for it before.
    fn missing_access(&self, r: &mut Random, made: &Made, mode: u64, virtually: bool, all: &mut Vec<Command>) {
        let context = if virtually { made.tag % 0x2000 } else { r.pick(&self.contexts) };
        let open = [(ADDRESS_MASK, 0), (PRIMARY_CONTEXT, context)];
        let closed = [(TRANSLATION, if virtually { 3 } else { 0 }), (MODE, r.below(2))];
        let values: &[&[(u8, u64)]] = match mode {
            USER => &[],
            PRIVILEGED => &[&open],
            _ => &[&open, &closed],
        };
        all.extend(values.concat().into_iter().map(|(register, value)| Command::Write { strand: made.strand, register, value }));
        all.push(made.access(r));
    }

    /// Two tables: of the one used mostly the right length, with the entry that fits or with one field of it broken.
    fn tables(&self, r: &mut Random, made: &Made) -> Miss {
        let right = tsb_bytes(made.n);
        let near = [0, 1, 16, right / 2, right - 16, right - 1, right + 1, right + 16, right * 2];
        let length = if r.percent(90) { right } else { r.pick(&near) };
        let used = self.table(r, made, length);
        let n = r.below(4) as u32;
        let length = r.pick(&[0, 0, 7, right, right - 1, tsb_bytes(n), tsb_bytes(n)]);
        let unused = self.table(r, made, length);
        let (zero, other) = if made.tag % 0x2000 == 0 { (used, unused) } else { (unused, used) };
        Miss { strand: made.strand, side: made.side, zero, other }
    }

    fn table(&self, r: &mut Random, made: &Made, length: usize) -> Table {
        // what fits at each other place tells of a wrong one
        let everywhere = r.percent(60).then(|| TsbEntry { tag: tag_for(made.tag), word: 1 << 63 | r.below(2) << 39 | 0x440 | made.code });
        let entries = if r.percent(94) { vec![(place_of(made.tag, made.n, made.code), self.entry(r, made))] } else { Vec::new() };
        Table { length, everywhere, entries }
    }

    fn entry(&self, r: &mut Random, made: &Made) -> TsbEntry {
        let mut tag = tag_for(made.tag);
        let mut word = self.word(r) & !15 | 1 << 63 | made.code;
        if made.code == 5 && r.percent(50) {
            tag ^= r.below(64);
        }
        if r.percent(5) {
            word |= 1 << (40 + r.below(16));
        }
        match r.below(100) {
            0..=5 => tag ^= 1 << (48 + r.below(13)),
            6..=11 => tag ^= 1 << r.below(42),
            12..=14 => tag ^= 1 << r.below(7),
            15..=18 => tag ^= 1 << (61 + r.below(3)),
            19..=24 => tag ^= 1 << (42 + r.below(6)),
            25..=28 => word ^= 1 << 63,
            29..=34 => word ^= 1 << r.below(3),
            35..=38 => word ^= 8,
            39 => (tag, word) = (word, tag),
            40 => (tag, word) = (r.next(), r.next()),
            41 => (tag, word) = (tag.swap_bytes(), word.swap_bytes()),
            _ => {}
        }
        TsbEntry { tag, word }
    }
}
