//! How often each answer, refusal, trap, stop, start state, way of an insertion, outcome of a serve, sort of rate and permission occurred; a
//! comparison that never met one of them shows little.
use crate::command::{encode, Command};
use crate::guests::Confined;
use crate::model::{Choice, Entry, Event, Misfit, Permission, CHOICES, MISFITS};
use crate::states::{Start, STARTS};
use std::collections::BTreeMap;

/// Command codes, and the numbers of commands' refusals, are below these.
const CODES: usize = 11;
const NUMBERS: usize = 17;

pub struct Coverage {
    commands: [u64; CODES],
    answers: [u64; 6],
    /// by command code and number
    refusals: [[u64; NUMBERS]; CODES],
    traps: Vec<u64>,
    attributes: [u64; 8],
    /// physical answers: of lookups by fetch, realness and size code; of bypasses by kind and I/O space
    translated: [[[u64; 6]; 2]; 2],
    bypassed: [[u64; 2]; 5],
    /// bypasses that I/O space does not take, atomic or nonfaulting: by translation and by whether a context other than 0 is selected
    io_faults: [[[u64; 2]; 2]; 2],
    /// and by whether a bit above 39 is set
    io_above: [[u64; 2]; 2],
    /// by command code: removals of none, one, several
    removed: [[u64; 3]; CODES],
    stops: [u64; 5],
    choices: [u64; 6],
    found: [[u64; 6]; 2],
    /// rates 0, between and 1000: of fewer lookups than are kept, and of as many
    rated: [[u64; 3]; 2],
    /// by start: sound, not sound
    starts: [[u64; 2]; STARTS.len()],
    permissions: Permissions,
    serves: Serves,
}

#[derive(Default)]
struct Permissions {
    /// by command, mode of the strand that it names, mark of the stream, and whether it is permitted
    asked: BTreeMap<(Sort, Option<u64>, bool, bool), u64>,
    /// by command code and by the number that 16 came before
    before: BTreeMap<(u8, u8), u64>,
    /// sides under runs of guests alone, by `CONFINED`
    guests: [u64; CONFINED.len()],
}

const CONFINED: [(&str, fn(&Confined) -> bool); 4] = [
    ("a locked entry of another partition kept", |side| side.kept > 0),
    ("such an entry kept on a full side", |side| side.kept > 0 && side.full),
    ("such an entry kept on a full side that changed", |side| side.kept > 0 && side.full && side.changed),
    ("a locked entry of their own gone", |side| side.lost > 0),
];

/// A command, of a write with its register and of an insertion or a demap of a page with its flags.
type Sort = (u8, u8);

#[derive(Default)]
struct Serves {
    /// by number, 0 for a part
    parts: [u64; 15],
    /// by kind of answer
    answers: [u64; 7],
    refusals: [u64; 15],
    /// table zero or the other looked at; by whether the table that was not looked at had a length of its own
    tables: [[u64; 2]; 2],
    misfits: [u64; MISFITS.len()],
    /// by N, by size code and by the strand's mode
    fits: [[u64; 6]; 3],
    free_bits: u64,
    overlaps: u64,
    /// in this stream, and lookups that found one of them
    entries: Vec<Entry>,
    found: u64,
}

/// What hand back refuses by, and what serving refuses by beside it.
const HANDED: [usize; 4] = [1, 5, 6, 14];
const SERVED: [usize; 3] = [11, 12, 13];

/// Which numbers a command can meet: 5 to 13 of "Questions before a command acts", 15 and 16.
const ASKED: [&[u8]; CODES] = [
    &[],
    &[5, 9, 10, 16],
    &[5, 6, 8, 16, 11, 12, 13],
    &[5, 6, 7, 8, 16, 11],
    &[5, 6, 7, 16],
    &[5, 6, 16],
    &[6, 16],
    &[5, 6, 7, 8],
    &[5, 9],
    &[5, 6, 16],
    &[5, 6, 16, 15],
];

/// The numbers that 16 comes before, by command code.
const AFTER_16: [(u8, u8); 5] = [(2, 11), (2, 12), (2, 13), (3, 11), (10, 15)];

/// Each sort of command that names a strand, and the modes that may send it: document 02's U6 as a table.
fn table() -> Vec<(Sort, [bool; 3])> {
    let [all, guests, hypervisor] = [[true; 3], [false, true, true], [false, false, true]];
    let writes = [0, 3, 4].map(|n| ((1, n), hypervisor)).into_iter().chain([1, 2, 5].into_iter().chain(8..22).map(|n| ((1, n), guests)));
    let insertions = (0..4).map(|flags| ((2, flags), if flags == 0 { guests } else { hypervisor }));
    let demaps = [((3, 0), guests), ((3, 1), guests), ((4, 0), guests), ((5, 0), hypervisor)];
    let others = [((7, 0), all), ((8, 0), all), ((9, 0), guests), ((10, 0), guests)];
    writes.chain(insertions).chain(demaps).chain(others).collect()
}

/// Every trap number with every fault type that it can have.
const TRAPS: [(usize, &[usize]); 9] = [
    (0x08, &[0x01, 0x10, 0x11, 0x20]),
    (0x30, &[0x01, 0x02, 0x03, 0x04, 0x05, 0x10, 0x11, 0x14, 0x15, 0x20]),
    (0x34, &[0]),
    (0x37, &[0]),
    (0x3E, &[0]),
    (0x3F, &[0]),
    (0x64, &[0]),
    (0x68, &[0]),
    (0x6C, &[0]),
];

const KINDS: [&str; 6] = ["done", "physical", "trap", "read", "displaced", "refused"];

fn told(choice: &Choice) -> &'static str {
    match choice {
        Choice::Empty => "lowest empty slot",
        Choice::EmptyAfterOverlap => "lowest empty slot after one overlap",
        Choice::EmptyAfterSeveralOverlaps => "lowest empty slot after several overlaps",
        Choice::FullSideOverlap => "full side, an overlapped entry made way",
        Choice::LowestUnused => "lowest unlocked slot without a used bit",
        Choice::UsedBitsCleared => "used bits cleared, lowest unlocked slot",
    }
}

impl Default for Coverage {
    fn default() -> Self {
        Coverage {
            commands: [0; CODES],
            answers: [0; 6],
            refusals: [[0; NUMBERS]; CODES],
            traps: vec![0; 65536],
            attributes: [0; 8],
            translated: [[[0; 6]; 2]; 2],
            bypassed: [[0; 2]; 5],
            io_faults: [[[0; 2]; 2]; 2],
            io_above: [[0; 2]; 2],
            removed: [[0; 3]; CODES],
            stops: [0; 5],
            choices: [0; 6],
            found: [[0; 6]; 2],
            rated: [[0; 3]; 2],
            starts: [[0; 2]; STARTS.len()],
            permissions: Permissions::default(),
            serves: Serves::default(),
        }
    }
}

fn misfit_told(misfit: Misfit) -> &'static str {
    match misfit {
        Misfit::Context => "context",
        Misfit::Address => "address",
        Misfit::TagAbove => "tag bits 63:61",
        Misfit::TagBetween => "tag bits 47:42",
        Misfit::Invalid => "v 0",
        Misfit::SizeCode => "size bits 2:0",
        Misfit::SizeBit3 => "size bit 3",
    }
}

fn sort_of(command: Command) -> Sort {
    let detail = match command {
        Command::Write { register, .. } => register,
        Command::Insert { flags, .. } | Command::DemapPage { flags, .. } => flags,
        _ => 0,
    };
    (encode(command)[0], detail)
}

fn sort_told((code, detail): Sort) -> String {
    match code {
        1 => format!("write of register {detail}"),
        2 => format!("insertion with flags {detail}"),
        3 => format!("demap page with flags {detail}"),
        _ => format!("command {code:#04x}"),
    }
}

impl Permissions {
    fn asked(&mut self, command: Command, mode: Option<u64>, hypervisor: bool, told: Permission) {
        let sort = sort_of(command);
        *self.asked.entry((sort, mode, hypervisor, told == Permission::Permitted)).or_default() += 1;
        if let Permission::Refused { before: Some(number) } = told {
            *self.before.entry((sort.0, number)).or_default() += 1;
        }
    }

    fn confined(&mut self, side: &Confined) {
        self.guests.iter_mut().zip(CONFINED).for_each(|(count, (_, met))| *count += met(side) as u64);
    }

    fn items(&self, all: &mut Vec<(String, u64)>) {
        let times = |key| self.asked.get(&key).copied().unwrap_or(0);
        let streams = [(false, "unmarked"), (true, "marked")];
        for (sort, modes) in table() {
            for (mode, permitted) in modes.into_iter().enumerate() {
                for (hypervisor, stream) in streams {
                    let told = if permitted { "permitted" } else { "refused" };
                    let name = format!("{} {told}, mode {mode}, {stream}", sort_told(sort));
                    all.push((name, times((sort, Some(mode as u64), hypervisor, permitted))));
                }
            }
        }
        all.push(("invalidate refused, unmarked".to_string(), times(((6, 0), None, false, false))));
        all.push(("invalidate permitted, marked".to_string(), times(((6, 0), None, true, true))));
        for (code, number) in AFTER_16 {
            let count = self.before.get(&(code, number)).copied().unwrap_or(0);
            all.push((format!("command {code:#04x} refused 16 before {number}"), count));
        }
        all.extend(CONFINED.iter().zip(self.guests).map(|((name, _), count)| (format!("guests: {name}"), count)));
    }
}

impl Serves {
    fn event(&mut self, event: &Event) {
        match event {
            Event::Inserted(choice) => {
                let overlap = matches!(choice, Choice::EmptyAfterOverlap | Choice::EmptyAfterSeveralOverlaps | Choice::FullSideOverlap);
                self.overlaps += overlap as u64;
            }
            Event::Looked { other, unused_right } => self.tables[*other as usize][*unused_right as usize] += 1,
            Event::Misfit(misfit) => self.misfits[MISFITS.iter().position(|(m, _)| m == misfit).expect("a misfit")] += 1,
            Event::Fits { mode, n, code, free_bits } => {
                if let Some(count) = self.fits[0].get_mut(*n as usize) {
                    *count += 1;
                }
                self.fits[1][*code as usize] += 1;
                self.fits[2][*mode as usize] += 1;
                self.free_bits += *free_bits as u64;
            }
            Event::Served(entry) => self.entries.push(*entry),
            Event::Asked { .. } | Event::Found(_) | Event::Translated { .. } | Event::Bypassed { .. } => unreachable!("of a run"),
            Event::IoFault { .. } | Event::Rated { .. } => unreachable!("of a run"),
        }
    }

    /// A lookup that found an entry of a serve; its used bit may have been cleared meanwhile.
    fn found(&mut self, entry: &Entry) {
        self.found += self.entries.iter().any(|e| Entry { used: entry.used, ..*e } == *entry) as u64;
    }

    fn items(&self, all: &mut Vec<(String, u64)>) {
        all.push(("hand back: a part".to_string(), self.parts[0]));
        HANDED.iter().for_each(|&n| all.push((format!("hand back refused {n}"), self.parts[n])));
        HANDED.iter().chain(&SERVED).for_each(|&n| all.push((format!("serve refused {n}"), self.refusals[n])));
        for (kind, name) in [(0, "done"), (4, "displaced"), (6, "not in table")] {
            all.push((format!("serve: {name}"), self.answers[kind]));
        }
        for (other, name) in ["zero", "other"].iter().enumerate() {
            all.push((format!("table {name} used, the unused one of another length"), self.tables[other][0]));
            all.push((format!("table {name} used, the unused one of its length"), self.tables[other][1]));
        }
        for ((misfit, _), count) in MISFITS.iter().zip(self.misfits) {
            all.push((format!("not in table by {} alone", misfit_told(*misfit)), count));
        }
        (0..=5).for_each(|n: usize| all.push((format!("fit with N {n}"), self.fits[0][n])));
        [0, 1, 3, 5].iter().for_each(|&code: &usize| all.push((format!("fit with size code {code}"), self.fits[1][code])));
        (0..=2).for_each(|mode: usize| all.push((format!("fit in mode {mode}"), self.fits[2][mode])));
        all.push(("fit with size code 5 and other tag bits 5:0".to_string(), self.free_bits));
        all.push(("serve struck an overlapping entry".to_string(), self.overlaps));
        all.push(("lookup found an entry of a serve".to_string(), self.found));
    }
}

impl Coverage {
    pub fn start(&mut self, start: Start, sound: bool) {
        let at = STARTS.iter().position(|s| *s == start).expect("a start");
        self.starts[at][if sound { 0 } else { 1 }] += 1;
        self.serves.entries.clear();
    }

    pub fn stop(&mut self, stop: u8) {
        self.stops[stop as usize] += 1;
    }

    pub fn events(&mut self, events: &[Event]) {
        for event in events {
            match event {
                Event::Asked { command, mode, hypervisor, told } => self.permissions.asked(*command, *mode, *hypervisor, *told),
                Event::Inserted(choice) => self.choices[CHOICES.iter().position(|c| c == choice).expect("a choice")] += 1,
                Event::Found(entry) => {
                    self.found[entry.real as usize][(entry.word & 15) as usize] += 1;
                    self.serves.found(entry);
                }
                Event::Translated { fetch, real, code } => self.translated[*fetch as usize][*real as usize][*code as usize] += 1,
                Event::Bypassed { kind, io } => self.bypassed[*kind as usize][*io as usize] += 1,
                Event::IoFault { kind, translating, context, above } => {
                    let kind = (*kind == 4) as usize;
                    self.io_faults[kind][*translating as usize][*context as usize] += 1;
                    self.io_above[kind][*above as usize] += 1;
                }
                Event::Rated { full, rate } => self.rated[*full as usize][(*rate > 0) as usize + (*rate == 1000) as usize] += 1,
                _ => unreachable!("of a serve"),
            }
        }
    }

    /// Both sides under a run of guests alone.
    pub fn confined(&mut self, sides: &[Confined]) {
        sides.iter().for_each(|side| self.permissions.confined(side));
    }

    /// A hand back's number and a serve's answer, and what happened inside.
    pub fn served(&mut self, number: u8, answer: &[u8], events: &[Event]) {
        self.serves.parts[number as usize] += 1;
        self.serves.answers[answer[0] as usize] += 1;
        if answer[0] == 5 {
            self.serves.refusals[answer[1] as usize] += 1;
        }
        events.iter().for_each(|event| self.serves.event(event));
    }

    pub fn answer(&mut self, code: u8, bytes: &[u8]) {
        let code = code as usize;
        self.commands[code] += 1;
        self.answers[bytes[0] as usize] += 1;
        match bytes[0] {
            0 if (3..=5).contains(&code) => self.removed[code][bytes[15].min(2) as usize] += 1,
            1 => self.attributes[bytes[1] as usize] += 1,
            2 => self.traps[bytes[1] as usize * 256 + bytes[2] as usize] += 1,
            5 => self.refusals[code][bytes[1] as usize] += 1,
            _ => {}
        }
    }

    /// Every thing that has to occur, by name.
    fn items(&self) -> Vec<(String, u64)> {
        let mut all = Vec::new();
        for code in 1..CODES {
            all.push((format!("command {code:#04x}"), self.commands[code]));
            for &number in ASKED[code] {
                all.push((format!("command {code:#04x} refused {number}"), self.refusals[code][number as usize]));
            }
        }
        for (kind, name) in KINDS.iter().enumerate() {
            all.push((format!("answer {kind} {name}"), self.answers[kind]));
        }
        for (number, types) in TRAPS {
            for &fault in types {
                all.push((format!("trap {number:#04x} type {fault:#04x}"), self.traps[number * 256 + fault]));
            }
        }
        (0..8).for_each(|a| all.push((format!("physical a = {a}"), self.attributes[a])));
        self.physical_items(&mut all);
        self.io_items(&mut all);
        for code in 3..6 {
            for (n, many) in ["none", "one", "several"].iter().enumerate() {
                if (code, n) != (3, 2) {
                    all.push((format!("command {code:#04x} removed {many}"), self.removed[code][n]));
                }
            }
        }
        (0..5).for_each(|s| all.push((format!("stop {s}"), self.stops[s])));
        for (choice, count) in CHOICES.iter().zip(self.choices) {
            all.push((format!("insertion: {}", told(choice)), count));
        }
        for (real, name) in ["virtual", "real"].iter().enumerate() {
            [0, 1, 3, 5].iter().for_each(|&code: &usize| all.push((format!("found {name}, size code {code}"), self.found[real][code])));
        }
        for (full, many) in ["fewer than 1,024", "1,024"].iter().enumerate() {
            for (n, rate) in ["0", "between", "1000"].iter().enumerate() {
                all.push((format!("rate {rate} of {many} lookups"), self.rated[full][n]));
            }
        }
        self.permissions.items(&mut all);
        self.serves.items(&mut all);
        self.start_items(&mut all);
        all
    }

    fn physical_items(&self, all: &mut Vec<(String, u64)>) {
        for (fetch, by) in ["data", "fetch"].iter().enumerate() {
            for (real, name) in ["virtual", "real"].iter().enumerate() {
                [0, 1, 3, 5].iter().for_each(|&code: &usize| all.push((format!("{by} physical, {name}, c = {code}"), self.translated[fetch][real][code])));
            }
        }
        for (kind, [memory, io]) in self.bypassed.iter().enumerate() {
            all.push((format!("bypass of kind {kind} into memory"), *memory));
            // of the others none goes there
            if kind < 3 {
                all.push((format!("bypass of kind {kind} into I/O space"), *io));
            }
        }
    }

    fn io_items(&self, all: &mut Vec<(String, u64)>) {
        for (kind, name) in ["atomic", "nonfaulting load"].iter().enumerate() {
            for (on, translation) in ["off", "on"].iter().enumerate() {
                for (context, selected) in ["zero", "not zero"].iter().enumerate() {
                    all.push((format!("{name} at I/O space, translation {translation}, context {selected}"), self.io_faults[kind][on][context]));
                }
            }
            for (above, bits) in ["zero", "not zero"].iter().enumerate() {
                all.push((format!("{name} at I/O space, bits 63:40 {bits}"), self.io_above[kind][above]));
            }
        }
    }

    fn start_items(&self, all: &mut Vec<(String, u64)>) {
        for (start, [sound, unsound]) in STARTS.iter().zip(self.starts) {
            if !matches!(start, Start::DirtyEmptySlot | Start::WrongLength | Start::Noise) {
                all.push((format!("start {start:?}, sound"), sound));
            }
            if !matches!(start, Start::Reset | Start::Sound) {
                all.push((format!("start {start:?}, not sound"), unsound));
            }
        }
    }

    pub fn print(&self) {
        let items = self.items();
        for pair in items.chunks(3) {
            let line: Vec<String> = pair.iter().map(|(name, n)| format!("{n:>9} {name:<52}")).collect();
            println!("{}", line.join("").trim_end());
        }
    }

    /// The names of what never occurred.
    pub fn missing(&self) -> Vec<String> {
        self.items().into_iter().filter(|(_, n)| *n == 0).map(|(name, _)| name).collect()
    }
}
