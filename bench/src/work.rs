//! What is measured: a start state, and the calls of one pass over it.
use crate::plain::{owner, partition_of};
use std::cell::LazyCell;
use t1mmu::numbers::{cell_at, slot_at, tsb_bytes, SIDES, SLOTS, SLOT_WORDS, STATE_WORDS, STRANDS, TSB_ENTRY_BYTES};
use t1mmu::numbers::{ACCESS, DEMAP_ALL, DEMAP_CONTEXT, DEMAP_PAGE, INSERT, POINTERS, RATE, READ, WRITE};
use t1mmu::numbers::{DATA, DATA_ON, FETCH_ON, HYPERPRIVILEGED, LOAD, PRIMARY, PRIVILEGED, SECONDARY};
use t1mmu::numbers::{DISPLACED, DONE, NOT_IN_TABLE};
use t1mmu::numbers::{KEPT_LOOKUPS, NEWEST, SEEN};
use t1mmu::numbers::{MODE, PARTITION, PRIMARY_CONTEXT, SECONDARY_CONTEXT, TAG_ACCESS, TRANSLATION};

const TAG: u64 = 0x1000_0000;
const CONTEXT: u64 = 5;
/// The size code of an access of 8 bytes.
const EIGHT_BYTES: u8 = 3;
/// A register that no strand has.
const NO_REGISTER: u8 = 99;
/// Where the upper half of the addresses begins.
const UPPER: u64 = 0xFFFF_8000_0000_0000;
/// Where pages begin that works put in; one guest and eight partitions have none of them at first.
const NEW: u64 = 0x4000_0000;
/// Where pages begin that they never have.
const ABSENT: u64 = 0x7000_0000;
/// Commands of a pass, but for the longest runs.
const PASS: usize = 4096;
/// The entries of a TSB of N 0, and the misses of a pass.
const TSB_ENTRIES: usize = tsb_bytes(0) / TSB_ENTRY_BYTES;

pub struct Work {
    pub name: String,
    pub words: Vec<u64>,
    /// what the figures are divided by
    pub units: usize,
    /// the library's share of the plain Rust unit's time that is to be reached; infinite where none is set
    pub goal: f64,
    calls: LazyCell<Calls, Box<dyn FnOnce() -> Calls>>,
}

impl Work {
    fn new(name: &str, words: &[u64], units: usize, goal: f64, calls: impl FnOnce() -> Calls + 'static) -> Work {
        Work { name: name.to_string(), words: words.to_vec(), units, goal, calls: LazyCell::new(Box::new(calls)) }
    }

    /// Made on demand, since callgrind's runs want one work's alone, and once, so that contestants share them.
    pub fn calls(&self) -> &Calls {
        &self.calls
    }
}

/// The calls of one pass.
pub enum Calls {
    /// runs, by their inputs
    Runs(Vec<Vec<u8>>),
    /// serves that are answered with this kind
    Serves(u8, Misses),
    HandBacks(Misses),
}

impl Calls {
    pub fn runs(&self) -> &[Vec<u8>] {
        match self {
            Calls::Runs(inputs) => inputs,
            _ => &[],
        }
    }
}

/// Misses of the data side, and the TSBs that are lent for them.
pub struct Misses {
    /// strand and tag access
    pub each: Vec<(u8, u64)>,
    zero: Vec<u8>,
    other: Vec<u8>,
}

impl Misses {
    /// 8 KB pages, the strands in turn. The TSB has the pages from `held` on, which is the start of 4 MB; that of context zero has none.
    fn new(held: u64, page: impl Fn(u64) -> u64) -> Misses {
        let each = (0..TSB_ENTRIES).map(|i| ((i % STRANDS) as u8, page(i as u64) | CONTEXT)).collect();
        let entry = |i: u64| [CONTEXT << 48 | held >> 22, 1 << 63 | i << 13 | 0x440].map(u64::to_be_bytes).concat();
        Misses { each, zero: vec![0; tsb_bytes(0)], other: (0..TSB_ENTRIES as u64).flat_map(entry).collect() }
    }

    pub fn tables(&self) -> [&[u8]; 2] {
        [&self.zero, &self.other]
    }
}

struct Random(u64);

impl Random {
    fn below(&mut self, n: usize) -> usize {
        self.0 ^= self.0 << 13;
        self.0 ^= self.0 >> 7;
        self.0 ^= self.0 << 17;
        (self.0 % n as u64) as usize
    }
}

#[derive(Clone, Copy, PartialEq)]
pub enum Population {
    /// 8 KB pages of one guest side by side
    OneGuest,
    /// eight partitions, their 8 KB pages apart
    EightPartitions,
    /// one guest, the four sizes in turn
    FourSizes,
    /// one guest, a 256 MB page and 8 KB pages within 256 MB: most pairs share a bucket
    Worst,
    /// any partition, context below 100 and 8 KB page of the lower half; that no two are the same shows in the run, which is not stopped
    RandomPages,
    /// one guest, 8 KB pages anywhere in the lower half: some share the place of their hint
    Scattered,
    /// one guest, 8 KB pages side by side, every other one real
    RealAndVirtual,
    /// one guest, 8 KB pages of the lower and the upper half in turn
    BothHalves,
}

/// Owner, page and word of the q-th entry.
fn entry(population: Population, q: u64, r: &mut Random) -> [u64; 3] {
    let word = 1 << 63 | q << 29 | 0x440;
    let virtual_of = |partition: u64| owner(partition, false, CONTEXT);
    match population {
        Population::OneGuest => [virtual_of(0), TAG + q * 0x2000, word],
        Population::EightPartitions => [virtual_of(q % 8), TAG + q * 0x2000, word],
        Population::FourSizes => [virtual_of(0), (q + 1) << 28, word | [0, 1, 3, 5][q as usize % 4]],
        Population::Worst if q == 0 => [virtual_of(0), 0x8000_0000, word | 5],
        Population::Worst => [virtual_of(0), TAG + q * 0x2000, word],
        Population::RandomPages => [owner(r.below(8) as u64, false, r.below(100) as u64), (r.below(1 << 34) << 13) as u64, word],
        Population::Scattered => [virtual_of(0), (r.below(1 << 34) << 13) as u64, word],
        Population::RealAndVirtual => [[virtual_of(0), owner(0, true, 0)][q as usize % 2], TAG + q * 0x2000, word],
        Population::BothHalves => [virtual_of(0), [TAG, UPPER][q as usize % 2] + q * 0x2000, word],
    }
}

/// Both sides full.
fn state(population: Population) -> Vec<u64> {
    filled(population, SLOTS)
}

/// As many entries on both sides, in the same shuffled order, used bits set; strand s has partition 2 s where there are eight.
fn filled(population: Population, entries: usize) -> Vec<u64> {
    let mut r = Random(88172645463325252);
    let mut words = vec![0; STATE_WORDS];
    for strand in 0..STRANDS {
        let mut set = |register: u8, value: u64| words[cell_at(strand, register)] = value;
        set(PARTITION, if population == Population::EightPartitions { 2 * strand as u64 } else { 0 });
        set(PRIMARY_CONTEXT, CONTEXT);
        set(SECONDARY_CONTEXT, CONTEXT + 1);
        set(MODE, PRIVILEGED);
        set(TRANSLATION, FETCH_ON + DATA_ON);
        (0..SIDES).for_each(|side| set(TAG_ACCESS + side as u8, TAG | CONTEXT));
    }
    let mut places: Vec<usize> = (0..SLOTS).collect();
    (1..SLOTS).rev().for_each(|i| places.swap(i, r.below(i + 1)));
    for (q, place) in places[..entries].iter().enumerate() {
        let [owner, page, word] = entry(population, q as u64, &mut r);
        for side in 0..SIDES {
            words[slot_at(side, *place)..][..SLOT_WORDS].copy_from_slice(&[owner, page, word, 2]);
        }
    }
    words
}

fn with(head: &[u8], value: u64) -> Vec<u8> {
    [head, &value.to_be_bytes()[..]].concat()
}

fn load(strand: u64, address: u64) -> Vec<u8> {
    with(&[ACCESS, strand as u8, LOAD, PRIMARY, EIGHT_BYTES], address)
}

fn insert(strand: u8, word: u64) -> Vec<u8> {
    with(&[INSERT, strand, DATA, 0], word)
}

fn demap_page(strand: u8, address: u64) -> Vec<u8> {
    with(&[DEMAP_PAGE, strand, DATA, PRIMARY, 0], address)
}

/// A load that hits a random live entry of the data side.
fn hit(words: &[u64], r: &mut Random) -> Vec<u8> {
    loop {
        let slot = &words[slot_at(DATA as usize, r.below(SLOTS))..][..SLOT_WORDS];
        if let Some(strand) = (0..STRANDS).find(|&s| words[cell_at(s, PARTITION)] == partition_of(slot[0])) {
            return load(strand as u64, slot[1] + 8 * r.below(1024) as u64);
        }
    }
}

/// One long run; the command, or pair, of each number.
fn long(name: &str, goal: f64, words: &[u64], each: impl Fn(usize) -> Vec<u8> + 'static) -> Work {
    Work::new(name, words, PASS, goal, move || Calls::Runs(vec![(0..PASS).flat_map(&each).collect()]))
}

/// One long run of hits at random slots.
fn long_hits(name: &str, goal: f64, words: Vec<u64>) -> Work {
    Work { name: name.to_string(), ..hits(words, PASS, goal) }
}

/// A pass of hits in runs of `length`.
fn hits(words: Vec<u64>, length: usize, goal: f64) -> Work {
    let number = (PASS / length).max(1);
    let of = words.clone();
    Work::new(&format!("hits in runs of {length}"), &words, number * length, goal, move || {
        let mut r = Random(1234567);
        Calls::Runs((0..number).map(|_| (0..length).flat_map(|_| hit(&of, &mut r)).collect()).collect())
    })
}

/// Runs without a command: they pay for the soundness test alone.
fn soundness(name: &str, goal: f64, words: Vec<u64>) -> Work {
    Work::new(&format!("soundness of two {name}"), &words, 256, goal, || Calls::Runs(vec![Vec::new(); 256]))
}

fn lookups() -> Vec<Work> {
    let (one, eight) = (state(Population::OneGuest), state(Population::EightPartitions));
    let first = one[slot_at(DATA as usize, 0) + 1];
    vec![
        long("hit, first slot", 0.7, &one, move |i| load(0, first + 8 * (i as u64 % 1024))),
        long_hits("hit, random slot, one guest", 0.7, one.clone()),
        long_hits("hit, random slot, one guest, four page sizes", 0.7, state(Population::FourSizes)),
        long_hits("hit, random slot, one guest, scattered pages", 0.7, state(Population::Scattered)),
        long_hits("hit, random slot, eight partitions", 1.0, eight.clone()),
        long("miss, one guest", 0.7, &one, |i| load(0, ABSENT + 0x2000 * (i as u64 % 512))),
        long("miss, eight partitions", 1.0, &eight, |i| load(i as u64 % 4, ABSENT + 0x2000 * (i as u64 % 512))),
        long("bypass (mode 2)", 1.0, &hyperprivileged(&one), |i| load(0, 8 * i as u64)),
    ]
}

fn hyperprivileged(words: &[u64]) -> Vec<u64> {
    let mut words = words.to_vec();
    (0..STRANDS).for_each(|strand| words[cell_at(strand, MODE)] = HYPERPRIVILEGED);
    words
}

/// Each insertion has a page of its own: 2,048 pages pass before one comes again.
fn displacing(i: usize, strand: u8) -> Vec<u8> {
    let page = NEW + 0x2000 * (i as u64 % 2048);
    [with(&[WRITE, strand, TAG_ACCESS + DATA], page | CONTEXT), insert(strand, 1 << 63 | (i as u64) << 13 | 0x440)].concat()
}

fn changes() -> Vec<Work> {
    let (one, eight) = (state(Population::OneGuest), state(Population::EightPartitions));
    let own = 1 << 63 | 0x440;
    vec![
        long("tag access and insertion with displacement, one guest (a pair)", 1.0, &one, |i| displacing(i, 0)),
        long("the same, eight partitions", 1.0, &eight, |i| displacing(i, i as u8 % 4)),
        long("insertion over the same page, full side", 1.0, &one, move |_| insert(0, own)),
        long("demap page and insertion again (a pair)", 1.0, &one, move |_| {
            [demap_page(0, TAG), insert(0, own)].concat()
        }),
        long("demap page, none there", 1.0, &one, |_| demap_page(0, ABSENT)),
        long("demap page, none there, eight partitions", 1.0, &eight, |i| demap_page(i as u8 % 4, ABSENT)),
        long("demap context, none there", 1.0, &one, |_| vec![DEMAP_CONTEXT, 0, DATA, SECONDARY]),
        // open to mode 2 alone
        long("demap all, none there", 1.0, &hyperprivileged(&other_partition(&one)), |_| vec![DEMAP_ALL, 0, DATA]),
    ]
}

/// Strand 0 in a partition without entries.
fn other_partition(words: &[u64]) -> Vec<u64> {
    let mut words = words.to_vec();
    words[cell_at(0, PARTITION)] = 3;
    words
}

/// Every record full of lookups, any of which missed.
fn recorded(words: &[u64]) -> Vec<u64> {
    let mut r = Random(362436069362436069);
    let mut words = words.to_vec();
    words[SEEN..NEWEST].fill(KEPT_LOOKUPS as u64);
    words[NEWEST..].fill_with(|| r.below(usize::MAX) as u64);
    words
}

fn small() -> Vec<Work> {
    let one = state(Population::OneGuest);
    vec![
        long("write of a register", 1.0, &one, |i| with(&[WRITE, 0, SECONDARY_CONTEXT], i as u64)),
        long("read of a register", 1.0, &one, |i| vec![READ, 0, i as u8 % 6]),
        long("pointers", 1.0, &one, |_| vec![POINTERS, 0, DATA]),
        long("miss rate", 1.0, &recorded(&one), |_| vec![RATE, 0, DATA]),
        long(&format!("refused (register {NO_REGISTER})"), 1.0, &one, |_| vec![READ, 0, NO_REGISTER]),
    ]
}

fn growing(length: usize) -> Work {
    hits(state(Population::OneGuest), length, if length == 1 { 1.0 } else { 0.7 })
}

fn states() -> Vec<Work> {
    vec![
        soundness("full sides, one guest", 0.06, state(Population::OneGuest)),
        soundness("full sides, eight partitions", 0.06, state(Population::EightPartitions)),
        soundness("full sides, four page sizes", 0.06, state(Population::FourSizes)),
        soundness("full sides, worst population", 0.25, state(Population::Worst)),
        soundness("sides, 24 entries each", 0.25, filled(Population::OneGuest, 24)),
        soundness("full sides, random pages", 0.25, state(Population::RandomPages)),
        soundness("full sides, real and virtual", 0.25, state(Population::RealAndVirtual)),
        soundness("full sides, both halves", 0.25, state(Population::BothHalves)),
        soundness("full sides, one guest, full records", 0.06, recorded(&state(Population::OneGuest))),
        // as after a reset
        soundness("sides, empty", 1.0, hyperprivileged(&[0; STATE_WORDS])),
    ]
}

/// Each serve puts in a page that is not there: all those of the TSB pass before one comes again.
fn displacing_serves(name: &str, words: &[u64]) -> Work {
    let calls = || Calls::Serves(DISPLACED, Misses::new(NEW, |i| NEW + 0x2000 * i));
    Work::new(&format!("served miss with displacement, {name}"), words, TSB_ENTRIES, 1.0, calls)
}

fn misses() -> Vec<Work> {
    let one = state(Population::OneGuest);
    let on_one = |name: &str, calls: fn() -> Calls| Work::new(name, &one, TSB_ENTRIES, 1.0, calls);
    vec![
        displacing_serves("one guest", &one),
        displacing_serves("eight partitions", &state(Population::EightPartitions)),
        on_one("served miss over the same page, full side", || Calls::Serves(DONE, Misses::new(TAG, |_| TAG))),
        on_one("served miss, another page's entry: not in table", || {
            Calls::Serves(NOT_IN_TABLE, Misses::new(NEW, |i| ABSENT + 0x2000 * i))
        }),
        on_one("hand back", || Calls::HandBacks(Misses::new(NEW, |i| NEW + 0x2000 * i))),
    ]
}

/// The first table's works.
pub fn all() -> Vec<Work> {
    let mut all = lookups();
    all.extend(changes());
    all.extend(small());
    all.extend([1, 10, 100, 1_000, 10_000, 100_000].map(growing));
    all.extend(states());
    all.extend(misses());
    all
}

/// Short runs, and serves, on one population.
pub struct Short {
    /// runs without a command
    pub empty: Work,
    /// by commands a run, hits at random slots; a serve is one
    pub works: Vec<(usize, Work)>,
}

/// The second table's works. Records are full from the start: hits fill them, and number 1 takes less of a full one than of an empty one.
pub fn short() -> Vec<Short> {
    let on = |name: &str, population| {
        let words = recorded(&state(population));
        let hits = [1, 4, 16].map(|length| {
            let of = hits(words.clone(), length, f64::INFINITY);
            (length, Work { name: format!("{}, {name}", of.name), ..of })
        });
        let name = format!("{name}, full records");
        Short {
            works: hits.into_iter().chain([(1, displacing_serves(&name, &words))]).collect(),
            empty: soundness(&format!("full sides, {name}"), f64::INFINITY, words),
        }
    };
    vec![on("one guest", Population::OneGuest), on("eight partitions", Population::EightPartitions)]
}

/// Both tables' works.
pub fn every() -> Vec<Work> {
    let second = short().into_iter().flat_map(|s| s.works.into_iter().map(|(_, work)| work).chain([s.empty]));
    all().into_iter().chain(second).collect()
}
