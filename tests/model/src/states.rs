//! Random start states: sound ones that no stream need have reached, and damaged ones.
use crate::generate::Scene;
use crate::model::{in_range, known, page_size, word_allowed, Entry, Model};
use crate::random::Random;
use crate::record::{outcomes_at, seen_at, Record, SEEN_MOST};
use t1mmu::numbers::{cell_at, slot_at, CELLS, MODE, PARTITION, REGISTERS, SIDES, SLOTS, SLOT_WORDS, STATE_WORDS, STRANDS};
use t1mmu::numbers::{KEPT_LOOKUPS, NEWEST, OLDER, SEEN};

#[derive(Clone, Copy, Debug, PartialEq, Eq)]
pub enum Start {
    Reset,
    Sound,
    FlippedBit,
    RandomWord,
    PlantedOverlap,
    DirtyEmptySlot,
    RandomCell,
    BadPage,
    BadRecord,
    WrongLength,
    Noise,
}

pub const STARTS: [Start; 11] = [
    Start::Reset,
    Start::Sound,
    Start::FlippedBit,
    Start::RandomWord,
    Start::PlantedOverlap,
    Start::DirtyEmptySlot,
    Start::RandomCell,
    Start::BadPage,
    Start::BadRecord,
    Start::WrongLength,
    Start::Noise,
];

fn an_entry(r: &mut Random, scene: &Scene) -> Option<Entry> {
    let (tag, word) = (scene.tag(r), scene.word(r));
    if !in_range(tag) || !word_allowed(word) {
        return None;
    }
    let real = r.percent(20);
    Some(Entry {
        partition: scene.value(r, PARTITION) % 8,
        real,
        context: if real { 0 } else { tag & 0x1FFF },
        page: tag & !(page_size(word & 15)? - 1),
        word,
        locked: r.percent(50),
        used: r.percent(50),
    })
}

/// A record of no lookup, of few, of about as many as are kept, or of more.
fn a_record(r: &mut Random) -> Record {
    let few = r.below(130) as usize;
    let about = KEPT_LOOKUPS - 2 + r.below(5) as usize;
    let count = r.pick(&[0, 0, 1, few, about, KEPT_LOOKUPS + 64 + few]);
    let percent = r.pick(&[0, 1, 50, 99, 100]);
    Record::of((0..count).map(|_| r.percent(percent)))
}

/// A sound state, its sides and records anything from empty to full.
pub fn sound(r: &mut Random, scene: &Scene) -> Model {
    let mut model = Model::reset();
    for (strand, mode) in model.registers.iter_mut().zip(scene.modes) {
        for number in (0..REGISTERS as u8).filter(|n| known(*n)) {
            let value = scene.value(r, number);
            let mut words = Model::reset().to_words();
            words[cell_at(0, number)] = value;
            if Model::from_words(&words).is_some() {
                strand[number as usize] = value;
            }
        }
        strand[MODE as usize] = mode;
    }
    for side in 0..SIDES {
        let wanted = r.pick(&[0, 3, 40, SLOTS, SLOTS]);
        let locked = r.pick(&[None, Some(true), Some(false)]);
        let used = r.pick(&[None, Some(true), Some(false)]);
        for _ in 0..wanted * 3 {
            fill_slot(&mut model.sides[side], an_entry(r, scene), r.below(SLOTS as u64) as usize, wanted, locked, used);
        }
    }
    model.records.iter_mut().flatten().for_each(|record| *record = a_record(r));
    model
}

/// Puts the entry into the slot, or into the lowest empty one where that is taken, unless it overlaps or enough are live.
fn fill_slot(side: &mut [Option<Entry>; SLOTS], entry: Option<Entry>, at: usize, wanted: usize, locked: Option<bool>, used: Option<bool>) {
    let live = side.iter().flatten().count();
    let Some(mut e) = entry else { return };
    if live >= wanted || side.iter().flatten().any(|o| o.overlaps(&e)) {
        return;
    }
    e.locked = locked.unwrap_or(e.locked);
    e.used = used.unwrap_or(e.used);
    let free = if side[at].is_none() { Some(at) } else { side.iter().position(|s| s.is_none()) };
    if let Some(free) = free {
        side[free] = Some(e);
    }
}

/// Where the words of some slot of either side begin.
fn a_slot(r: &mut Random) -> usize {
    let n = r.below((SIDES * SLOTS) as u64) as usize;
    slot_at(n / SLOTS, n % SLOTS)
}

fn plant_overlap(r: &mut Random, words: &mut [u64]) {
    let slots = (0..SIDES).flat_map(|side| (0..SLOTS).map(move |slot| (side, slot_at(side, slot))));
    let live: Vec<(usize, usize)> = slots.filter(|(_, at)| words[at + 2] >> 63 == 1).collect();
    if live.is_empty() {
        return;
    }
    let (side, from) = r.pick(&live);
    let to = slot_at(side, r.below(SLOTS as u64) as usize);
    words.copy_within(from..from + SLOT_WORDS, to);
    // Another size, its page rounded, still holds the start or is held.
    let code = r.pick(&[0, 1, 3, 5]);
    words[to + 2] = words[to + 2] & !15 | code;
    words[to + 1] &= !(page_size(code).expect("a listed size") - 1);
}

/// Another count, or one more outcome.
fn damage_record(r: &mut Random, words: &mut [u64]) {
    let (strand, side) = (r.below(STRANDS as u64) as usize, r.below(SIDES as u64) as usize);
    let most = SEEN_MOST as u64;
    if r.percent(50) {
        words[seen_at(strand, side)] = r.pick(&[0, 1, KEPT_LOOKUPS as u64, most, most + 1, 1 << 32 | most, 1 << 63]);
    } else {
        words[r.pick(&outcomes_at(strand, side))] |= 1 << r.below(64);
    }
}

/// The words that a stream starts from.
pub fn words(r: &mut Random, scene: &Scene, start: Start) -> Vec<u64> {
    let mut words = if start == Start::Reset { Model::reset() } else { sound(r, scene) }.to_words();
    match start {
        Start::Reset | Start::Sound => {}
        Start::FlippedBit => words[r.below(STATE_WORDS as u64) as usize] ^= 1 << r.below(64),
        Start::RandomWord => words[r.below(STATE_WORDS as u64) as usize] = r.next() >> r.below(64),
        Start::PlantedOverlap => plant_overlap(r, &mut words),
        Start::DirtyEmptySlot => {
            let at = a_slot(r);
            words[at..at + SLOT_WORDS].fill(0);
            words[at + r.below(SLOT_WORDS as u64) as usize] = 1 << r.below(63);
        }
        Start::RandomCell => {
            let value = r.pick(&[1, 2, 3, 4, 7, 8, 16, 0x101, 0x201, 0x1000, 8191, 8192]);
            let n = r.below((STRANDS * CELLS) as u64) as usize;
            words[cell_at(n / CELLS, (n % CELLS) as u8)] = value;
        }
        Start::BadPage => {
            let at = a_slot(r);
            words[at + 1] ^= r.pick(&[1, 0x1000, 0x2000, 0x8000, 0x10000, 0x20_0000, 0x40_0000, 0x800_0000, 1 << 28, 1 << 46, 1 << 47, 1 << 63]);
        }
        Start::BadRecord => damage_record(r, &mut words),
        Start::WrongLength => {
            let parts = [0, 1, SLOT_WORDS, slot_at(0, 0), slot_at(1, 0), SEEN, NEWEST, OLDER];
            let near = [STATE_WORDS - SLOT_WORDS, STATE_WORDS - 1, STATE_WORDS + 1, STATE_WORDS + SLOT_WORDS];
            let length = r.pick(&[&parts[..], &near, &[slot_at(SIDES + 1, 0), 2 * STATE_WORDS]].concat());
            words.resize(length, 0);
        }
        Start::Noise => words.iter_mut().for_each(|w| *w = r.next()),
    }
    words
}
