//! The unit as one would write it in Rust for speed without proofs: own structs, a linear scan, a pairwise soundness test.
use t1mmu::numbers::{self, cell_at, slot_at, ANSWER_BYTES, CELLS, SIDES, SLOTS, SLOT_WORDS, STATE_WORDS, STRANDS, TSB_ENTRY_BYTES};
use t1mmu::numbers::{record_of, KEPT_LOOKUPS, NEWEST, OLDER, OLDER_WORDS, SEEN};
use t1mmu::sys::{Part, Report};

const SHIFTS: [u8; 16] = [13, 16, 0, 22, 0, 28, 0, 0, 0, 0, 0, 0, 0, 0, 0, 0];
/// By command byte.
const WIDTHS: [usize; 11] = [
    0,
    numbers::WRITE_BYTES,
    numbers::INSERT_BYTES,
    numbers::DEMAP_PAGE_BYTES,
    numbers::DEMAP_CONTEXT_BYTES,
    numbers::DEMAP_ALL_BYTES,
    numbers::INVALIDATE_BYTES,
    numbers::ACCESS_BYTES,
    numbers::READ_BYTES,
    numbers::POINTERS_BYTES,
    numbers::RATE_BYTES,
];

#[derive(Clone, Copy, Default)]
struct Slot {
    page: u64,
    word: u64,
    context: u16,
    partition: u8,
    real: bool,
    locked: bool,
    used: bool,
}

/// A ring of outcomes: whether lookup n missed is bit n modulo 1,024. From 2,048 the count goes to 1,025.
#[derive(Clone, Copy, Default)]
struct Record {
    missed: [u64; KEPT_LOOKUPS / 64],
    seen: usize,
}

type Registers = [u64; CELLS];

pub struct Unit {
    registers: [Registers; STRANDS],
    sides: [[Slot; SLOTS]; SIDES],
    records: [[Record; SIDES]; STRANDS],
}

fn in_range(a: u64) -> bool {
    a < 1 << 47 || a >= (1u64 << 47).wrapping_neg()
}

fn shift(word: u64) -> u8 {
    SHIFTS[(word & 15) as usize]
}

fn rounded(a: u64, word: u64) -> u64 {
    a >> shift(word) << shift(word)
}

fn word_allowed(w: u64) -> bool {
    w >> 63 == 1 && shift(w) != 0 && w >> 40 & 0xFFFF == 0
}

impl Slot {
    fn live(&self) -> bool {
        self.word >> 63 == 1
    }

    fn holds(&self, a: u64) -> bool {
        rounded(a, self.word) == self.page
    }

    fn overlaps(&self, o: &Slot) -> bool {
        let agree = self.partition == o.partition && self.real == o.real && self.context == o.context;
        agree && (self.holds(o.page) || o.holds(self.page))
    }

    fn sound(&self) -> bool {
        if !self.live() {
            return self.page == 0 && self.word == 0 && self.context == 0 && self.partition == 0 && !self.real && !self.locked && !self.used;
        }
        let fits = self.partition <= 7 && self.context <= 8191 && !(self.real && self.context != 0);
        word_allowed(self.word) && fits && in_range(self.page) && self.holds(self.page)
    }
}

impl Record {
    fn kept(&self) -> usize {
        self.seen.min(KEPT_LOOKUPS)
    }

    fn note(&mut self, missed: bool) {
        let at = self.seen % KEPT_LOOKUPS;
        let word = &mut self.missed[at / 64];
        *word = *word & !(1 << (at % 64)) | (missed as u64) << (at % 64);
        self.seen = if self.seen == 2 * KEPT_LOOKUPS { KEPT_LOOKUPS + 1 } else { self.seen + 1 };
    }

    /// No bit is set that has had no lookup.
    fn sound(&self) -> bool {
        let unset = |(i, word): (usize, &u64)| {
            let had = self.seen.saturating_sub(64 * i);
            had >= 64 || word >> had == 0
        };
        self.seen <= 2 * KEPT_LOOKUPS && self.missed.iter().enumerate().all(unset)
    }
}

fn value_allowed(n: usize, v: u64) -> bool {
    match n {
        0 => v <= 7,
        1 | 2 => v <= 8191,
        3 => v <= 2,
        4 => v <= 3,
        5 => v <= 1,
        8..=15 => v & 0x1FF0 == 0,
        16..=19 => v & !0x707 == 0 && shift(v & 7) != 0 && shift(v >> 8 & 7) != 0,
        20..=25 => true,
        _ => v == 0,
    }
}

/// The least mode that may write a register: 1 for 1, 2, 5 and 8 to 21, and 2 for the others.
fn least_to_write(n: usize) -> u64 {
    2 - (0x3F_FF26 >> n & 1)
}

fn take8(b: &[u8]) -> u64 {
    u64::from_be_bytes(b[..8].try_into().expect("eight bytes"))
}

type Out<'a> = &'a mut [u8; ANSWER_BYTES];

fn answer(out: Out, head: [u8; 4], first: u64, second: u64) {
    out[..4].copy_from_slice(&head);
    out[4..8].fill(0);
    out[8..16].copy_from_slice(&first.to_be_bytes());
    out[16..].copy_from_slice(&second.to_be_bytes());
}

fn selected(r: &Registers, selector: u8) -> u64 {
    match selector {
        0 => r[1],
        1 => r[2],
        _ => 0,
    }
}

struct Cause {
    side: usize,
    context: u64,
    address: u64,
}

fn trap(r: &mut Registers, c: &Cause, tags: bool, number: u8, fault: u8, out: Out) {
    if tags {
        r[20 + c.side] = c.address & !0x1FFF | if r[4] >> c.side & 1 == 1 { c.context } else { 0 };
    }
    r[22 + c.side] = c.address;
    r[24 + c.side] = number as u64 * 256 + fault as u64;
    answer(out, [2, number, fault, 0], c.address, r[20 + c.side]);
}

/// Where in a TSB the entry of a tag access stands.
fn place_in_tsb(tag: u64, n: u64, code: u64) -> u64 {
    TSB_ENTRY_BYTES as u64 * ((tag >> shift(code)) & ((1 << (9 + n)) - 1))
}

fn pointer(tag: u64, base: u64, code: u64) -> u64 {
    let n = base & 15;
    (base >> (13 + n) << (13 + n)) + place_in_tsb(tag, n, code)
}

/// Whether the bytes are the TSB entry of a tag access.
fn fits(entry: &[u8], tag: u64, code: u64) -> bool {
    let differing = take8(entry) ^ ((tag & 0x1FFF) << 48 | tag >> 22);
    let word = take8(&entry[8..]);
    (if code == 5 { differing >> 6 } else { differing }) == 0 && word >> 63 == 1 && word & 15 == code
}

/// Removes the entries that pass the test and answers with their number.
fn removal(slots: &mut [Slot; SLOTS], out: Out, goes: impl Fn(&Slot) -> bool) {
    let mut count = 0;
    for s in slots.iter_mut() {
        if s.live() && goes(s) {
            *s = Slot::default();
            count += 1;
        }
    }
    answer(out, [0; 4], count, 0);
}

impl Unit {
    fn sound(&self) -> bool {
        let registers = self.registers.iter().all(|r| r.iter().enumerate().all(|(n, &v)| value_allowed(n, v)));
        registers && self.sides.iter().all(Unit::side_sound) && self.records.iter().flatten().all(Record::sound)
    }

    fn side_sound(side: &[Slot; SLOTS]) -> bool {
        if !side.iter().all(Slot::sound) {
            return false;
        }
        for (i, x) in side.iter().enumerate() {
            for y in &side[i + 1..] {
                if x.live() && y.live() && x.overlaps(y) {
                    return false;
                }
            }
        }
        true
    }

    fn access(&mut self, b: &[u8], out: Out) -> u8 {
        let (kind, selector, size) = (b[2], b[3], b[4]);
        let r = &mut self.registers[b[1] as usize];
        if kind > 4 {
            return 6;
        }
        if selector > 2 || kind == 0 && (selector == 1 || selector == 2 && r[3] == 0) {
            return 7;
        }
        if size > 3 || kind == 0 && size != 2 {
            return 8;
        }
        let address = take8(&b[5..]);
        let address = if r[5] == 1 && r[3] != 2 { address & 0xFFFF_FFFF } else { address };
        let side = (kind != 0) as usize;
        let c = Cause { side, context: selected(r, selector), address };
        let bad = if side == 1 { 0x30 } else { 0x08 };
        if address & ((1 << size) - 1) != 0 {
            trap(r, &c, false, 0x34, 0, out);
        } else if r[3] == 0 && side == 1 && selector == 2 {
            trap(r, &c, false, 0x37, 0, out);
        } else if r[3] == 2 {
            let io = address >> 39 & 1 == 1;
            if io && kind >= 3 {
                trap(r, &Cause { context: 0, ..c }, true, bad, if kind == 4 { 0x02 } else { 0x04 }, out);
            } else {
                answer(out, [1, if io { 2 } else { 1 }, 0, 15], address & ((1 << 40) - 1), 0);
            }
        } else if !in_range(address) {
            trap(r, &c, true, bad, 0x20, out);
        } else {
            self.look_up(b[1], kind, c, bad, out);
        }
        0
    }

    fn look_up(&mut self, strand: u8, kind: u8, c: Cause, bad: u8, out: Out) {
        let r = &mut self.registers[strand as usize];
        let real = r[4] >> c.side & 1 == 0;
        let partition = r[0] as u8;
        let answers = |s: &&mut Slot| {
            s.live() && s.partition == partition && s.real == real && (real || s.context as u64 == c.context) && s.holds(c.address)
        };
        let found = self.sides[c.side].iter_mut().find(answers);
        self.records[strand as usize][c.side].note(found.is_none());
        let Some(s) = found else {
            let number = [[0x64, 0x68], [0x3E, 0x3F]][real as usize][c.side];
            return trap(r, &c, true, number, 0, out);
        };
        s.used = true;
        let w = s.word;
        let is = |n: u32| w >> n & 1 == 1;
        let mut fault = 0;
        fault += if is(8) && r[3] == 0 { 0x01 } else { 0 };
        fault += if kind == 4 && is(11) { 0x02 } else { 0 };
        fault += if kind == 3 && !is(10) { 0x04 } else { 0 };
        fault += if is(62) && kind != 4 { 0x10 } else { 0 };
        if fault != 0 {
            return trap(r, &c, true, bad, fault, out);
        }
        if (kind == 2 || kind == 3) && !is(6) {
            return trap(r, &c, true, 0x6C, 0, out);
        }
        let frame = rounded(w & 0xFF_FFFF_E000, w);
        answer(out, [1, (w >> 10 & 7) as u8, 0, (w & 15) as u8], frame + (c.address - s.page), 0);
    }

    fn insert(&mut self, b: &[u8], out: Out) -> u8 {
        let (side, flags, word) = (b[2] as usize, b[3], take8(&b[4..]));
        if side > 1 {
            return 6;
        }
        if flags > 3 {
            return 8;
        }
        if self.registers[b[1] as usize][3] < if flags == 0 { 1 } else { 2 } {
            return 16;
        }
        self.put(b[1], side, flags, word, out)
    }

    fn put(&mut self, strand: u8, side: usize, flags: u8, word: u64, out: Out) -> u8 {
        let r = &self.registers[strand as usize];
        let tag = r[20 + side];
        if !in_range(tag) {
            return 11;
        }
        if !word_allowed(word) {
            return 12;
        }
        let real = flags & 1 == 1;
        let context = if real { 0 } else { (tag & 0x1FFF) as u16 };
        let new = Slot { page: rounded(tag, word), word, context, partition: r[0] as u8, real, locked: flags & 2 == 2, used: true };
        place(&mut self.sides[side], new, out)
    }

    /// 0 where the command was answered, else its refusal. `hypervisor`: whether the stream is marked as the hypervisor's.
    fn act(&mut self, hypervisor: bool, b: &[u8], out: Out) -> u8 {
        if b[0] == 6 {
            if b[1] > 1 {
                return 6;
            }
            if !hypervisor {
                return 16;
            }
            self.sides[b[1] as usize] = [Slot::default(); SLOTS];
            answer(out, [0; 4], 0, 0);
            return 0;
        }
        if b[1] > 3 {
            return 5;
        }
        match b[0] {
            1 => self.write(b, out),
            2 => self.insert(b, out),
            3..=5 => self.demap(b, out),
            7 => self.access(b, out),
            8 => {
                if b[2] > 25 || b[2] == 6 || b[2] == 7 {
                    return 9;
                }
                answer(out, [3, 0, 0, 0], self.registers[b[1] as usize][b[2] as usize], 0);
                0
            }
            9 => self.pointers(b, out),
            _ => self.rate(b, out),
        }
    }

    fn write(&mut self, b: &[u8], out: Out) -> u8 {
        let (n, v) = (b[2] as usize, take8(&b[3..]));
        if n > 21 || n == 6 || n == 7 {
            return 9;
        }
        if !value_allowed(n, v) {
            return 10;
        }
        let r = &mut self.registers[b[1] as usize];
        if r[3] < least_to_write(n) {
            return 16;
        }
        r[n] = v;
        answer(out, [0; 4], 0, 0);
        0
    }

    fn demap(&mut self, b: &[u8], out: Out) -> u8 {
        let side = b[2] as usize;
        if side > 1 {
            return 6;
        }
        let r = &self.registers[b[1] as usize];
        let partition = r[0] as u8;
        if b[0] == 5 {
            if r[3] != 2 {
                return 16;
            }
            removal(&mut self.sides[side], out, |s| s.partition == partition && !s.locked);
            return 0;
        }
        if b[3] > 2 || b[3] == 1 && side == 0 {
            return 7;
        }
        let context = selected(r, b[3]) as u16;
        if b[0] == 4 {
            if r[3] == 0 {
                return 16;
            }
            removal(&mut self.sides[side], out, |s| s.partition == partition && !s.real && s.context == context);
            return 0;
        }
        let (real, address) = (b[4] == 1, take8(&b[5..]));
        if b[4] > 1 {
            return 8;
        }
        if r[3] == 0 {
            return 16;
        }
        if !in_range(address) {
            return 11;
        }
        removal(&mut self.sides[side], out, |s| {
            s.partition == partition && s.real == real && (real || s.context == context) && s.holds(address)
        });
        0
    }

    fn pointers(&mut self, b: &[u8], out: Out) -> u8 {
        let side = b[2] as usize;
        if side > 1 {
            return 6;
        }
        let r = &self.registers[b[1] as usize];
        if r[3] == 0 {
            return 16;
        }
        let tag = r[20 + side];
        let other = (tag & 0x1FFF != 0) as usize;
        let sizes = r[16 + 2 * side + other];
        let base = 8 + 4 * side + 2 * other;
        answer(out, [3, 0, 0, 0], pointer(tag, r[base], sizes & 7), pointer(tag, r[base + 1], sizes >> 8 & 7));
        0
    }

    fn rate(&mut self, b: &[u8], out: Out) -> u8 {
        if b[2] > 1 {
            return 6;
        }
        if self.registers[b[1] as usize][3] == 0 {
            return 16;
        }
        let record = &self.records[b[1] as usize][b[2] as usize];
        if record.seen == 0 {
            return 15;
        }
        let misses: u32 = record.missed.iter().map(|word| word.count_ones()).sum();
        answer(out, [3, 0, 0, 0], misses as u64 * 1000 / record.kept() as u64, 0);
        0
    }

    pub fn run(&mut self, hypervisor: bool, input: &[u8], output: &mut [u8]) -> Report {
        let mut report = Report { answered: 0, taken: 0, stop: 0 };
        if !self.sound() {
            report.stop = 1;
            return report;
        }
        while report.taken < input.len() {
            let rest = &input[report.taken..];
            let code = rest[0] as usize;
            if !(1..=10).contains(&code) {
                report.stop = 2;
                break;
            }
            if rest.len() < WIDTHS[code] {
                report.stop = 3;
                break;
            }
            let Some(out) = output[ANSWER_BYTES * report.answered..].first_chunk_mut::<ANSWER_BYTES>() else {
                report.stop = 4;
                break;
            };
            let number = self.act(hypervisor, &rest[..WIDTHS[code]], out);
            if number != 0 {
                answer(out, [5, number, 0, 0], 0, 0);
            }
            report.answered += 1;
            report.taken += WIDTHS[code];
        }
        report
    }

    pub fn hand_back(&self, strand: u8, side: u8, tables: [&[u8]; 2]) -> Part {
        let refused = |number| Part { number, ..Part::default() };
        if !self.sound() {
            return refused(1);
        }
        if strand > 3 {
            return refused(5);
        }
        if side > 1 {
            return refused(6);
        }
        let (r, side) = (&self.registers[strand as usize], side as usize);
        let tag = r[20 + side];
        let other = (tag & 0x1FFF != 0) as usize;
        let n = r[8 + 4 * side + 2 * other] & 15;
        if tables[other].len() != numbers::tsb_bytes(n as u32) {
            return refused(14);
        }
        let start = place_in_tsb(tag, n, r[16 + 2 * side + other] & 7) as usize;
        Part { number: 0, other: other as u8, start, length: TSB_ENTRY_BYTES }
    }

    pub fn serve(&mut self, strand: u8, side: u8, tables: [&[u8]; 2]) -> [u8; ANSWER_BYTES] {
        let mut out = [0; ANSWER_BYTES];
        let part = self.hand_back(strand, side, tables);
        let number = if part.number == 0 { self.serve_part(strand, side as usize, tables, part, &mut out) } else { part.number };
        if number != 0 {
            answer(&mut out, [5, number, 0, 0], 0, 0);
        }
        out
    }

    /// 0 where the part was answered, else the refusal.
    fn serve_part(&mut self, strand: u8, side: usize, tables: [&[u8]; 2], part: Part, out: Out) -> u8 {
        let (r, other) = (&self.registers[strand as usize], part.other as usize);
        let entry = &tables[other][part.start..][..part.length];
        if fits(entry, r[20 + side], r[16 + 2 * side + other] & 7) {
            return self.put(strand, side, 0, take8(&entry[8..]), out);
        }
        answer(out, [6, 0, 0, 0], 0, 0);
        0
    }

    /// Tag access as a trap leaves it.
    pub fn tag_access(&mut self, strand: u8, side: u8, tag: u64) {
        self.registers[strand as usize][20 + side as usize] = tag;
    }

    /// From the library's words, outside what is measured.
    pub fn load(words: &[u64]) -> Box<Unit> {
        let mut unit = Box::new(Unit {
            registers: [[0; CELLS]; STRANDS],
            sides: [[Slot::default(); SLOTS]; SIDES],
            records: [[Record::default(); SIDES]; STRANDS],
        });
        for (strand, registers) in unit.registers.iter_mut().enumerate() {
            registers.copy_from_slice(&words[cell_at(strand, 0)..][..CELLS]);
        }
        for (side, slots) in unit.sides.iter_mut().enumerate() {
            for (i, slot) in slots.iter_mut().enumerate() {
                *slot = Slot::load(&words[slot_at(side, i)..][..SLOT_WORDS]);
            }
        }
        for (strand, records) in unit.records.iter_mut().enumerate() {
            for (side, record) in records.iter_mut().enumerate() {
                *record = Record::load(record_of(strand, side), words);
            }
        }
        unit
    }

    pub fn words(&self) -> Vec<u64> {
        let mut words = vec![0; STATE_WORDS];
        for (strand, registers) in self.registers.iter().enumerate() {
            words[cell_at(strand, 0)..][..CELLS].copy_from_slice(registers);
        }
        for (side, slots) in self.sides.iter().enumerate() {
            for (i, slot) in slots.iter().enumerate() {
                words[slot_at(side, i)..][..SLOT_WORDS].copy_from_slice(&slot.words());
            }
        }
        for (strand, records) in self.records.iter().enumerate() {
            for (side, record) in records.iter().enumerate() {
                record.store(record_of(strand, side), &mut words);
            }
        }
        words
    }
}

/// The first of a slot's words.
pub fn owner(partition: u64, real: bool, context: u64) -> u64 {
    partition << 14 | (real as u64) << 13 | context
}

pub fn partition_of(owner: u64) -> u64 {
    owner >> 14
}

impl Slot {
    fn load(w: &[u64]) -> Slot {
        Slot {
            page: w[1],
            word: w[2],
            context: (w[0] & 0x1FFF) as u16,
            partition: partition_of(w[0]) as u8,
            real: w[0] >> 13 & 1 == 1,
            locked: w[3] & 1 == 1,
            used: w[3] >> 1 == 1,
        }
    }

    fn words(&self) -> [u64; SLOT_WORDS] {
        let owner = owner(self.partition as u64, self.real, self.context as u64);
        [owner, self.page, self.word, self.locked as u64 | (self.used as u64) << 1]
    }
}

/// Where the library has an outcome of a record, by its age, as word and bit: 0 is the latest. In its newest word are the latest and, above
/// them, the oldest.
fn place_of(record: usize, seen: usize, age: usize) -> (usize, usize) {
    let latest = (seen - 1) % 64 + 1;
    match age.checked_sub(latest) {
        Some(behind) if behind / 64 < OLDER_WORDS => (OLDER + OLDER_WORDS * record + behind / 64, behind % 64),
        _ => (NEWEST + record, age % 64),
    }
}

impl Record {
    /// Where the ring has an outcome, by its age.
    fn at(&self, age: usize) -> usize {
        (self.seen + KEPT_LOOKUPS - 1 - age) % KEPT_LOOKUPS
    }

    fn load(record: usize, words: &[u64]) -> Record {
        let mut r = Record { seen: words[SEEN + record] as usize, ..Record::default() };
        for age in 0..r.kept() {
            let ((word, bit), at) = (place_of(record, r.seen, age), r.at(age));
            r.missed[at / 64] |= (words[word] >> bit & 1) << (at % 64);
        }
        r
    }

    fn store(&self, record: usize, words: &mut [u64]) {
        let turned = |more: usize| KEPT_LOOKUPS + 1 + more % 64;
        words[SEEN + record] = self.seen.checked_sub(KEPT_LOOKUPS + 1).map_or(self.seen, turned) as u64;
        for age in 0..self.kept() {
            let ((word, bit), at) = (place_of(record, self.seen, age), self.at(age));
            words[word] |= (self.missed[at / 64] >> (at % 64) & 1) << bit;
        }
    }
}

/// Removes what the new entry overlaps, then the lowest empty slot, the lowest unlocked unused one, or the lowest unlocked one.
fn place(slots: &mut [Slot; SLOTS], new: Slot, out: Out) -> u8 {
    let (mut empty, mut unused, mut unlocked) = (None, None, None);
    for (i, s) in slots.iter_mut().enumerate() {
        if s.live() && s.overlaps(&new) {
            *s = Slot::default();
        }
        if !s.live() {
            empty = empty.or(Some(i));
        } else if !s.locked {
            unlocked = unlocked.or(Some(i));
            if !s.used {
                unused = unused.or(Some(i));
            }
        }
    }
    if let Some(i) = empty {
        slots[i] = new;
        answer(out, [0; 4], 0, 0);
        return 0;
    }
    let Some(lowest) = unlocked else { return 13 };
    let at = unused.unwrap_or_else(|| {
        slots.iter_mut().for_each(|s| s.used = false);
        lowest
    });
    let d = slots[at];
    answer(out, [4, 0, d.partition, d.real as u8], d.page + d.context as u64, d.word);
    slots[at] = new;
    0
}
