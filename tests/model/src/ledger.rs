//! The plain machine of demand 3: registers, two lists of entries by age, and every lookup that was made. It has no slots and no used bits,
//! and it is written again from "The ledger" and from document 02's U1, U5 and U6, sharing nothing with the model but the decoded command
//! and the counts of the machine.
use crate::command::Command;
use t1mmu::numbers::{ANSWER_BYTES, KEPT_LOOKUPS, REGISTERS, SIDES, SLOTS, STRANDS, TSB_ENTRY_BYTES};

/// An answer as it is written.
type Bytes = [u8; ANSWER_BYTES];

#[derive(Clone, Copy, Debug, PartialEq)]
struct Item {
    partition: u64,
    real: bool,
    context: u64,
    page: u64,
    lock: bool,
    word: u64,
}

pub struct Ledger {
    registers: [[u64; REGISTERS]; STRANDS],
    lists: [Vec<Item>; SIDES],
    /// Of each strand and side all lookups since reset, oldest first: whether an entry was found.
    lookups: [[Vec<bool>; SIDES]; STRANDS],
}

/// The entry that an answer of kind 4 names.
#[derive(Clone, Copy, Debug)]
struct Named {
    partition: u64,
    real: bool,
    page: u64,
    context: u64,
    word: u64,
}

fn value(bytes: &[u8]) -> u64 {
    u64::from_be_bytes(bytes.try_into().expect("eight bytes"))
}

fn named_by(answer: &[u8]) -> Option<Named> {
    let place = value(&answer[8..16]);
    (answer[0] == 4).then(|| Named {
        partition: answer[2] as u64,
        real: answer[3] == 1,
        page: place / 8192 * 8192,
        context: place % 8192,
        word: value(&answer[16..24]),
    })
}

fn bytes(head: [u8; 4], first: u64, second: u64) -> Bytes {
    let mut all = [0; ANSWER_BYTES];
    for (i, b) in head.iter().chain(&[0; 4]).chain(&first.to_be_bytes()).chain(&second.to_be_bytes()).enumerate() {
        all[i] = *b;
    }
    all
}

fn shift(code: u64) -> Option<u32> {
    [(0, 13), (1, 16), (3, 22), (5, 28)].iter().find(|(c, _)| *c == code).map(|(_, s)| *s)
}

/// Pages are compared by number, so that the last page of the address space needs no care.
fn same_page(word: u64, one: u64, other: u64) -> bool {
    let by = shift(word % 16).expect("only listed sizes are live");
    one >> by == other >> by
}

fn reachable(address: u64) -> bool {
    let top = address >> 47;
    top == 0 || top == (1 << 17) - 1
}

fn good_word(word: u64) -> bool {
    word >> 63 == 1 && shift(word % 16).is_some() && (word >> 40) % (1 << 16) == 0
}

fn may_hold(register: u8, v: u64) -> bool {
    match register {
        0 => v < 8,
        1 | 2 => v < 8192,
        3 => v < 3,
        4 => v < 4,
        5 => v < 2,
        8..=15 => v / 16 % 512 == 0,
        16..=19 => {
            let (ps0, ps1) = (v % 8, v / 256 % 8);
            v == ps0 + 256 * ps1 && shift(ps0).is_some() && shift(ps1).is_some()
        }
        _ => true,
    }
}

impl Ledger {
    pub fn reset() -> Ledger {
        let mut registers = [[0; REGISTERS]; STRANDS];
        registers.iter_mut().for_each(|r| r[3] = 2);
        Ledger { registers, lists: Default::default(), lookups: Default::default() }
    }

    /// The answer of the ledger, fed what the unit's answer names as displaced; none where the name is not that of a live unlocked entry.
    /// The stream is the hypervisor's, or it is not.
    pub fn answer(&mut self, command: Command, hypervisor: bool, of_the_unit: &[u8]) -> Option<Bytes> {
        match self.refused(command, hypervisor) {
            Some(number) => Some(bytes([5, number, 0, 0], 0, 0)),
            None => self.accepted(command, named_by(of_the_unit)),
        }
    }

    fn context(&self, strand: u8, selector: u8) -> u64 {
        if selector == 2 {
            return 0;
        }
        self.registers[strand as usize][1 + selector as usize]
    }

    /// What an insertion would append; the word is good.
    fn item(&self, strand: u8, side: u8, flags: u8, word: u64) -> Item {
        let r = &self.registers[strand as usize];
        let tag = r[20 + side as usize];
        let by = shift(word % 16).expect("number 12 was asked");
        let real = flags % 2 == 1;
        Item { partition: r[0], real, context: if real { 0 } else { tag % 8192 }, page: tag >> by << by, lock: flags / 2 == 1, word }
    }

    /// The questions that an answer refuses by, asked of the ledger's own registers and lists, and of the stream.
    fn refused(&self, command: Command, hypervisor: bool) -> Option<u8> {
        let (strand, side) = match command {
            Command::Write { strand, .. } | Command::Read { strand, .. } => (strand, 0),
            Command::Insert { strand, side, .. } | Command::DemapPage { strand, side, .. } => (strand, side),
            Command::DemapContext { strand, side, .. } | Command::DemapAll { strand, side } => (strand, side),
            Command::Pointers { strand, side } | Command::Rate { strand, side } => (strand, side),
            Command::Invalidate { side } => (0, side),
            Command::Access { strand, kind, .. } => (strand, if kind > 4 { 2 } else { kind.min(1) }),
        };
        if strand > 3 {
            return Some(5);
        }
        if side > 1 {
            return Some(6);
        }
        let malformed = self.malformed(command, strand, side);
        if malformed.is_some() {
            return malformed;
        }
        let lets = match command {
            Command::Invalidate { .. } => hypervisor,
            _ => self.mode_lets(command, strand),
        };
        if lets { self.unfit(command, strand, side) } else { Some(16) }
    }

    /// 7 to 10; strand and side are good.
    fn malformed(&self, command: Command, strand: u8, side: u8) -> Option<u8> {
        let r = &self.registers[strand as usize];
        let is_register = |n: u8| n < 26 && n != 6 && n != 7;
        match command {
            Command::Write { register, .. } if !is_register(register) || register > 21 => Some(9),
            Command::Write { register, value, .. } if !may_hold(register, value) => Some(10),
            Command::Read { register, .. } if !is_register(register) => Some(9),
            Command::DemapPage { selector, .. } | Command::DemapContext { selector, .. } if selector > 2 || side == 0 && selector == 1 => Some(7),
            Command::DemapPage { flags, .. } if flags > 1 => Some(8),
            Command::Access { selector, .. } if selector > 2 || side == 0 && selector == 1 => Some(7),
            Command::Access { kind: 0, selector: 2, .. } if r[3] == 0 => Some(7),
            Command::Access { kind, size, .. } if size > 3 || kind == 0 && size != 2 => Some(8),
            Command::Insert { flags, .. } if flags > 3 => Some(8),
            _ => None,
        }
    }

    /// What a user sends, what a privileged guest sends beside it, and everything.
    fn mode_lets(&self, command: Command, strand: u8) -> bool {
        let user = || matches!(command, Command::Access { .. } | Command::Read { .. });
        let guest = || match command {
            Command::Write { register, .. } => [1, 2, 5].contains(&register) || (8..22).contains(&register),
            // neither real nor locked
            Command::Insert { flags, .. } => flags == 0,
            Command::DemapPage { .. } | Command::DemapContext { .. } | Command::Pointers { .. } | Command::Rate { .. } => true,
            _ => false,
        };
        match self.registers[strand as usize][3] {
            0 => user(),
            1 => user() || guest(),
            _ => true,
        }
    }

    /// 11 and on, asked of what is well formed and let through.
    fn unfit(&self, command: Command, strand: u8, side: u8) -> Option<u8> {
        let r = &self.registers[strand as usize];
        match command {
            Command::DemapPage { address, .. } if !reachable(address) => Some(11),
            Command::Insert { .. } if !reachable(r[20 + side as usize]) => Some(11),
            Command::Insert { word, .. } if !good_word(word) => Some(12),
            Command::Insert { flags, word, .. } => {
                let list = &self.lists[side as usize];
                let new = self.item(strand, side, flags, word);
                let no_way = list.len() == SLOTS && list.iter().all(|e| e.lock) && !list.iter().any(|e| overlap(e, &new));
                no_way.then_some(13)
            }
            Command::Rate { .. } if self.lookups[strand as usize][side as usize].is_empty() => Some(15),
            _ => None,
        }
    }

    fn accepted(&mut self, command: Command, named: Option<Named>) -> Option<Bytes> {
        let done = bytes([0; 4], 0, 0);
        Some(match command {
            Command::Write { strand, register, value } => {
                self.registers[strand as usize][register as usize] = value;
                done
            }
            Command::Read { strand, register } => bytes([3, 0, 0, 0], self.registers[strand as usize][register as usize], 0),
            Command::Insert { strand, side, flags, word } => {
                let new = self.item(strand, side, flags, word);
                return self.appended(side as usize, new, named);
            }
            Command::DemapPage { strand, side, selector, flags, address } => {
                let (p, c) = (self.registers[strand as usize][0], self.context(strand, selector));
                self.strike(side, |e| e.partition == p && e.real == (flags == 1) && (e.real || e.context == c) && same_page(e.word, e.page, address))
            }
            Command::DemapContext { strand, side, selector } => {
                let (p, c) = (self.registers[strand as usize][0], self.context(strand, selector));
                self.strike(side, |e| e.partition == p && !e.real && e.context == c)
            }
            Command::DemapAll { strand, side } => {
                let p = self.registers[strand as usize][0];
                self.strike(side, |e| e.partition == p && !e.lock)
            }
            Command::Invalidate { side } => {
                self.lists[side as usize].clear();
                done
            }
            Command::Access { strand, kind, selector, size, address } => self.access(strand, kind, selector, size, address),
            Command::Pointers { strand, side } => self.pointers(strand as usize, side as usize),
            Command::Rate { strand, side } => bytes([3, 0, 0, 0], self.per_thousand(strand as usize, side as usize), 0),
        })
    }

    fn strike(&mut self, side: u8, struck: impl Fn(&Item) -> bool) -> Bytes {
        let list = &mut self.lists[side as usize];
        let before = list.len();
        list.retain(|e| !struck(e));
        bytes([0; 4], (before - list.len()) as u64, 0)
    }

    /// Overlapped entries go. A full list without any loses the entry that the unit named, which has to be there and unlocked.
    fn appended(&mut self, side: usize, new: Item, named: Option<Named>) -> Option<Bytes> {
        let list = &mut self.lists[side];
        let mut answer = bytes([0; 4], 0, 0);
        let before = list.len();
        list.retain(|e| !overlap(e, &new));
        if before == SLOTS && list.len() == SLOTS {
            let n = named?;
            let is_named = |e: &Item| {
                (e.partition, e.real, e.context, e.page, e.word) == (n.partition, n.real, n.context, n.page, n.word) && !e.lock
            };
            let e = list.remove(list.iter().position(is_named)?);
            answer = bytes([4, 0, e.partition as u8, e.real as u8], e.page + e.context, e.word);
        }
        list.push(new);
        Some(answer)
    }

    fn access(&mut self, strand: u8, kind: u8, selector: u8, size: u8, address: u64) -> Bytes {
        let r = self.registers[strand as usize];
        let side = kind.min(1) as usize;
        let address = if r[5] == 1 && r[3] < 2 { address % (1 << 32) } else { address };
        let translates = r[4] >> side & 1 == 1;
        let context = self.context(strand, selector);
        let tag = address / 8192 * 8192 + if translates { context } else { 0 };
        if address & ((1 << size) - 1) != 0 {
            return self.trap(strand, side, 0x34, 0, address, None);
        }
        if r[3] == 0 && side == 1 && selector == 2 {
            return self.trap(strand, side, 0x37, 0, address, None);
        }
        if r[3] == 2 {
            let io = address >> 39 & 1 == 1;
            if io && kind > 2 {
                // no nonfaulting load and no atomic; the tag has context 0 here, whatever is selected
                let fault = if kind == 3 { 0x04 } else { 0x02 };
                return self.trap(strand, side, 0x30, fault, address, Some(address >> 13 << 13));
            }
            return bytes([1, if io { 2 } else { 1 }, 0, 15], address % (1 << 40), 0);
        }
        if !reachable(address) {
            return self.trap(strand, side, [0x08, 0x30][side], 0x20, address, Some(tag));
        }
        let found = self.lists[side].iter().find(|e| {
            e.partition == r[0] && e.real != translates && (e.real || e.context == context) && same_page(e.word, e.page, address)
        });
        self.lookups[strand as usize][side].push(found.is_some());
        match found.copied() {
            Some(e) => self.judged(strand, kind, e, address, tag),
            None => {
                let number = [[0x3E, 0x3F], [0x64, 0x68]][translates as usize][side];
                self.trap(strand, side, number, 0, address, Some(tag))
            }
        }
    }

    /// Steps 6 to 8 on the live entry that was found.
    fn judged(&mut self, strand: u8, kind: u8, e: Item, address: u64, tag: u64) -> Bytes {
        let side = kind.min(1) as usize;
        let is = |n: u32| e.word >> n & 1 == 1;
        let (user, atomic, store, nonfaulting) = (self.registers[strand as usize][3] == 0, kind == 3, kind == 2, kind == 4);
        let faults = [(0x01, user && is(8)), (0x02, nonfaulting && is(11)), (0x04, atomic && !is(10)), (0x10, !nonfaulting && is(62))];
        let fault: u8 = faults.iter().filter(|(_, met)| *met).map(|(t, _)| *t).sum();
        if fault > 0 {
            return self.trap(strand, side, [0x08, 0x30][side], fault, address, Some(tag));
        }
        if (store || atomic) && !is(6) {
            return self.trap(strand, side, 0x6C, 0, address, Some(tag));
        }
        let by = shift(e.word % 16).expect("only listed sizes are live");
        let frame = e.word << 8 >> 8 >> by << by;
        let attributes = e.word >> 10 & 7;
        bytes([1, attributes as u8, 0, (e.word % 16) as u8], frame + (address - (address >> by << by)), 0)
    }

    fn trap(&mut self, strand: u8, side: usize, number: u8, fault: u8, address: u64, tag: Option<u64>) -> Bytes {
        let r = &mut self.registers[strand as usize];
        if let Some(tag) = tag {
            r[20 + side] = tag;
        }
        r[22 + side] = address;
        r[24 + side] = (number as u64) << 8 | fault as u64;
        bytes([2, number, fault, 0], address, r[20 + side])
    }

    /// How many of a thousand found nothing, by the last lookups; the remainder is dropped.
    fn per_thousand(&self, strand: usize, side: usize) -> u64 {
        let all = &self.lookups[strand][side];
        let last = &all[all.len().saturating_sub(KEPT_LOOKUPS)..];
        let without = last.iter().filter(|found| !**found).count();
        (without * 1000 / last.len()) as u64
    }

    fn pointers(&self, strand: usize, side: usize) -> Bytes {
        let r = &self.registers[strand];
        let tag = r[20 + side];
        let zero = tag % 8192 == 0;
        let sizes = r[16 + 2 * side + if zero { 0 } else { 1 }];
        let bases = if zero { [r[8 + 4 * side], r[9 + 4 * side]] } else { [r[10 + 4 * side], r[11 + 4 * side]] };
        let pointer = |base: u64, code: u64| {
            let low = 13 + base % 16;
            let entries = 1u64 << (low - 4);
            let index = (tag >> shift(code).expect("an allowed size")) % entries;
            (base >> low << low) + index * 16
        };
        bytes([3, 0, 0, 0], pointer(bases[0], sizes % 8), pointer(bases[1], sizes / 256))
    }
}

/// The miss handler, from the tables lent and the ledger's own registers and lists.
impl Ledger {
    /// The bytes of the table that tag access leads to, or the number refused by.
    pub fn hands_back<'a>(&self, strand: u8, side: u8, zero: &'a [u8], other: &'a [u8]) -> Result<&'a [u8], u8> {
        let r = self.registers.get(strand as usize).ok_or(5)?;
        if side as usize >= SIDES {
            return Err(6);
        }
        let tag = r[20 + side as usize];
        let (table, base, sizes) = match tag % 8192 {
            0 => (zero, r[8 + 4 * side as usize], r[16 + 2 * side as usize]),
            _ => (other, r[10 + 4 * side as usize], r[17 + 2 * side as usize]),
        };
        let entries = 1 << (9 + base % 16);
        if table.len() != entries * TSB_ENTRY_BYTES {
            return Err(14);
        }
        let page = tag >> shift(sizes % 8).expect("an allowed size");
        Ok(table.chunks_exact(TSB_ENTRY_BYTES).nth(page as usize % entries).expect("an index below the count"))
    }

    /// The answer to a serve, fed what the unit's answer names as displaced; none as for a command.
    pub fn serves(&mut self, strand: u8, side: u8, zero: &[u8], other: &[u8], of_the_unit: &[u8]) -> Option<Bytes> {
        let part = match self.hands_back(strand, side, zero, other) {
            Err(number) => return Some(bytes([5, number, 0, 0], 0, 0)),
            Ok(part) => part,
        };
        let (tag, word) = (value(&part[..8]), value(&part[8..]));
        let r = &self.registers[strand as usize];
        let key = r[20 + side as usize];
        let ps0 = r[16 + 2 * side as usize + if key % 8192 == 0 { 0 } else { 1 }] % 8;
        if !(tag_agrees(tag, key, ps0) && word >= 1 << 63 && word % 16 == ps0) {
            return Some(bytes([6, 0, 0, 0], 0, 0));
        }
        // the host's call, whatever the strand's mode is
        let insertion = Command::Insert { strand, side, flags: 0, word };
        match self.unfit(insertion, strand, side) {
            Some(number) => Some(bytes([5, number, 0, 0], 0, 0)),
            None => self.accepted(insertion, named_by(of_the_unit)),
        }
    }
}

/// Less its context the tag is the number of the address's 4 MB, or within the address's 256 MB; what stands in no field makes it another.
fn tag_agrees(tag: u64, key: u64, ps0: u64) -> bool {
    let owner = key % 8192 << 48;
    if tag < owner {
        return false;
    }
    let rest = tag - owner;
    if ps0 == 5 {
        rest / 64 == key >> 28
    } else {
        rest == key >> 22
    }
}

fn overlap(one: &Item, other: &Item) -> bool {
    (one.partition, one.real, one.context) == (other.partition, other.real, other.context)
        && (same_page(one.word, one.page, other.page) || same_page(other.word, one.page, other.page))
}
