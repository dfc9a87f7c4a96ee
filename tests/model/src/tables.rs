//! Tables to lend: TSBs by their length and by what stands in them.
use t1mmu::numbers::TSB_ENTRY_BYTES;

/// Tag and word of a TSB entry.
#[derive(Clone, Copy, Debug, PartialEq)]
pub struct TsbEntry {
    pub tag: u64,
    pub word: u64,
}

/// A table as it is lent: `length` bytes, zeros where nothing stands.
#[derive(Clone, Debug, Default)]
pub struct Table {
    pub length: usize,
    /// stands in every entry, its word's address raised by a page for each: no two entries are alike
    pub everywhere: Option<TsbEntry>,
    /// by their byte in the table, over what stands everywhere
    pub entries: Vec<(usize, TsbEntry)>,
}

/// A miss to be served: the operands of either call, and the two tables lent.
#[derive(Clone, Debug)]
pub struct Miss {
    pub strand: u8,
    pub side: u8,
    pub zero: Table,
    pub other: Table,
}

/// Where the entry of a tag access stands, in bytes, and the tag that fits it exactly.
pub fn place_of(tag_access: u64, n: u32, code: u64) -> usize {
    let shift = [13, 16, 0, 22, 0, 28][code as usize];
    TSB_ENTRY_BYTES * ((tag_access >> shift) as usize % (1 << (9 + n)))
}

pub fn tag_for(tag_access: u64) -> u64 {
    tag_access % 0x2000 << 48 | tag_access >> 22
}

impl TsbEntry {
    pub fn bytes(self) -> [u8; TSB_ENTRY_BYTES] {
        (u128::from(self.tag) << 64 | u128::from(self.word)).to_be_bytes()
    }
}

impl Table {
    /// The bytes lent. What would stand past the length is cut off.
    pub fn bytes(&self) -> Vec<u8> {
        let mut bytes = vec![0; self.length];
        if let Some(entry) = self.everywhere {
            for (i, place) in bytes.chunks_mut(TSB_ENTRY_BYTES).enumerate() {
                let one = TsbEntry { word: entry.word.wrapping_add((i as u64) << 13), ..entry };
                place.copy_from_slice(&one.bytes()[..place.len()]);
            }
        }
        for &(at, entry) in &self.entries {
            let end = (at + TSB_ENTRY_BYTES).min(self.length);
            if at < end {
                bytes[at..end].copy_from_slice(&entry.bytes()[..end - at]);
            }
        }
        bytes
    }

    fn told(&self) -> String {
        let everywhere = self.everywhere.map_or(String::new(), |t| format!(", everywhere {:016x} {:016x}", t.tag, t.word));
        let entries: String = self.entries.iter().map(|(at, t)| format!(", at {at} {:016x} {:016x}", t.tag, t.word)).collect();
        format!("{} bytes{everywhere}{entries}", self.length)
    }
}

impl Miss {
    /// One line in words for each of its parts.
    pub fn told(&self) -> String {
        format!("  strand {} side {}\n  zero:  {}\n  other: {}\n", self.strand, self.side, self.zero.told(), self.other.told())
    }
}
