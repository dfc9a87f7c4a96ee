//! The command stream: codes, widths, operands ("The stream").
use t1mmu::numbers::{ACCESS, DEMAP_ALL, DEMAP_CONTEXT, DEMAP_PAGE, INSERT, INVALIDATE, POINTERS, RATE, READ, WRITE};
use t1mmu::numbers::{ACCESS_BYTES, DEMAP_ALL_BYTES, DEMAP_CONTEXT_BYTES, DEMAP_PAGE_BYTES, INSERT_BYTES};
use t1mmu::numbers::{INVALIDATE_BYTES, POINTERS_BYTES, RATE_BYTES, READ_BYTES, WRITE_BYTES};

#[derive(Clone, Copy, Debug, PartialEq)]
pub enum Command {
    Write { strand: u8, register: u8, value: u64 },
    Insert { strand: u8, side: u8, flags: u8, word: u64 },
    DemapPage { strand: u8, side: u8, selector: u8, flags: u8, address: u64 },
    DemapContext { strand: u8, side: u8, selector: u8 },
    DemapAll { strand: u8, side: u8 },
    Invalidate { side: u8 },
    Access { strand: u8, kind: u8, selector: u8, size: u8, address: u64 },
    Read { strand: u8, register: u8 },
    Pointers { strand: u8, side: u8 },
    Rate { strand: u8, side: u8 },
}

/// The strand byte of a command; invalidate has none.
pub fn strand_of(command: Command) -> Option<u8> {
    match command {
        Command::Write { strand, .. } | Command::Insert { strand, .. } | Command::DemapPage { strand, .. } => Some(strand),
        Command::DemapContext { strand, .. } | Command::DemapAll { strand, .. } | Command::Access { strand, .. } => Some(strand),
        Command::Read { strand, .. } | Command::Pointers { strand, .. } | Command::Rate { strand, .. } => Some(strand),
        Command::Invalidate { .. } => None,
    }
}

/// Code and operands together, in bytes; none for an unknown code.
pub fn width(code: u8) -> Option<usize> {
    match code {
        WRITE => Some(WRITE_BYTES),
        INSERT => Some(INSERT_BYTES),
        DEMAP_PAGE => Some(DEMAP_PAGE_BYTES),
        DEMAP_CONTEXT => Some(DEMAP_CONTEXT_BYTES),
        DEMAP_ALL => Some(DEMAP_ALL_BYTES),
        INVALIDATE => Some(INVALIDATE_BYTES),
        ACCESS => Some(ACCESS_BYTES),
        READ => Some(READ_BYTES),
        POINTERS => Some(POINTERS_BYTES),
        RATE => Some(RATE_BYTES),
        _ => None,
    }
}

fn big_endian(bytes: &[u8]) -> u64 {
    bytes[..8].iter().fold(0, |sum, &b| sum << 8 | b as u64)
}

/// The command at the front of `b`, which holds all its operands.
pub fn decode(b: &[u8]) -> Command {
    match b[0] {
        WRITE => Command::Write { strand: b[1], register: b[2], value: big_endian(&b[3..]) },
        INSERT => Command::Insert { strand: b[1], side: b[2], flags: b[3], word: big_endian(&b[4..]) },
        DEMAP_PAGE => Command::DemapPage { strand: b[1], side: b[2], selector: b[3], flags: b[4], address: big_endian(&b[5..]) },
        DEMAP_CONTEXT => Command::DemapContext { strand: b[1], side: b[2], selector: b[3] },
        DEMAP_ALL => Command::DemapAll { strand: b[1], side: b[2] },
        INVALIDATE => Command::Invalidate { side: b[1] },
        ACCESS => Command::Access { strand: b[1], kind: b[2], selector: b[3], size: b[4], address: big_endian(&b[5..]) },
        READ => Command::Read { strand: b[1], register: b[2] },
        POINTERS => Command::Pointers { strand: b[1], side: b[2] },
        RATE => Command::Rate { strand: b[1], side: b[2] },
        code => panic!("{code:#04x} is no command"),
    }
}

pub fn encode(command: Command) -> Vec<u8> {
    let with = |head: &[u8], value: u64| [head, &value.to_be_bytes()[..]].concat();
    match command {
        Command::Write { strand, register, value } => with(&[WRITE, strand, register], value),
        Command::Insert { strand, side, flags, word } => with(&[INSERT, strand, side, flags], word),
        Command::DemapPage { strand, side, selector, flags, address } => with(&[DEMAP_PAGE, strand, side, selector, flags], address),
        Command::DemapContext { strand, side, selector } => vec![DEMAP_CONTEXT, strand, side, selector],
        Command::DemapAll { strand, side } => vec![DEMAP_ALL, strand, side],
        Command::Invalidate { side } => vec![INVALIDATE, side],
        Command::Access { strand, kind, selector, size, address } => with(&[ACCESS, strand, kind, selector, size], address),
        Command::Read { strand, register } => vec![READ, strand, register],
        Command::Pointers { strand, side } => vec![POINTERS, strand, side],
        Command::Rate { strand, side } => vec![RATE, strand, side],
    }
}

/// One line in words.
pub fn in_words(command: Command) -> String {
    match command {
        Command::Write { strand, register, value } => format!("write strand {strand} register {register} value {value:#x}"),
        Command::Insert { strand, side, flags, word } => format!("insert strand {strand} side {side} flags {flags:#x} word {word:#018x}"),
        Command::DemapPage { strand, side, selector, flags, address } => {
            format!("demap page strand {strand} side {side} selector {selector} flags {flags:#x} address {address:#x}")
        }
        Command::DemapContext { strand, side, selector } => format!("demap context strand {strand} side {side} selector {selector}"),
        Command::DemapAll { strand, side } => format!("demap all strand {strand} side {side}"),
        Command::Invalidate { side } => format!("invalidate side {side}"),
        Command::Access { strand, kind, selector, size, address } => {
            let name = ["fetch", "load", "store", "atomic", "nonfaulting load"].get(kind as usize).unwrap_or(&"unknown");
            format!("access strand {strand} kind {kind} ({name}) selector {selector} size {size} address {address:#x}")
        }
        Command::Read { strand, register } => format!("read strand {strand} register {register}"),
        Command::Pointers { strand, side } => format!("pointers strand {strand} side {side}"),
        Command::Rate { strand, side } => format!("rate strand {strand} side {side}"),
    }
}

/// A whole input in words, with byte positions; the rest that is no command is shown in hexadecimal.
pub fn disassembly(input: &[u8]) -> String {
    let mut text = String::new();
    let mut at = 0;
    while at < input.len() {
        match width(input[at]) {
            Some(w) if at + w <= input.len() => {
                text += &format!("  {at:6}  {}\n", in_words(decode(&input[at..])));
                at += w;
            }
            _ => {
                let rest: String = input[at..].iter().map(|b| format!("{b:02x}")).collect();
                return text + &format!("  {at:6}  no whole command: {rest}\n");
            }
        }
    }
    text
}
