//! The crate's own tests. What is expected is the documents', not the library's.
use t1mmu::numbers::{self, cell_at, page_bytes, record_of, slot_at, tsb_base_of, tsb_bytes, tsb_configuration_of};
use t1mmu::{pack, state_words, unpack, version, NoPart, Report, Stop, Tte, Unit, ANSWER_BYTES, STATE_WORDS, VERSION};

/// Document 01's printed run, in which mode 0 may not insert.
const PRINTED: &str = "0100040000000000000003010003000000000000000007000100030000000000402008\
                       02000100800000000008044007000100030000000000402008";
const ANSWERS: [&str; 5] = [
    "000000000000000000000000000000000000000000000000",
    "000000000000000000000000000000000000000000000000",
    "026800000000000000000000004020080000000000402000",
    "051000000000000000000000000000000000000000000000",
    "026800000000000000000000004020080000000000402000",
];
/// What its load gets where the page is there.
const PAGE: &str = "010100000000000000000000000800080000000000000000";
const ROOM: usize = ANSWERS.len() * ANSWER_BYTES;
/// Where its commands begin and end.
const ENDS: [usize; 6] = [0, 11, 22, 35, 47, 60];
/// The word that it would insert.
const WORD: u64 = 0x8000_0000_0008_0440;

type Run = fn(&mut Unit, &[u8], &mut [u8]) -> Report;
/// Both calls that run a stream: a guest's, and the hypervisor's.
const CALLS: [Run; 2] = [Unit::run, Unit::run_hypervisor];

fn bytes(hex: &str) -> Vec<u8> {
    (0..hex.len() / 2).map(|i| u8::from_str_radix(&hex[2 * i..2 * i + 2], 16).expect("hexadecimal")).collect()
}

fn report(answered: usize, taken: usize, stop: Stop) -> Report {
    Report { answered, taken, stop }
}

/// The printed run with another mode: in mode 1 the page goes in, and its last load is answered [`PAGE`].
fn printed_in(mode: u64) -> Vec<u8> {
    let mut input = bytes(PRINTED);
    input[ENDS[2] - 1] = mode as u8;
    input
}

/// After the printed run in mode 1.
fn inserted() -> Unit {
    let mut unit = Unit::reset();
    unit.run(&printed_in(numbers::PRIVILEGED), &mut [0; ROOM]);
    unit
}

fn with(head: &[u8], value: u64) -> Vec<u8> {
    [head, &value.to_be_bytes()].concat()
}

fn write(strand: u8, register: u8, value: u64) -> Vec<u8> {
    with(&[numbers::WRITE, strand, register], value)
}

fn load(strand: u8, address: u64) -> Vec<u8> {
    with(&[numbers::ACCESS, strand, numbers::LOAD, numbers::PRIMARY, 3], address)
}

/// Insertion into the data TLB, of what the tag access of reset is about.
fn insert(strand: u8, flags: u8) -> Vec<u8> {
    with(&[numbers::INSERT, strand, numbers::DATA, flags], WORD)
}

/// The kind and a of the answer to one command.
fn answer(unit: &mut Unit, call: Run, command: &[u8]) -> [u8; 2] {
    let mut answer = [0; ANSWER_BYTES];
    assert_eq!(call(unit, command, &mut answer), report(1, command.len(), Stop::End));
    [answer[0], answer[1]]
}

#[test]
fn linked_library_is_the_one_written_for() {
    assert_eq!(version(), VERSION);
    assert_eq!(state_words(), STATE_WORDS);
}

#[test]
fn reset_is_mode_2_and_else_zero() {
    let mut expected = [0; STATE_WORDS];
    (0..numbers::STRANDS).for_each(|strand| expected[cell_at(strand, numbers::MODE)] = 2);
    assert_eq!(Unit::reset().words(), &expected);
}

#[test]
fn words_stand_where_the_layout_says() {
    assert_eq!(slot_at(numbers::SIDES, 0), numbers::SEEN);
    assert_eq!(record_of(numbers::STRANDS, 0), numbers::RECORDS);
    assert_eq!(numbers::SEEN + numbers::RECORDS, numbers::NEWEST);
    assert_eq!(numbers::NEWEST + numbers::RECORDS, numbers::OLDER);
    assert_eq!(numbers::OLDER + numbers::RECORDS * numbers::OLDER_WORDS, STATE_WORDS);
    let unit = inserted();
    assert_eq!(unit.words()[cell_at(0, numbers::TRANSLATION)], 3);
    assert_eq!(unit.words()[slot_at(1, 0)..slot_at(1, 1)], [0, 0x40_2000, WORD, 2]);
    assert_eq!(unit.words()[numbers::SEEN + record_of(0, 1)], 2);
    assert_eq!(unit.words()[numbers::NEWEST + record_of(0, 1)], 0b10, "a miss, then a hit");
}

#[test]
fn tsb_registers() {
    let bases = (0..2).flat_map(|side| [false, true].map(|nonzero| [0, 1].map(|ps| tsb_base_of(side, nonzero, ps))));
    assert_eq!(bases.flatten().collect::<Vec<u8>>(), (8..16).collect::<Vec<u8>>());
    let configurations = (0..2).flat_map(|side| [false, true].map(|nonzero| tsb_configuration_of(side, nonzero)));
    assert_eq!(configurations.collect::<Vec<u8>>(), (16..20).collect::<Vec<u8>>());
}

#[test]
fn printed_run() {
    for call in CALLS {
        let mut output = [0xee; ROOM + ANSWER_BYTES];
        assert_eq!(call(&mut Unit::reset(), &bytes(PRINTED), &mut output), report(5, 60, Stop::End));
        assert_eq!(output[..ROOM], bytes(&ANSWERS.concat()));
        assert_eq!(output[ROOM..], [0xee; ANSWER_BYTES]);
    }
}

#[test]
fn printed_run_in_parts_is_the_run() {
    let input = printed_in(numbers::PRIVILEGED);
    let whole = inserted();
    for cut in ENDS {
        let mut unit = Unit::reset();
        unit.run(&input[..cut], &mut [0; ROOM]);
        let mut unit = Unit::from_words(*unit.words());
        unit.run(&input[cut..], &mut [0; ROOM]);
        assert!(unit == whole, "cut at {cut}");
    }
}

#[test]
fn every_room() {
    let input = bytes(PRINTED);
    for room in 0..=ROOM + 10 {
        let n = (room / ANSWER_BYTES).min(5);
        let stop = if n < 5 { Stop::NoRoom } else { Stop::End };
        for call in CALLS {
            let mut output = vec![0xee; room];
            assert_eq!(call(&mut Unit::reset(), &input, &mut output), report(n, ENDS[n], stop), "room {room}");
            assert!(output[n * ANSWER_BYTES..].iter().all(|b| *b == 0xee), "room {room}");
        }
    }
}

#[test]
fn every_stop() {
    for call in CALLS {
        let mut unit = Unit::reset();
        let mut output = [0; 2 * ANSWER_BYTES];
        assert_eq!(call(&mut unit, &[], &mut []), report(0, 0, Stop::End));
        assert_eq!(call(&mut unit, &[6, 1, 0], &mut output), report(1, 2, Stop::Unknown));
        assert_eq!(call(&mut unit, &[6, 1, 6], &mut output), report(1, 2, Stop::Incomplete));
        assert_eq!(call(&mut unit, &[6, 1, 6, 1, 6, 1], &mut output), report(2, 4, Stop::NoRoom));
        let mut unsound = Unit::from_words([u64::MAX; STATE_WORDS]);
        assert_eq!(call(&mut unsound, &[6, 1], &mut output), report(0, 0, Stop::Unsound));
        assert_eq!(unsound.words(), &[u64::MAX; STATE_WORDS]);
    }
    for (number, stop) in [Stop::End, Stop::Unsound, Stop::Unknown, Stop::Incomplete, Stop::NoRoom].into_iter().enumerate() {
        assert_eq!(usize::from(stop.number()), number);
    }
}

#[test]
fn an_invalidation_is_the_hypervisors() {
    let guest: [u8; 2] = [numbers::REFUSED, numbers::REFUSED_PERMISSION];
    for mode in [numbers::USER, numbers::PRIVILEGED, numbers::HYPERPRIVILEGED] {
        let mut words = *inserted().words();
        (0..numbers::STRANDS).for_each(|strand| words[cell_at(strand, numbers::MODE)] = mode);
        let before = Unit::from_words(words);
        let mut unit = before.clone();
        assert_eq!(answer(&mut unit, Unit::run, &[numbers::INVALIDATE, numbers::DATA]), guest, "mode {mode}");
        for call in CALLS {
            assert_eq!(answer(&mut unit, call, &[numbers::INVALIDATE, 2]), [numbers::REFUSED, numbers::REFUSED_SIDE], "mode {mode}");
        }
        assert!(unit == before, "mode {mode}");
        assert_eq!(answer(&mut unit, Unit::run_hypervisor, &[numbers::INVALIDATE, numbers::DATA]), [numbers::DONE, 0], "mode {mode}");
        words[slot_at(1, 0)..slot_at(1, 1)].fill(0);
        assert!(unit == Unit::from_words(words), "mode {mode}");
    }
}

/// Commands of strand 1 that are refused for want of permission alone, and the least mode that may send each.
fn commands_and_modes() -> Vec<(Vec<u8>, u64)> {
    let of_guests = |register: u8| matches!(register, 1 | 2 | 5 | 8..=21);
    let writes = (0..=21).filter(|r| ![6, 7].contains(r)).map(|r| (write(1, r, 0), if of_guests(r) { 1 } else { 2 }));
    let inserts = (0..4).map(|flags| (insert(1, flags), if flags == 0 { 1 } else { 2 }));
    let demaps = [0, numbers::REAL].map(|flags| (with(&[numbers::DEMAP_PAGE, 1, numbers::DATA, numbers::PRIMARY, flags], 0), 1));
    let short = [
        (vec![numbers::DEMAP_CONTEXT, 1, numbers::DATA, numbers::SECONDARY], 1),
        (vec![numbers::DEMAP_ALL, 1, numbers::DATA], 2),
        (vec![numbers::POINTERS, 1, numbers::DATA], 1),
        (vec![numbers::RATE, 1, numbers::DATA], 1),
        (vec![numbers::READ, 1, numbers::MODE], 0),
        (load(1, 8), 0),
    ];
    writes.chain(inserts).chain(demaps).chain(short).collect()
}

#[test]
fn a_mode_says_what_its_strand_may_send() {
    for (command, least) in commands_and_modes() {
        for (mode, others) in [(0, 2), (0, 1), (1, 2), (1, 0), (2, 0), (2, 1)] {
            let mut words = *Unit::reset().words();
            (0..numbers::STRANDS).for_each(|strand| words[cell_at(strand, numbers::MODE)] = others);
            words[cell_at(1, numbers::MODE)] = mode;
            words[numbers::SEEN + record_of(1, 1)] = 1;
            let before = Unit::from_words(words);
            for call in CALLS {
                let mut unit = before.clone();
                let refused = answer(&mut unit, call, &command) == [numbers::REFUSED, numbers::REFUSED_PERMISSION];
                assert_eq!(refused, mode < least, "mode {mode}, command {command:x?}");
                assert!(!refused || unit == before, "mode {mode}, command {command:x?}");
            }
        }
    }
}

#[test]
fn permission_is_asked_behind_operands_and_before_the_rest() {
    let mut words = *Unit::reset().words();
    let out_of_range = 1 << 47;
    words[cell_at(1, numbers::MODE)] = numbers::USER;
    words[cell_at(1, numbers::TAG_ACCESS + numbers::DATA)] = out_of_range;
    let page = |strand, side, selector, flags| with(&[numbers::DEMAP_PAGE, strand, side, selector, flags], out_of_range);
    let cases = [
        (write(4, numbers::MODE, 0), numbers::REFUSED_STRAND),
        (write(1, 99, 0), numbers::REFUSED_REGISTER),
        (write(1, numbers::FAULT_STATUS, 0), numbers::REFUSED_REGISTER),
        (write(1, numbers::PRIMARY_CONTEXT, 9000), numbers::REFUSED_VALUE),
        (with(&[numbers::INSERT, 1, 2, 0], 0), numbers::REFUSED_SIDE),
        (insert(1, 4), numbers::REFUSED_OPERAND),
        (insert(1, 0), numbers::REFUSED_PERMISSION),
        (with(&[numbers::INSERT, 1, numbers::INSTRUCTION, 0], 0), numbers::REFUSED_PERMISSION),
        (page(1, 2, 3, 2), numbers::REFUSED_SIDE),
        (page(1, 1, 3, 2), numbers::REFUSED_SELECTOR),
        (page(1, 1, 2, 2), numbers::REFUSED_OPERAND),
        (page(1, 1, 2, 1), numbers::REFUSED_PERMISSION),
        (vec![numbers::DEMAP_CONTEXT, 1, numbers::INSTRUCTION, numbers::SECONDARY], numbers::REFUSED_SELECTOR),
        (vec![numbers::DEMAP_ALL, 1, 2], numbers::REFUSED_SIDE),
        (vec![numbers::POINTERS, 1, 2], numbers::REFUSED_SIDE),
        (vec![numbers::RATE, 1, 2], numbers::REFUSED_SIDE),
        (vec![numbers::RATE, 1, 1], numbers::REFUSED_PERMISSION),
        (vec![numbers::READ, 1, 99], numbers::REFUSED_REGISTER),
    ];
    for (command, number) in cases {
        for call in CALLS {
            let mut unit = Unit::from_words(words);
            assert_eq!(answer(&mut unit, call, &command), [numbers::REFUSED, number], "command {command:x?}");
            assert!(unit == Unit::from_words(words), "command {command:x?}");
        }
    }
}

#[test]
fn guests_keep_to_themselves() {
    // the hypervisor, by strand 3: a locked page of partition 3, and strands 0 to 2 with partitions, translation and modes of their own
    let guest = |strand: u8| {
        let mode = [numbers::USER, numbers::PRIVILEGED, numbers::PRIVILEGED][strand as usize];
        [write(strand, numbers::PARTITION, strand.into()), write(strand, numbers::TRANSLATION, 3), write(strand, numbers::MODE, mode)].concat()
    };
    let locked = [write(3, numbers::PARTITION, 3), insert(3, numbers::LOCKED)].concat();
    let mut unit = Unit::reset();
    unit.run_hypervisor(&[locked, guest(0), guest(1), guest(2)].concat(), &mut [0; 11 * ANSWER_BYTES]);
    let before = *unit.words();
    // a guest's bytes: all that it may try, and more pages than there are slots
    for strand in 0..3 {
        for page in 0..100 {
            let tag = write(strand, numbers::TAG_ACCESS + numbers::DATA, page * 0x2000);
            let mut tries = [tag, insert(strand, 0), insert(strand, numbers::LOCKED), write(strand, numbers::PARTITION, 3)].concat();
            tries.extend([numbers::DEMAP_ALL, strand, numbers::DATA, numbers::INVALIDATE, numbers::DATA]);
            tries.extend([write(strand, numbers::MODE, numbers::HYPERPRIVILEGED), load(strand, page * 0x2000)].concat());
            assert_eq!(unit.run(&tries, &mut [0; 8 * ANSWER_BYTES]), report(8, tries.len(), Stop::End));
        }
    }
    for (strand, register) in (0..numbers::STRANDS).flat_map(|strand| [(strand, numbers::MODE), (strand, numbers::PARTITION)]) {
        assert_eq!(unit.words()[cell_at(strand, register)], before[cell_at(strand, register)], "strand {strand}, register {register}");
    }
    let slot = unit.words()[slot_at(1, 0)..slot_at(1, 1)].to_vec();
    assert_eq!(slot[..3], before[slot_at(1, 0)..slot_at(1, 1)][..3], "the locked page");
    assert_eq!(slot[3] & 1, 1, "its lock");
}

/// The printed run up to its load of 0x402008 that misses: tag access is page 0x402000 with context 0, N 0 and ps0 8 KB as at reset.
fn missed_in(mode: u64) -> Unit {
    let mut unit = Unit::reset();
    unit.run(&printed_in(mode)[..ENDS[3]], &mut [0; ROOM]);
    unit
}

fn missed() -> Unit {
    missed_in(numbers::PRIVILEGED)
}

/// A table of N 0 with the TSB entry of that page: page 0x201 of 8 KB, so entry 1 of 512; bits 63:22 of the address are 1.
fn table(word: u64) -> Vec<u8> {
    let mut table = vec![0; tsb_bytes(0)];
    table[16..24].copy_from_slice(&1u64.to_be_bytes());
    table[24..32].copy_from_slice(&word.to_be_bytes());
    table
}

#[test]
fn a_part_is_of_the_table_and_outlives_the_unit() {
    let (zero, other) = (table(WORD), vec![0xee; tsb_bytes(0)]);
    let part = {
        let unit = missed();
        unit.hand_back(0, numbers::DATA, &zero, &other)
    };
    assert_eq!(part.map(<[u8]>::as_ptr_range), Ok(zero[16..32].as_ptr_range()));
    let mut unit = missed();
    unit.run(&bytes("0100150000000000402005"), &mut [0; ROOM]);
    let part = unit.hand_back(0, numbers::DATA, &zero, &other);
    assert_eq!(part.map(<[u8]>::as_ptr_range), Ok(other[16..32].as_ptr_range()), "context 5");
}

#[test]
fn a_miss_served_and_the_load_again() {
    for mode in [numbers::USER, numbers::PRIVILEGED] {
        let mut unit = missed_in(mode);
        assert_eq!(unit.serve(0, numbers::DATA, &table(WORD), &[]), [0; ANSWER_BYTES], "a serve looks at no mode");
        let mut again = [0; ANSWER_BYTES];
        assert_eq!(unit.run(&bytes(PRINTED)[ENDS[4]..], &mut again), report(1, numbers::ACCESS_BYTES, Stop::End));
        assert_eq!(again[..], bytes(PAGE));
        let mut by_command = *inserted().words();
        by_command[cell_at(0, numbers::MODE)] = mode;
        assert!(unit == Unit::from_words(by_command), "as after the insertion by command");
    }
}

#[test]
fn what_does_not_fit_is_not_in_the_table() {
    let mut unit = missed();
    for word in [0, WORD & !(1 << 63), WORD + 1, WORD + 8] {
        let answer = unit.serve(0, numbers::DATA, &table(word), &[]);
        assert_eq!(answer[0], numbers::NOT_IN_TABLE, "{word:#x}");
        assert_eq!(answer[1..], [0; ANSWER_BYTES - 1], "{word:#x}");
    }
    assert!(unit == missed());
}

#[test]
fn no_part_and_why() {
    let (zero, refused) = (table(WORD), |number: u8| [&[numbers::REFUSED, number], &[0; ANSWER_BYTES - 2][..]].concat());
    let unsound = Unit::from_words([u64::MAX; STATE_WORDS]);
    let cases = [
        (unsound, 9, 9, &zero[..1], NoPart::State, 1),
        (missed(), 4, 2, &zero[..1], NoPart::Strand, 5),
        (missed(), 3, 2, &zero[..1], NoPart::Side, 6),
        (missed(), 0, 1, &zero[..zero.len() - 1], NoPart::Table, 14),
        (missed(), 0, 1, &[], NoPart::Table, 14),
    ];
    for (mut unit, strand, side, used, why, number) in cases {
        let before = unit.clone();
        assert_eq!(why.number(), number);
        assert_eq!(unit.hand_back(strand, side, used, &zero), Err(why));
        assert_eq!(unit.serve(strand, side, used, &zero)[..], refused(number));
        assert!(unit == before, "{why:?}");
    }
}

/// A page of a size code that stands at its own size, on the data side: what a load of its last 8 bytes is answered in a mode.
fn last_load(code: u64, mode: u64) -> Vec<u8> {
    let page = page_bytes(code).expect("a page");
    let commands = [
        write(0, numbers::TRANSLATION, numbers::DATA_ON),
        write(0, numbers::TAG_ACCESS + numbers::DATA, page),
        with(&[numbers::INSERT, 0, numbers::DATA, 0], 1 << 63 | page | code),
        write(0, numbers::MODE, mode),
        load(0, 2 * page - 8),
    ];
    let mut output = [0; 5 * ANSWER_BYTES];
    assert_eq!(Unit::reset().run(&commands.concat(), &mut output).answered, 5);
    output[4 * ANSWER_BYTES..].to_vec()
}

#[test]
fn a_physical_answer_tells_its_page() {
    for code in [numbers::PAGE_8K, numbers::PAGE_64K, numbers::PAGE_4M, numbers::PAGE_256M] {
        let last = 2 * page_bytes(code).expect("a page") - 8;
        let answer = |a: u8, c: u64| [&[numbers::PHYSICAL, a, 0, c as u8, 0, 0, 0, 0][..], &last.to_be_bytes(), &[0; 8]].concat();
        assert_eq!(last_load(code, numbers::PRIVILEGED), answer(0, code));
        assert_eq!(last_load(code, numbers::HYPERPRIVILEGED), answer(numbers::CP, numbers::BYPASS_CODE));
    }
    assert_eq!(page_bytes(numbers::BYPASS_CODE), None);
}

#[test]
fn io_space_takes_no_nonfaulting_load_and_no_atomic() {
    const ADDRESS: u64 = 0x80_0040_2008;
    let answer = |first: [u8; 4], tag: u64| [&first[..], &[0; 4], &ADDRESS.to_be_bytes(), &tag.to_be_bytes()].concat();
    let trap = |fault: u8| answer([numbers::TRAP, numbers::DATA_ACCESS_EXCEPTION, fault, 0], 0x80_0040_2000);
    let bypass = answer([numbers::PHYSICAL, numbers::E, 0, numbers::BYPASS_CODE as u8], 0);
    let registers = [write(0, numbers::TRANSLATION, numbers::DATA_ON), write(0, numbers::PRIMARY_CONTEXT, 5)].concat();
    let cases = [
        (numbers::LOAD, bypass.clone()),
        (numbers::STORE, bypass),
        (numbers::ATOMIC, trap(numbers::FAULT_UNCACHEABLE)),
        (numbers::NONFAULTING_LOAD, trap(numbers::FAULT_SIDE_EFFECT)),
    ];
    for (kind, expected) in cases {
        let mut unit = Unit::reset();
        unit.run(&registers, &mut [0; 2 * ANSWER_BYTES]);
        let mut output = [0; ANSWER_BYTES];
        unit.run(&with(&[numbers::ACCESS, 0, kind, numbers::PRIMARY, 3], ADDRESS), &mut output);
        assert_eq!(output[..], expected, "kind {kind}");
    }
}

/// What the miss rate is answered with: the rate, or the number of the refusal.
fn rate(unit: &mut Unit, strand: u8, side: u8) -> Result<u64, u8> {
    let mut answer = [0xee; ANSWER_BYTES];
    assert_eq!(unit.run(&[numbers::RATE, strand, side], &mut answer), report(1, numbers::RATE_BYTES, Stop::End));
    if answer[0] == numbers::REFUSED {
        return Err(answer[1]);
    }
    assert_eq!((answer[0], &answer[1..8], &answer[16..]), (numbers::VALUE, &[0; 7][..], &[0; 8][..]));
    Ok(u64::from_be_bytes(answer[8..16].try_into().expect("eight bytes")))
}

#[test]
fn the_miss_rate_is_that_of_the_last_lookups() {
    let mut unit = inserted();
    // what each lookup was: the page of the printed run hits, and another misses
    let mut missed = vec![true, false];
    for i in 0..3 * numbers::KEPT_LOOKUPS {
        let kept = &missed[missed.len().saturating_sub(numbers::KEPT_LOOKUPS)..];
        let misses = kept.iter().filter(|m| **m).count();
        assert_eq!(rate(&mut unit, 0, numbers::DATA), Ok((misses * 1000 / kept.len()) as u64), "after {} lookups", missed.len());
        missed.push(i % 7 == 3 || i / 500 == 1);
        unit.run(&load(0, if missed[i + 2] { 0x80_0000 } else { 0x40_2008 }), &mut [0; ANSWER_BYTES]);
    }
    assert_eq!(rate(&mut unit, 0, numbers::INSTRUCTION), Err(numbers::REFUSED_NO_LOOKUP), "the other side");
    assert_eq!(rate(&mut unit, 1, numbers::DATA), Err(numbers::REFUSED_NO_LOOKUP), "another strand");
    assert_eq!(rate(&mut unit, 4, 2), Err(numbers::REFUSED_STRAND));
    assert_eq!(rate(&mut unit, 1, 2), Err(numbers::REFUSED_SIDE));
}

#[test]
fn what_does_not_look_up_is_not_in_the_rate() {
    let access = |kind: u8, address: u64| with(&[numbers::ACCESS, 0, kind, numbers::PRIMARY, 3], address);
    let bypasses = [access(numbers::LOAD, 8), access(numbers::ATOMIC, 1 << 39), access(numbers::NONFAULTING_LOAD, 1 << 39)].concat();
    let mut unit = Unit::reset();
    unit.run(&bypasses, &mut [0; ROOM]);
    assert_eq!(rate(&mut unit, 0, numbers::DATA), Err(numbers::REFUSED_NO_LOOKUP), "in mode 2");
    let mut unit = missed();
    let none = [access(numbers::LOAD, 1), access(numbers::LOAD, 1 << 47), access(5, 8)].concat();
    unit.run(&none, &mut [0; ROOM]);
    unit.serve(0, numbers::DATA, &table(WORD), &[]);
    assert_eq!(rate(&mut unit, 0, numbers::DATA), Ok(1000), "misaligned, out of range, refused, and a serve");
    // the page again, without w
    unit.run(&bytes("0100150000000000402000020001008000000000080400"), &mut [0; ROOM]);
    unit.run(&access(numbers::STORE, 0x40_2008), &mut [0; ROOM]);
    assert_eq!(rate(&mut unit, 0, numbers::DATA), Ok(500), "found, and a fault");
}

#[test]
fn a_clone_is_another_core() {
    let unit = Unit::reset();
    let mut other = unit.clone();
    other.run(&bytes(PRINTED), &mut [0; ROOM]);
    assert!(unit == Unit::reset());
    assert!(other != unit);
}

#[test]
fn entry_words() {
    let fields = Tte { v: 1, address: 0x80000 >> 13, cp: 1, w: 1, ..Tte::default() };
    assert_eq!(pack(fields), WORD);
    assert_eq!(unpack(WORD), fields);
    assert_eq!(pack(Tte { soft: 7, ..Tte::default() }), 3 << 4, "a field that is too wide");
    for bit in 0..64 {
        assert_eq!(pack(unpack(1 << bit)), 1 << bit, "bit {bit}");
    }
}
