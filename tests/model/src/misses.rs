//! The hand-checked serves. A vector starts from reset, with two tables of no length; its lines are
//! - `in` and commands in hexadecimal: a run, then its answers and the line `end ..`, as in the other vectors; `hypervisor` where the stream
//!   is marked so;
//! - `zero` or `other`, a length, and entries as byte:tag and word: the table that is lent from there on;
//! - `word`, an index and a value: a word of the state is set, which the ledger does not follow;
//! - `serve`, strand and side: then the line `part number other start length` of hand back, and the serve's answer.
use crate::changes::is_record;
use crate::command::{decode, width};
use crate::ledger::Ledger;
use crate::library;
use crate::model::{self, Model, Part, Report};
use crate::tables::{Table, TsbEntry};
use crate::vectors::{bytes, hex, printed, run_line};
use t1mmu::numbers::{ANSWER_BYTES, STATE_WORDS};

/// A line that is done, and the lines expected of it.
struct Line {
    input: Input,
    expected: String,
}

enum Input {
    Run { hypervisor: bool, commands: Vec<u8> },
    Table { other: bool, table: Table },
    Word(usize, u64),
    Serve(u8, u8),
}

pub struct Vector {
    pub name: String,
    lines: Vec<Line>,
}

fn number(text: Option<&str>) -> usize {
    text.and_then(|t| t.parse().ok()).expect("a decimal number")
}

fn table<'a>(mut words: impl Iterator<Item = &'a str>) -> Table {
    let length = number(words.next());
    let entry = |text: &str| {
        let (at, digits) = text.split_once(':').expect("byte:entry");
        let value = |part: &str| u64::from_str_radix(part, 16).expect("hexadecimal");
        (number(Some(at)), TsbEntry { tag: value(&digits[..16]), word: value(&digits[16..]) })
    };
    Table { length, everywhere: None, entries: words.map(entry).collect() }
}

/// What a line asks for; none where it is expected.
fn input(line: &str) -> Option<Input> {
    if let Some((hypervisor, commands)) = run_line(line) {
        return Some(Input::Run { hypervisor, commands });
    }
    let mut words = line.split(' ');
    Some(match words.next()? {
        name @ ("zero" | "other") => Input::Table { other: name == "other", table: table(words) },
        "word" => Input::Word(number(words.next()), number(words.next()) as u64),
        "serve" => Input::Serve(number(words.next()) as u8, number(words.next()) as u8),
        _ => return None,
    })
}

pub fn read(text: &str) -> Vec<Vector> {
    let mut all: Vec<Vector> = Vec::new();
    for line in text.lines().filter(|l| !l.is_empty() && !is_record(l)) {
        if let Some(name) = line.strip_prefix("# ") {
            all.push(Vector { name: name.to_string(), lines: Vec::new() });
            continue;
        }
        let lines = &mut all.last_mut().expect("a name before the first line").lines;
        match input(line) {
            Some(input) => lines.push(Line { input, expected: String::new() }),
            None => lines.last_mut().expect("something to expect it of").expected += &format!("{line}\n"),
        }
    }
    all
}

impl Vector {
    pub fn expected(&self) -> String {
        self.lines.iter().map(|l| &l.expected[..]).collect()
    }
}

/// One that runs and serves over words: the model or the library.
struct Machine {
    run: fn(&mut [u64], bool, &[u8], &mut [u8]) -> Report,
    hand_back: fn(&[u64], u8, u8, [&[u8]; 2]) -> Part,
    serve: fn(&mut [u64], u8, u8, [&[u8]; 2]) -> [u8; ANSWER_BYTES],
}

pub fn by_model(vector: &Vector) -> String {
    let run = |words: &mut [u64], hypervisor: bool, input: &[u8], output: &mut [u8]| model::run(words, hypervisor, input, output).0;
    let serve = |words: &mut [u64], strand: u8, side: u8, tables: [&[u8]; 2]| model::serve(words, strand, side, tables).0;
    given(vector, &Machine { run, hand_back: model::hand_back, serve }, Model::reset().to_words())
}

pub fn by_library(vector: &Vector) -> String {
    let mut words = vec![0; STATE_WORDS];
    library::reset(&mut words);
    given(vector, &Machine { run: library::run, hand_back: library::hand_back, serve: library::serve }, words)
}

fn part_told(part: Part) -> String {
    format!("part {} {} {} {}\n", part.number, part.other, part.start, part.length)
}

fn given(vector: &Vector, machine: &Machine, mut words: Vec<u64>) -> String {
    let (mut lent, mut text) = ([Vec::new(), Vec::new()], String::new());
    for line in &vector.lines {
        let tables = [&lent[0][..], &lent[1][..]];
        match &line.input {
            Input::Run { hypervisor, commands } => {
                let mut output = vec![0; ANSWER_BYTES * commands.len()];
                let report = (machine.run)(&mut words, *hypervisor, commands, &mut output);
                text += &printed(report, &output);
            }
            Input::Table { other, table } => lent[*other as usize] = table.bytes(),
            Input::Word(at, value) => words[*at] = *value,
            Input::Serve(strand, side) => {
                text += &part_told((machine.hand_back)(&words, *strand, *side, tables));
                text += &format!("{}\n", hex(&(machine.serve)(&mut words, *strand, *side, tables)));
            }
        }
    }
    text
}

/// The lines by the ledger, fed what the expected ones name as displaced; behind a word that was set, the expected ones.
pub fn by_ledger(vector: &Vector) -> String {
    let (mut ledger, mut lent, mut text) = (Ledger::reset(), [Vec::new(), Vec::new()], String::new());
    let mut followed = true;
    for line in &vector.lines {
        match &line.input {
            Input::Word(..) => followed = false,
            Input::Table { other, table } => lent[*other as usize] = table.bytes(),
            _ if !followed => text += &line.expected,
            Input::Run { hypervisor, commands } => text += &run_by_ledger(&mut ledger, *hypervisor, commands, &line.expected),
            Input::Serve(strand, side) => text += &serve_by_ledger(&mut ledger, *strand, *side, [&lent[0], &lent[1]], &line.expected),
        }
    }
    text
}

fn answer_told(given: Option<[u8; ANSWER_BYTES]>) -> String {
    given.map_or("none\n".to_string(), |g| hex(&g) + "\n")
}

fn run_by_ledger(ledger: &mut Ledger, hypervisor: bool, input: &[u8], expected: &str) -> String {
    let (mut at, mut text) = (0, String::new());
    for line in expected.lines() {
        if line.starts_with("end") {
            return text + line + "\n";
        }
        text += &answer_told(ledger.answer(decode(&input[at..]), hypervisor, &bytes(line)));
        at += width(input[at]).expect("a known command");
    }
    text
}

fn serve_by_ledger(ledger: &mut Ledger, strand: u8, side: u8, tables: [&[u8]; 2], expected: &str) -> String {
    let [zero, other] = tables;
    let part = match ledger.hands_back(strand, side, zero, other) {
        Err(number) => Part { number, ..Part::default() },
        Ok(bytes) => {
            let of_other = other.as_ptr_range().contains(&bytes.as_ptr());
            let start = bytes.as_ptr() as usize - tables[of_other as usize].as_ptr() as usize;
            Part { number: 0, other: of_other as u8, start, length: bytes.len() }
        }
    };
    let answer = expected.lines().nth(1).expect("an answer behind the part");
    part_told(part) + &answer_told(ledger.serves(strand, side, zero, other, &bytes(answer)))
}
