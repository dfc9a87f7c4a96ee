//! The hand-checked vectors and document 01's printed run, as the stream program takes and prints them.
use crate::changes::is_record;
use crate::command::{decode, width};
use crate::ledger::Ledger;
use crate::library;
use crate::model::{Model, Report};
use t1mmu::numbers::{ANSWER_BYTES, STATE_WORDS};

/// What the stream program reads at most, and its room for answers.
const INPUT_MOST: usize = 4096;
const ROOM: usize = 49152;

pub struct Vector {
    pub name: String,
    /// the stream is marked as the hypervisor's
    pub hypervisor: bool,
    pub input: Vec<u8>,
    pub output: String,
}

pub fn bytes(hex: &str) -> Vec<u8> {
    (0..hex.len() / 2).map(|i| u8::from_str_radix(&hex[2 * i..2 * i + 2], 16).expect("hexadecimal")).collect()
}

pub fn hex(bytes: &[u8]) -> String {
    bytes.iter().map(|b| format!("{b:02x}")).collect()
}

/// A line with a run's input in hexadecimal: `in`, or `hypervisor` where the stream is marked.
pub fn run_line(line: &str) -> Option<(bool, Vec<u8>)> {
    let (word, hex) = line.split_once(' ').unwrap_or((line, ""));
    matches!(word, "in" | "hypervisor").then(|| (word == "hypervisor", bytes(hex)))
}

/// A line `# name`, the line of the run, the answers, and the line `end ..`.
pub fn read(text: &str) -> Vec<Vector> {
    let mut all: Vec<Vector> = Vec::new();
    for line in text.lines().filter(|l| !l.is_empty() && !is_record(l)) {
        if let Some(name) = line.strip_prefix("# ") {
            all.push(Vector { name: name.to_string(), hypervisor: false, input: Vec::new(), output: String::new() });
            continue;
        }
        let last = all.last_mut().expect("a name before the first line");
        match run_line(line) {
            Some(run) => (last.hypervisor, last.input) = run,
            None => last.output += &format!("{line}\n"),
        }
    }
    all
}

pub fn printed(report: Report, output: &[u8]) -> String {
    let mut text = String::new();
    for answer in output.chunks(ANSWER_BYTES).take(report.answered) {
        text += &(hex(answer) + "\n");
    }
    text + &format!("end {} {} {}\n", report.answered, report.taken, report.stop)
}

/// What the stream program prints, by the model; the program's own streams are not marked.
pub fn by_model(hypervisor: bool, input: &[u8]) -> String {
    let mut output = vec![0; ROOM];
    let report = Model::reset().run_commands(hypervisor, &input[..input.len().min(INPUT_MOST)], &mut output);
    printed(report, &output)
}

pub fn by_library(hypervisor: bool, input: &[u8]) -> String {
    let mut state = vec![0; STATE_WORDS];
    let mut output = vec![0; ROOM];
    library::reset(&mut state);
    let report = library::run(&mut state, hypervisor, &input[..input.len().min(INPUT_MOST)], &mut output);
    printed(report, &output)
}

/// The answers by the ledger, fed what the expected lines name as displaced.
pub fn by_ledger(vector: &Vector) -> String {
    let mut ledger = Ledger::reset();
    let (mut at, mut text) = (0, String::new());
    for line in vector.output.lines() {
        if line.starts_with("end") {
            return text + line + "\n";
        }
        let given = ledger.answer(decode(&vector.input[at..]), vector.hypervisor, &bytes(line));
        at += width(vector.input[at]).unwrap_or(1);
        text += &given.map_or("none".to_string(), |g| hex(&g));
        text += "\n";
    }
    text
}
