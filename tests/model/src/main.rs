//! Compares the model, the ledger and the proved library; see usage.
use model::compare::{compare, compare_words, shrink, stream, told, Counts, Stream};
use model::coverage::Coverage;
use model::vectors::{self, Vector};
use model::{broken, changes, misses, sweeps};
use std::io::Write;
use std::process::{exit, Command, Stdio};
use t1mmu::{state_words, STATE_WORDS};

const USAGE: &str = "model [--seed N] [--streams N] [--broken NAME] [--quiet] [--sweeps] [--vectors FILE] [--misses FILE] [--printed STDIN STDOUT] [--program PATH]
  --streams N     random streams (default 20000); each has one to four runs
  --seed N        the first stream's seed (default 1); stream i has seed N + i
  --broken NAME   breaks the model on purpose: the comparison has to fail
  --vectors FILE  hand-checked runs through model, ledger and library, and through the program where they are not marked as the hypervisor's
  --misses FILE   hand-checked serves through model, ledger and library
  --printed A B   the stream program's input A and its output B, likewise
  --program PATH  the stream program; it takes the runs of every 40th stream, too, each from reset
  --sweeps        operands, registers, attributes, permissions, one-bit flips of a state, page sizes side by side, histories of lookups:
                  each case once
  --quiet         no coverage table";

struct Options {
    seed: u64,
    streams: u64,
    quiet: bool,
    sweeps: bool,
    vectors: Option<String>,
    misses: Option<String>,
    printed: Option<(String, String)>,
    program: Option<String>,
}

fn number(text: Option<String>) -> u64 {
    text.and_then(|t| t.parse().ok()).unwrap_or_else(|| fail(USAGE))
}

fn fail(why: &str) -> ! {
    eprintln!("{why}");
    exit(2)
}

fn options() -> Options {
    let mut o = Options { seed: 1, streams: 20000, quiet: false, sweeps: false, vectors: None, misses: None, printed: None, program: None };
    let mut args = std::env::args().skip(1);
    while let Some(word) = args.next() {
        match word.as_str() {
            "--seed" => o.seed = number(args.next()),
            "--streams" => o.streams = number(args.next()),
            "--broken" => broken::choose(&args.next().unwrap_or_default()).unwrap_or_else(|e| fail(&e)),
            "--broken-names" => {
                broken::names().iter().for_each(|n| println!("{n}"));
                exit(0)
            }
            "--quiet" => o.quiet = true,
            "--sweeps" => o.sweeps = true,
            "--vectors" => o.vectors = args.next(),
            "--misses" => o.misses = args.next(),
            "--printed" => o.printed = args.next().zip(args.next()),
            "--program" => o.program = args.next(),
            _ => fail(USAGE),
        }
    }
    o
}

fn differs(name: &str, who: &str, expected: &str, got: &str) -> u64 {
    if expected == got {
        return 0;
    }
    println!("{name}, {who}: expected\n{expected}got\n{got}");
    1
}

fn read_file(path: &String) -> Vec<u8> {
    std::fs::read(path).unwrap_or_else(|e| fail(&format!("{path}: {e}")))
}

fn text_of(path: &String) -> String {
    String::from_utf8(read_file(path)).unwrap_or_else(|e| fail(&e.to_string()))
}

/// Whether the answers in a file changed since version 3.0.0 only by number 16; 1 where anything else did.
fn changed(path: &String) -> u64 {
    match changes::count(&text_of(path)) {
        Ok(n) => println!("model: {path}: {n} answers and parts changed since version 3.0.0, by number 16 and what follows from it"),
        Err(error) => return differs(path, "answers since version 3.0.0", "", &format!("{error}\n")),
    }
    0
}

/// Hand-checked serves; how many differ.
fn fixed_misses(path: &String) -> u64 {
    let all = misses::read(&text_of(path));
    if all.is_empty() {
        fail("no miss was read");
    }
    let mut differ = 0;
    for v in &all {
        differ += differs(&v.name, "model", &v.expected(), &misses::by_model(v));
        differ += differs(&v.name, "ledger", &v.expected(), &misses::by_ledger(v));
        differ += differs(&v.name, "library", &v.expected(), &misses::by_library(v));
    }
    println!("model: {} fixed lists of runs and serves through model, ledger, library, {differ} differ", all.len());
    differ
}

/// Vectors and the printed run; how many differ.
fn fixed_runs(o: &Options) -> u64 {
    let mut all: Vec<Vector> = o.vectors.as_ref().map_or(Vec::new(), |path| vectors::read(&text_of(path)));
    if o.vectors.is_some() && all.is_empty() {
        fail("no vector was read");
    }
    if let Some((input, output)) = &o.printed {
        all.push(Vector { name: "the printed run".to_string(), hypervisor: false, input: read_file(input), output: text_of(output) });
    }
    let mut differ = 0;
    for v in &all {
        differ += differs(&v.name, "model", &v.output, &vectors::by_model(v.hypervisor, &v.input));
        differ += differs(&v.name, "ledger", &v.output, &vectors::by_ledger(v));
        differ += differs(&v.name, "library", &v.output, &vectors::by_library(v.hypervisor, &v.input));
    }
    // its streams are not marked
    let programs = all.iter().filter(|v| !v.hypervisor).flat_map(|v| o.program.as_ref().map(|p| (v, p)));
    let mut by_program = 0;
    for (v, program) in programs {
        by_program += 1;
        differ += differs(&v.name, "stream program", &v.output, &printed_by(program, &v.input));
    }
    if !all.is_empty() {
        println!("model: {} fixed runs through model, ledger and library, {by_program} through the stream program, {differ} differ", all.len());
    }
    differ
}

/// All that the stream program writes, and how it ended where that is not well.
fn printed_by(program: &str, input: &[u8]) -> String {
    let mut child = Command::new(program).stdin(Stdio::piped()).stdout(Stdio::piped()).spawn().unwrap_or_else(|e| fail(&format!("{program}: {e}")));
    // A program that has read its 4,096 bytes may close the pipe.
    let _ = child.stdin.take().expect("a pipe").write_all(input);
    let output = child.wait_with_output().expect("its output");
    let ended = if output.status.success() { String::new() } else { format!("{}\n", output.status) };
    String::from_utf8_lossy(&output.stdout).into_owned() + &ended
}

fn program_runs(o: &Options, program: &str) -> u64 {
    let (mut runs, mut differ) = (0, 0);
    for seed in (o.seed..o.seed + o.streams).step_by(40) {
        // it cannot serve, so it gets the runs alone
        for run in stream(seed).runs() {
            runs += 1;
            differ += differs(&format!("seed {seed}"), "stream program", &vectors::by_model(false, &run.input), &printed_by(program, &run.input));
        }
    }
    println!("model: {runs} runs of the stream program, {differ} differ");
    differ
}

/// Streams through all three; the first that differs is told with as few commands as may be. None of it counts as covered by chance: sweeps
/// and random streams have coverage of their own.
fn compared(name: &str, streams: impl Iterator<Item = Stream>) -> (u64, Coverage) {
    let (mut coverage, mut counts) = (Coverage::default(), Counts::default());
    let mut differ = 0;
    for mut s in streams {
        let Err(error) = compare(&s, &mut coverage, &mut counts) else { continue };
        differ += 1;
        if differ == 1 {
            shrink(&mut s);
            let error = compare(&s, &mut Coverage::default(), &mut Counts::default()).err().unwrap_or(error);
            print!("{}", told(&s, &error));
        }
        if differ == 20 {
            break;
        }
    }
    println!("{name}: {} runs and {} serves, {} answers predicted by the ledger", counts.runs, counts.serves, counts.predicted);
    println!("{name}: {} streams, {} commands, {} states compared, {differ} differ", counts.streams, counts.commands, counts.states);
    (differ, coverage)
}

fn main() {
    let o = options();
    let mut differ = differs("words of a state", "library", &format!("{STATE_WORDS}\n"), &format!("{}\n", state_words()));
    differ += fixed_runs(&o);
    differ += o.misses.as_ref().map_or(0, fixed_misses);
    differ += [&o.vectors, &o.misses].into_iter().flatten().map(changed).sum::<u64>();
    match compare_words(100_000, o.seed) {
        Ok(n) => println!("model: {n} entry words unpacked and packed, 0 differ"),
        Err(error) => {
            println!("{error}");
            differ += 1;
        }
    }
    if let Some(program) = &o.program {
        differ += program_runs(&o, program);
    }
    if o.sweeps {
        differ += compared("model, sweeps", sweeps::all()).0;
    }
    let (streams_differ, coverage) = compared("model", (o.seed..o.seed + o.streams).map(stream));
    differ += streams_differ;
    if !o.quiet {
        coverage.print();
    }
    let missing = coverage.missing();
    if streams_differ == 0 && !missing.is_empty() {
        println!("model: never occurred: {}", missing.join("; "));
        exit(1);
    }
    exit(if differ == 0 { 0 } else { 1 });
}
