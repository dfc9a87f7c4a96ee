//! The library beside a plain Rust and a plain C unit: nanoseconds and instructions, as two tables.
mod plain;
mod work;

use std::hint::black_box;
use std::process::{exit, Command};
use std::time::Instant;
use t1mmu::numbers::{cell_at, DATA, REFUSED, REFUSED_PERMISSION, TAG_ACCESS};
use t1mmu::sys::{t1mmu_hand_back, t1mmu_run, t1mmu_serve, Answered, Part, Report};
use t1mmu::{ANSWER_BYTES, STATE_WORDS};
use work::{Calls, Misses, Short, Work};

/// The calls of the C unit; ranges as pointer and length, and of tables that are not read the length alone.
#[repr(C)]
#[derive(Clone, Copy)]
pub struct Plain {
    run: unsafe extern "C" fn(*mut u64, bool, *const u8, usize, *mut u8, usize) -> Report,
    hand_back: unsafe extern "C" fn(*const u64, u32, u32, usize, usize) -> Part,
    serve: unsafe extern "C" fn(*mut u64, u32, u32, *const u8, usize, *const u8, usize) -> Answered,
}

extern "C" {
    static plain_checked: Plain;
    static plain_unchecked: Plain;
    fn plain_tag_access(unit: *mut u64, strand: u32, side: u32, tag: u64);
    fn plain_size() -> usize;
    fn plain_load(unit: *mut u64, words: *const u64);
    fn plain_store(unit: *const u64, words: *mut u64);
}

pub enum Contestant {
    Library(Vec<u64>),
    Rust(Box<plain::Unit>),
    /// with the soundness test or without, by its calls
    C(Vec<u64>, Plain),
}

const NAMES: [&str; 4] = ["library", "rust", "c", "c without the test"];

impl Contestant {
    fn new(which: usize, words: &[u64]) -> Contestant {
        match which {
            0 => Contestant::Library(words.to_vec()),
            1 => Contestant::Rust(plain::Unit::load(words)),
            _ => {
                // SAFETY: the unit has the size that the C side gives, words is a state, and the calls never change.
                let mut unit = vec![0; unsafe { plain_size() }.div_ceil(8)];
                unsafe { plain_load(unit.as_mut_ptr(), words.as_ptr()) };
                Contestant::C(unit, unsafe { if which == 2 { plain_checked } else { plain_unchecked } })
            }
        }
    }

    /// Streams are a guest's, which are not marked as the hypervisor's: no work invalidates.
    fn run(&mut self, input: &[u8], output: &mut [u8]) -> Report {
        // SAFETY: every range is that of a slice, and none overlap.
        match self {
            Contestant::Library(s) => unsafe {
                t1mmu_run(s.as_mut_ptr(), s.len(), input.as_ptr(), input.len(), output.as_mut_ptr(), output.len())
            },
            Contestant::Rust(unit) => unit.run(false, input, output),
            Contestant::C(u, plain) => unsafe {
                (plain.run)(u.as_mut_ptr(), false, input.as_ptr(), input.len(), output.as_mut_ptr(), output.len())
            },
        }
    }

    /// The data side's tag access as a trap leaves it; the library's state is the caller's to write.
    fn tag_access(&mut self, strand: u8, tag: u64) {
        match self {
            Contestant::Library(s) => s[cell_at(strand as usize, TAG_ACCESS + DATA)] = tag,
            Contestant::Rust(unit) => unit.tag_access(strand, DATA, tag),
            // SAFETY: a unit has a word for every strand's register.
            Contestant::C(u, _) => unsafe { plain_tag_access(u.as_mut_ptr(), strand.into(), DATA.into(), tag) },
        }
    }

    fn serve(&mut self, strand: u8, [zero, other]: [&[u8]; 2]) -> [u8; ANSWER_BYTES] {
        // SAFETY: every range is that of a slice, and none overlap.
        match self {
            Contestant::Library(s) => unsafe {
                t1mmu_serve(s.as_mut_ptr(), s.len(), strand, DATA, zero.as_ptr(), zero.len(), other.as_ptr(), other.len()).bytes
            },
            Contestant::Rust(unit) => unit.serve(strand, DATA, [zero, other]),
            Contestant::C(u, plain) => unsafe {
                let (strand, side) = (strand.into(), DATA.into());
                (plain.serve)(u.as_mut_ptr(), strand, side, zero.as_ptr(), zero.len(), other.as_ptr(), other.len()).bytes
            },
        }
    }

    fn hand_back(&self, strand: u8, [zero, other]: [&[u8]; 2]) -> Part {
        // SAFETY: every range is that of a slice, and is only read.
        match self {
            Contestant::Library(s) => unsafe {
                t1mmu_hand_back(s.as_ptr(), s.len(), strand, DATA, zero.as_ptr(), zero.len(), other.as_ptr(), other.len())
            },
            Contestant::Rust(unit) => unit.hand_back(strand, DATA, [zero, other]),
            Contestant::C(u, plain) => unsafe { (plain.hand_back)(u.as_ptr(), strand.into(), DATA.into(), zero.len(), other.len()) },
        }
    }

    fn words(&self) -> Vec<u64> {
        match self {
            Contestant::Library(s) => s.clone(),
            Contestant::Rust(unit) => unit.words(),
            Contestant::C(u, _) => {
                let mut words = vec![0; STATE_WORDS];
                // SAFETY: words is a state.
                unsafe { plain_store(u.as_ptr(), words.as_mut_ptr()) };
                words
            }
        }
    }
}

/// One pass; callgrind counts what happens below this function alone.
#[no_mangle]
#[inline(never)]
pub fn measured_pass(c: &mut Contestant, calls: &Calls, output: &mut [u8]) -> usize {
    pass(c, calls, output)
}

/// The same, not counted.
#[inline(never)]
fn warm_pass(c: &mut Contestant, calls: &Calls, output: &mut [u8]) -> usize {
    pass(c, calls, output)
}

#[inline(always)]
fn pass(c: &mut Contestant, calls: &Calls, output: &mut [u8]) -> usize {
    match calls {
        Calls::Runs(inputs) => runs(c, inputs, output),
        Calls::Serves(_, misses) => serves(c, misses),
        Calls::HandBacks(misses) => hand_backs(c, misses),
    }
}

// Each compiled by itself, so that none costs another an instruction.

#[inline(never)]
fn runs(c: &mut Contestant, inputs: &[Vec<u8>], output: &mut [u8]) -> usize {
    let mut answered = 0;
    for input in inputs {
        let report = c.run(input, output);
        answered += report.answered + (report.stop != 0) as usize * 1_000_000;
    }
    answered
}

#[inline(never)]
fn serves(c: &mut Contestant, misses: &Misses) -> usize {
    let mut kinds = 0;
    for &(strand, tag) in &misses.each {
        c.tag_access(strand, tag);
        kinds += black_box(c.serve(strand, misses.tables()))[0] as usize;
    }
    kinds
}

#[inline(never)]
fn hand_backs(c: &mut Contestant, misses: &Misses) -> usize {
    let mut length = 0;
    for &(strand, tag) in &misses.each {
        c.tag_access(strand, tag);
        length += black_box(c.hand_back(strand, misses.tables())).length;
    }
    length
}

/// Room for every answer of each of the works.
fn room(works: &[&Work]) -> Vec<u8> {
    vec![0; ANSWER_BYTES * works.iter().flat_map(|w| w.calls().runs()).map(|r| r.len() / 2 + 1).max().unwrap_or(0)]
}

/// What each gives, which is the same for all.
fn same<T: PartialEq>(what: &str, work: &Work, all: &mut [Contestant], give: impl Fn(&mut Contestant) -> T) -> T {
    let mut seen: Vec<T> = all.iter_mut().map(give).collect();
    assert!(seen.iter().all(|s| *s == seen[0]), "{}: the contestants' {what} differ", work.name);
    seen.swap_remove(0)
}

/// All give the same bytes, reports, parts and words, so that they are measured at the same work; and it is the work that is meant.
fn agree(work: &Work) {
    let mut all: Vec<Contestant> = (0..NAMES.len()).map(|i| Contestant::new(i, &work.words)).collect();
    for _ in 0..2 {
        match work.calls() {
            Calls::Runs(runs) => runs.iter().for_each(|input| {
                let (report, answers) = same("answers", work, &mut all, |c| {
                    let mut output = room(&[work]);
                    (c.run(input, &mut output), output)
                });
                assert!(report.stop == 0, "{}: stop {}", work.name, report.stop);
                let permitted = answers.chunks(ANSWER_BYTES).all(|a| a[..2] != [REFUSED, REFUSED_PERMISSION]);
                assert!(permitted, "{}: a command that its strand's mode does not permit", work.name);
            }),
            Calls::Serves(kind, misses) => misses.each.iter().for_each(|&(strand, tag)| {
                all.iter_mut().for_each(|c| c.tag_access(strand, tag));
                let answer = same("answers", work, &mut all, |c| c.serve(strand, misses.tables()));
                assert!(answer[0] == *kind, "{}: answer {answer:?}", work.name);
            }),
            Calls::HandBacks(misses) => misses.each.iter().for_each(|&(strand, tag)| {
                all.iter_mut().for_each(|c| c.tag_access(strand, tag));
                let part = same("parts", work, &mut all, |c| c.hand_back(strand, misses.tables()));
                assert!(part.number == 0, "{}: number {}", work.name, part.number);
            }),
        }
        same("states", work, &mut all, |c| c.words());
    }
}

/// A work, and the contestant at it by its place in `NAMES`.
type Turn<'a> = (&'a Work, usize);

/// What a unit of the work takes the contestant.
struct Cost {
    ns: f64,
    count: Option<f64>,
}

fn measured<const N: usize>(turns: [Turn; N]) -> [Cost; N] {
    let ns = nanoseconds(turns);
    std::array::from_fn(|i| Cost { ns: ns[i], count: instructions(turns[i]) })
}

/// Nanoseconds a unit, the best of many rounds; each round has every turn.
fn nanoseconds<const N: usize>(turns: [Turn; N]) -> [f64; N] {
    let mut all = turns.map(|(work, which)| Contestant::new(which, &work.words));
    let mut output = room(&turns.map(|(work, _)| work));
    let mut best = [f64::MAX; N];
    for round in 0..(4_000_000 / turns[0].0.units).clamp(60, 600) {
        for turn in 0..N {
            let i = (round + turn) % N;
            let (work, calls) = (turns[i].0, turns[i].0.calls());
            let began = Instant::now();
            black_box(measured_pass(&mut all[i], calls, &mut output));
            best[i] = best[i].min(began.elapsed().as_nanos() as f64 / work.units as f64);
        }
    }
    best
}

/// Instructions a unit by callgrind; none where valgrind is not there.
fn instructions((work, which): Turn) -> Option<f64> {
    let own = std::env::current_exe().ok()?;
    let out = Command::new("valgrind")
        .args(["--tool=callgrind", "--callgrind-out-file=/dev/null", "--toggle-collect=measured_pass"])
        .arg(own)
        .args(["--count", &work.name, &which.to_string()])
        .output()
        .ok()?;
    let said = String::from_utf8_lossy(&out.stderr).into_owned();
    let line = said.lines().find(|l| l.contains("Collected :"))?.to_string();
    let total: f64 = line.split(':').nth(1)?.trim().parse().ok()?;
    Some(total / work.units as f64)
}

/// Where the library's instructions of a work go, by function.
fn functions(work: &Work) -> Option<String> {
    let own = std::env::current_exe().ok()?;
    let file = own.with_file_name("callgrind.out");
    let asked = [format!("--callgrind-out-file={}", file.display()), "--toggle-collect=measured_pass".to_string()];
    Command::new("valgrind").arg("--tool=callgrind").args(asked).arg(own).args(["--count", &work.name, "0"]).output().ok()?;
    let out = Command::new("callgrind_annotate").arg(&file).output().ok()?;
    let text = String::from_utf8_lossy(&out.stdout).into_owned();
    let shares = text.lines().filter(|l| l.contains("???:")).take(3).filter_map(|l| {
        let share = l.split(['(', ')']).nth(1)?;
        let name = l.split("???:").nth(1)?.split(' ').next()?;
        Some(format!("{name} {share}"))
    });
    Some(shares.collect::<Vec<_>>().join(", "))
}

/// What callgrind runs: a pass of one contestant at one work.
fn counted((work, which): Turn) {
    let mut c = Contestant::new(which, &work.words);
    let mut output = room(&[work]);
    black_box(warm_pass(&mut c, work.calls(), &mut output));
    black_box(measured_pass(&mut c, work.calls(), &mut output));
}

fn figure(n: Option<f64>) -> String {
    n.map_or("-".to_string(), |n| if n < 100.0 { format!("{n:.1}") } else { format!("{n:.0}") })
}

fn ratio(a: Option<f64>, b: Option<f64>) -> String {
    a.zip(b).map_or("-".to_string(), |(a, b)| format!("{:.2}", a / b))
}

fn percent(part: Option<f64>, whole: Option<f64>) -> String {
    part.zip(whole).map_or("-".to_string(), |(p, w)| format!("{:.0} %", 100.0 * p / w))
}

fn head(cells: &[&str]) {
    println!("| {} |\n|{}", cells.join(" | "), "---|".repeat(cells.len()));
}

/// A row of the first table; whether its goal is met.
fn row(work: &Work) -> bool {
    agree(work);
    let [library, rust, c] = measured([0, 1, 2].map(|which| (work, which)));
    let met = library.ns / rust.ns <= work.goal;
    println!(
        "| {} | {} | {} | {} | {:.2} | {:.2} | {} | {} | {} | {} | {} {} |",
        work.name,
        figure(Some(library.ns)),
        figure(Some(rust.ns)),
        figure(Some(c.ns)),
        library.ns / rust.ns,
        library.ns / c.ns,
        figure(library.count),
        figure(rust.count),
        figure(c.count),
        ratio(library.count, rust.count),
        work.goal,
        if met { "met" } else { "MISSED" }
    );
    met
}

fn first_table(all: &[Work]) {
    head(&[
        "per command (or pair, or run, or call)",
        "library ns",
        "Rust ns",
        "C ns",
        "library/Rust",
        "library/C",
        "library instr",
        "Rust instr",
        "C instr",
        "library/Rust instr",
        "goal, library/Rust ns",
    ]);
    let missed: Vec<&Work> = all.iter().filter(|w| !row(w)).collect();
    println!("\n{} goals missed of {}; where the library's instructions go:\n", missed.len(), all.len());
    for work in missed {
        println!("- {}: {}", work.name, functions(work).unwrap_or("no callgrind".to_string()));
    }
}

/// A row of the second table, at `length` commands a run; a run without a command, `empty`, pays for number 1 alone.
fn short_row(empty: &Work, length: usize, work: &Work) {
    agree(work);
    let [library, c, test] = measured([(work, 0), (work, 3), (empty, 0)]);
    let run = |command: f64| command * length as f64;
    println!(
        "| {} | {} | {} | {:.2} | {} | {} | {} | {} | {} |",
        work.name,
        figure(Some(library.ns)),
        figure(Some(c.ns)),
        library.ns / c.ns,
        figure(library.count),
        figure(c.count),
        ratio(library.count, c.count),
        percent(test.count, library.count.map(run)),
        percent(Some(test.ns), Some(run(library.ns))),
    );
}

/// What a soundness test at each call costs where runs are short, and in serving: the C unit here does without.
fn second_table(all: &[Short]) {
    head(&[
        "per command, random slot of a full side, full records (or per call)",
        "library ns",
        "C without the test ns",
        "library/C",
        "library instr",
        "C instr",
        "library/C instr",
        "number 1's share of a call, instr",
        "number 1's share of a call, ns",
    ]);
    for short in all {
        agree(&short.empty);
        short.works.iter().for_each(|(length, work)| short_row(&short.empty, *length, work));
    }
}

/// The works of that name, or of that number in the list.
fn asked(works: Vec<Work>, row: &str) -> Vec<Work> {
    works.into_iter().enumerate().filter(|(i, w)| w.name == row || i.to_string() == row).map(|(_, w)| w).collect()
}

fn list() {
    work::all().iter().enumerate().for_each(|(i, w)| println!("{i} {}", w.name));
    let names: Vec<String> = NAMES.iter().enumerate().map(|(i, n)| format!("{i} {n}")).collect();
    println!("contestants: {}", names.join(", "));
}

fn usage() -> ! {
    eprintln!("bench [--only ROW | --runs | --list | --count ROW CONTESTANT], a row by its number or name, a contestant by its number");
    exit(2)
}

fn main() {
    let args: Vec<String> = std::env::args().skip(1).collect();
    match args.iter().map(String::as_str).collect::<Vec<_>>()[..] {
        [] => {
            first_table(&work::all());
            println!();
            second_table(&work::short());
        }
        ["--only", row] => first_table(&asked(work::all(), row)),
        ["--runs"] => second_table(&work::short()),
        ["--list"] => list(),
        ["--count", row, which] => match (asked(work::every(), row).first(), which.parse()) {
            (Some(work), Ok(which)) => counted((work, which)),
            _ => usage(),
        },
        _ => usage(),
    }
}
