//! One stream through the model, the ledger and the library: every state word, every output byte, the report, every part handed back.
use crate::command::{decode, disassembly, width};
use crate::coverage::Coverage;
use crate::generate::{Run, Scene};
use crate::guests;
use crate::ledger::Ledger;
use crate::library;
use crate::model::{self, Model, Part, Report};
use crate::random::Random;
use crate::record::{outcomes_at, seen_at};
use crate::states::{self, Start};
use crate::tables::Miss;
use t1mmu::numbers::{cell_at, slot_at, ANSWER_BYTES, CELLS, SIDES, SLOTS, SLOT_WORDS, STATE_WORDS, STRANDS};
use t1mmu::{pack, unpack, Tte};

const GUARD: usize = 64;

/// What a caller does next.
pub enum Step {
    Run(Run),
    /// hand back, then serve
    Serve(Miss),
}

pub struct Stream {
    pub seed: u64,
    pub start: Start,
    pub words: Vec<u64>,
    pub steps: Vec<Step>,
}

impl Stream {
    pub fn runs(&self) -> impl Iterator<Item = &Run> {
        self.steps.iter().filter_map(|step| match step {
            Step::Run(run) => Some(run),
            Step::Serve(_) => None,
        })
    }
}

#[derive(Default)]
pub struct Counts {
    pub streams: u64,
    pub runs: u64,
    pub serves: u64,
    pub commands: u64,
    pub states: u64,
    /// answers that the ledger gave beforehand
    pub predicted: u64,
}

const OTHER_STARTS: [Start; 13] = [
    Start::Sound,
    Start::Sound,
    Start::Sound,
    Start::Sound,
    Start::FlippedBit,
    Start::FlippedBit,
    Start::RandomWord,
    Start::PlantedOverlap,
    Start::DirtyEmptySlot,
    Start::RandomCell,
    Start::BadPage,
    Start::BadRecord,
    Start::WrongLength,
];

/// The stream of a seed.
pub fn stream(seed: u64) -> Stream {
    let mut r = Random::new(seed);
    let scene = Scene::new(&mut r);
    let start = match r.below(100) {
        _ if scene.guests => Start::Sound,
        0..=49 => Start::Reset,
        50 => Start::Noise,
        _ => r.pick(&OTHER_STARTS),
    };
    let words = states::words(&mut r, &scene, start);
    let runs = 1 + r.below(4);
    let each = r.pick(&[3, 20, 60, 200]);
    let misses = r.pick(&[0, 0, 1, 2, 4]);
    // what the runs so far leave; a serve writes no register
    let mut state = Model::from_words(&words).unwrap_or_else(Model::reset);
    let mut steps = Vec::new();
    for i in 0..runs {
        let run = scene.run(&mut r, &state, i == 0 && start == Start::Reset, each);
        take(&mut state, &run);
        steps.push(Step::Run(run));
        for _ in 0..misses {
            let (before, miss, after) = scene.miss(&mut r, &state);
            [&before, &after].into_iter().for_each(|run| take(&mut state, run));
            steps.extend([Step::Run(before), Step::Serve(miss), Step::Run(after)]);
        }
    }
    Stream { seed, start, words, steps }
}

fn take(state: &mut Model, run: &Run) {
    state.run_commands(run.hypervisor, &run.input, &mut vec![0; run.room]);
    state.events.clear();
}

/// Memory with guard cells on both sides, all filled with a pattern.
struct Guarded<T> {
    cells: Vec<T>,
    length: usize,
}

impl<T: Copy> Guarded<T> {
    fn new(length: usize, mut fill: impl FnMut() -> T) -> Self {
        Guarded { cells: (0..length + 2 * GUARD).map(|_| fill()).collect(), length }
    }

    fn inner(&mut self) -> &mut [T] {
        &mut self.cells[GUARD..GUARD + self.length]
    }
}

fn first_difference<T: PartialEq + std::fmt::LowerHex>(what: &str, model: &[T], library: &[T]) -> Result<(), String> {
    match model.iter().zip(library).position(|(m, l)| m != l) {
        None => Ok(()),
        Some(i) => {
            let at = i as isize - GUARD as isize;
            Err(format!("{what} {at}: model {:#x}, library {:#x}", model[i], library[i]))
        }
    }
}

/// Where a state word stands, in words.
fn place(at: isize) -> String {
    const NAMES: [&str; SLOT_WORDS] = ["owner", "page", "word", "flags"];
    let is = |i: usize| i as isize == at;
    for strand in 0..STRANDS {
        if let Some(register) = (0..CELLS as u8).find(|n| is(cell_at(strand, *n))) {
            return format!("strand {strand} register {register}");
        }
    }
    for (side, slot) in (0..SIDES).flat_map(|side| (0..SLOTS).map(move |slot| (side, slot))) {
        if let Some(word) = (0..SLOT_WORDS).find(|w| is(slot_at(side, slot) + w)) {
            return format!("side {side} slot {slot} {}", NAMES[word]);
        }
    }
    for (strand, side) in (0..STRANDS).flat_map(|strand| (0..SIDES).map(move |side| (strand, side))) {
        if is(seen_at(strand, side)) {
            return format!("strand {strand} side {side} lookups seen");
        }
        if let Some(word) = outcomes_at(strand, side).into_iter().position(is) {
            return format!("strand {strand} side {side} outcomes, word {word}");
        }
    }
    "outside the state".to_string()
}

fn state_difference(ours: &Guarded<u64>, theirs: &Guarded<u64>) -> Result<(), String> {
    match ours.cells.iter().zip(&theirs.cells).position(|(m, l)| m != l) {
        None => Ok(()),
        Some(i) => {
            let at = i as isize - GUARD as isize;
            Err(format!("state word {at} ({}): model {:#x}, library {:#x}", place(at), ours.cells[i], theirs.cells[i]))
        }
    }
}

/// A stream on its way: the words that the last step left, the ledger where it began at reset, and what is counted.
struct Walk<'a> {
    words: Vec<u64>,
    ledger: Option<Ledger>,
    r: Random,
    coverage: &'a mut Coverage,
    counts: &'a mut Counts,
}

impl Walk<'_> {
    /// The state between guards, for the model and for the library.
    fn lent_words(&mut self) -> [Guarded<u64>; 2] {
        let mut ours = Guarded::new(self.words.len(), || self.r.next());
        ours.inner().copy_from_slice(&self.words);
        let theirs = Guarded { cells: ours.cells.clone(), length: ours.length };
        [ours, theirs]
    }

    fn step(&mut self, step: &Step) -> Result<(), String> {
        self.counts.states += 1;
        match step {
            Step::Run(run) => self.run(run).map_err(|e| format!("a run: {e}")),
            Step::Serve(miss) => self.serve(miss).map_err(|e| format!("a serve: {e}")),
        }
    }

    fn run(&mut self, run: &Run) -> Result<(), String> {
        let (report, answers) = self.compare_run(run)?;
        self.counts.runs += 1;
        self.counts.commands += report.answered as u64;
        let mut at = 0;
        for answer in answers.chunks(ANSWER_BYTES) {
            self.coverage.answer(run.input[at], answer);
            at += width(run.input[at]).expect("taken, so known");
        }
        self.ledger.as_mut().map_or(Ok(()), |ledger| compare_ledger(ledger, run, &answers, self.counts))
    }

    fn compare_run(&mut self, run: &Run) -> Result<(Report, Vec<u8>), String> {
        let [mut ours, mut theirs] = self.lent_words();
        let mut out_ours = Guarded::new(run.room, || self.r.next() as u8);
        let mut out_theirs = Guarded { cells: out_ours.cells.clone(), length: run.room };
        let input = run.input.clone();
        let (report, events) = model::run(ours.inner(), run.hypervisor, &run.input, out_ours.inner());
        let got = library::run(theirs.inner(), run.hypervisor, &input, out_theirs.inner());
        if report != got {
            return Err(format!("report: model {report:?}, library {got:?}"));
        }
        first_difference("output byte", &out_ours.cells, &out_theirs.cells)
            .map_err(|e| format!("{e} (answers have {ANSWER_BYTES} bytes each)"))?;
        state_difference(&ours, &theirs)?;
        if input != run.input {
            return Err("the input was written".to_string());
        }
        let confined = guests::confined(&self.words, run, report.taken, theirs.inner())?;
        self.coverage.confined(&confined);
        self.words.copy_from_slice(theirs.inner());
        self.coverage.stop(report.stop);
        self.coverage.events(&events);
        Ok((report, out_theirs.inner()[..ANSWER_BYTES * report.answered].to_vec()))
    }

    fn serve(&mut self, miss: &Miss) -> Result<(), String> {
        let lent = [miss.zero.bytes(), miss.other.bytes()];
        let tables = [&lent[0][..], &lent[1][..]];
        let (part, answer) = self.compare_serve(miss, tables)?;
        self.counts.serves += 1;
        let Some(ledger) = &mut self.ledger else { return Ok(()) };
        self.counts.predicted += 1;
        compare_ledger_serve(ledger, miss, tables, part, &answer)
    }

    /// Hand back, which has to leave all as it is, then the serve; what the library gave.
    fn compare_serve(&mut self, miss: &Miss, tables: [&[u8]; 2]) -> Result<(Part, [u8; ANSWER_BYTES]), String> {
        let [mut ours, mut theirs] = self.lent_words();
        let part = model::hand_back(ours.inner(), miss.strand, miss.side, tables);
        let got = library::hand_back(theirs.inner(), miss.strand, miss.side, tables);
        if part != got {
            return Err(format!("part: model {part:?}, library {got:?}"));
        }
        state_difference(&ours, &theirs).map_err(|e| format!("hand back: {e}"))?;
        let (answer, events) = model::serve(ours.inner(), miss.strand, miss.side, tables);
        let got = library::serve(theirs.inner(), miss.strand, miss.side, tables);
        if answer != got {
            return Err(format!("answer: model {answer:02x?}, library {got:02x?}"));
        }
        state_difference(&ours, &theirs)?;
        if tables != [&miss.zero.bytes()[..], &miss.other.bytes()[..]] {
            return Err("a table was written".to_string());
        }
        self.words.copy_from_slice(theirs.inner());
        self.coverage.served(part.number, &answer, &events);
        Ok((part, answer))
    }
}

/// The ledger's answers to the commands that a run took, against the library's bytes.
fn compare_ledger(ledger: &mut Ledger, run: &Run, answers: &[u8], counts: &mut Counts) -> Result<(), String> {
    let mut at = 0;
    for (i, answer) in answers.chunks(ANSWER_BYTES).enumerate() {
        let given = ledger.answer(decode(&run.input[at..]), run.hypervisor, answer);
        if given.as_ref().map(|b| &b[..]) != Some(answer) {
            return Err(format!("answer {i} (input byte {at}): ledger {given:02x?}, library {answer:02x?}"));
        }
        counts.predicted += 1;
        at += width(run.input[at]).expect("taken, so known");
    }
    Ok(())
}

/// The ledger's part and answer, against the library's.
fn compare_ledger_serve(ledger: &mut Ledger, miss: &Miss, tables: [&[u8]; 2], part: Part, answer: &[u8; ANSWER_BYTES]) -> Result<(), String> {
    let [zero, other] = tables;
    let given = ledger.hands_back(miss.strand, miss.side, zero, other);
    let got = match part.number {
        0 => Ok(&tables[part.other as usize][part.start..part.start + part.length]),
        number => Err(number),
    };
    if given != got {
        return Err(format!("part: ledger {given:02x?}, library {got:02x?}"));
    }
    let given = ledger.serves(miss.strand, miss.side, zero, other, answer);
    if given.as_ref() != Some(answer) {
        return Err(format!("answer: ledger {given:02x?}, library {answer:02x?}"));
    }
    Ok(())
}

fn compare_reset(length: usize, r: &mut Random) -> Result<(), String> {
    let mut theirs = Guarded::new(length, || r.next());
    let mut expected = theirs.cells.clone();
    let number = library::reset(theirs.inner());
    if length == STATE_WORDS {
        expected[GUARD..GUARD + length].copy_from_slice(&Model::reset().to_words());
    }
    if number != (length != STATE_WORDS) as u8 {
        return Err(format!("reset of {length} words gave {number}"));
    }
    first_difference("reset word", &expected, &theirs.cells)
}

/// Takes a stream through all three.
pub fn compare(stream: &Stream, coverage: &mut Coverage, counts: &mut Counts) -> Result<(), String> {
    let mut r = Random::new(stream.seed ^ 0x5151);
    let words = stream.words.clone();
    let ledger = (stream.start == Start::Reset).then(Ledger::reset);
    compare_reset(words.len(), &mut r)?;
    coverage.start(stream.start, Model::from_words(&words).is_some());
    counts.streams += 1;
    let mut walk = Walk { words, ledger, r, coverage, counts };
    stream.steps.iter().enumerate().try_for_each(|(i, step)| walk.step(step).map_err(|e| format!("step {i}, {e}")))
}

/// High and low bit of each field of an entry word, in the order of `Tte`.
const FIELDS: [(u32, u32); 13] =
    [(63, 63), (62, 62), (61, 56), (55, 13), (12, 12), (11, 11), (10, 10), (9, 9), (8, 8), (7, 7), (6, 6), (5, 4), (3, 0)];

fn from_fields([v, nfo, soft2, address, ie, e, cp, cv, p, ep, w, soft, size]: [u64; 13]) -> Tte {
    Tte { v, nfo, soft2, address, ie, e, cp, cv, p, ep, w, soft, size }
}

/// Entry words taken apart and put together; `n` random ones and each single bit.
pub fn compare_words(n: u64, seed: u64) -> Result<u64, String> {
    let mut r = Random::new(seed);
    let random: Vec<u64> = (0..n).map(|_| r.next()).collect();
    for word in random.into_iter().chain((0..64).map(|b| 1 << b)).chain([0, u64::MAX]) {
        let expected = FIELDS.map(|(high, low)| word >> low & (u64::MAX >> (63 - (high - low))));
        let got = unpack(word);
        if got != from_fields(expected) {
            return Err(format!("unpack {word:#x}: expected {:x?}, library {got:x?}", from_fields(expected)));
        }
        // Bits past a field's width are not taken.
        let mut fields = expected;
        for (field, (high, low)) in fields.iter_mut().zip(FIELDS) {
            *field |= if r.percent(30) { (r.next() << (high - low)) << 1 } else { 0 };
        }
        let packed = pack(from_fields(fields));
        if packed != word {
            return Err(format!("pack {fields:x?}: expected {word:#x}, library {packed:#x}"));
        }
    }
    Ok(n + 66)
}

/// A failing stream with as few commands as cutting one after the other leaves; the difference may become another one.
pub fn shrink(stream: &mut Stream) {
    let differs = |s: &Stream| compare(s, &mut Coverage::default(), &mut Counts::default()).is_err();
    let mut i = stream.steps.len();
    while i > 0 {
        i -= 1;
        let step = stream.steps.remove(i);
        if !differs(stream) {
            stream.steps.insert(i, step);
        }
    }
    for i in 0..stream.steps.len() {
        shrink_run(stream, i, &differs);
    }
}

fn shrink_run(stream: &mut Stream, i: usize, differs: &dyn Fn(&Stream) -> bool) {
    let Step::Run(Run { hypervisor, input, room }) = &stream.steps[i] else { return };
    let (hypervisor, mut whole, room) = (*hypervisor, input.clone(), *room);
    let mut starts = Vec::new();
    let mut at = 0;
    while let Some(w) = whole.get(at).and_then(|&b| width(b)) {
        starts.push((at, w));
        at += w;
    }
    for &(at, w) in starts.iter().rev() {
        let end = (at + w).min(whole.len());
        let cut = [&whole[..at], &whole[end..]].concat();
        stream.steps[i] = Step::Run(Run { hypervisor, input: cut.clone(), room });
        if differs(stream) {
            whole = cut;
        }
    }
    stream.steps[i] = Step::Run(Run { hypervisor, input: whole, room });
}

/// The failing case for a reader.
pub fn told(stream: &Stream, error: &str) -> String {
    let mut text = format!("seed {:#x}, start {:?}: {error}\n", stream.seed, stream.start);
    for (i, step) in stream.steps.iter().enumerate() {
        text += &match step {
            Step::Run(run) => {
                let of = if run.hypervisor { " of the hypervisor" } else { "" };
                format!(" step {i}, a run{of}, room {}\n{}", run.room, disassembly(&run.input))
            }
            Step::Serve(miss) => format!(" step {i}, a serve\n{}", miss.told()),
        };
    }
    text
}
