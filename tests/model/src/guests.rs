//! What document 02's U6 wants stated, on the words before and after a run. Guests are the strands that an unmarked stream names, while all
//! of them are in modes below 2: they change neither partition nor mode of any strand (nor, beyond the request, its translation), and a
//! locked entry stays unless it belongs to the partition of one of them. Held by every run alone, it is held by every list of them.
use crate::command::{decode, strand_of, width};
use crate::generate::Run;
use t1mmu::numbers::{cell_at, slot_at, HYPERPRIVILEGED, MODE, PARTITION, SIDES, SLOTS, SLOT_WORDS, STATE_WORDS, STRANDS, TRANSLATION};

/// A side under a run of guests.
#[derive(Clone, Copy, Debug, PartialEq)]
pub struct Confined {
    /// locked entries of partitions that are not the guests', all of them kept
    pub kept: usize,
    /// of partitions that are, and gone
    pub lost: usize,
    pub full: bool,
    pub changed: bool,
}

/// A slot of the words: owner, page, entry word, flags.
type Slot<'a> = &'a [u64];

fn slots(words: &[u64], side: usize) -> impl Iterator<Item = Slot<'_>> {
    words[slot_at(side, 0)..slot_at(side, SLOTS)].chunks(SLOT_WORDS)
}

fn partition(slot: Slot) -> u64 {
    slot[0] >> 14
}

/// Live and locked. Of the flags the lock is bit 0; the other one, the used bit, may change.
fn locked(slot: &Slot) -> bool {
    slot[2] >> 63 == 1 && slot[3] & 1 == 1
}

/// The strands that the commands taken name, by number; a byte above 3 names none.
fn named(input: &[u8]) -> Vec<usize> {
    let (mut at, mut all) = (0, Vec::new());
    while at < input.len() {
        all.extend(strand_of(decode(&input[at..])).map(usize::from).filter(|strand| *strand < STRANDS && !all.contains(strand)));
        at += width(input[at]).expect("taken, so known");
    }
    all
}

/// Both sides under a run of guests; nothing of another run, and an error where the guests were not confined.
pub fn confined(before: &[u64], run: &Run, taken: usize, after: &[u64]) -> Result<Vec<Confined>, String> {
    if run.hypervisor || taken == 0 || before.len() != STATE_WORDS {
        return Ok(Vec::new());
    }
    let named = named(&run.input[..taken]);
    if named.iter().any(|strand| before[cell_at(*strand, MODE)] == HYPERPRIVILEGED) {
        return Ok(Vec::new());
    }
    for strand in 0..STRANDS {
        if let Some(register) = [PARTITION, MODE, TRANSLATION].into_iter().find(|n| before[cell_at(strand, *n)] != after[cell_at(strand, *n)]) {
            return Err(format!("guests changed register {register} of strand {strand}"));
        }
    }
    let partitions: Vec<u64> = named.iter().map(|strand| before[cell_at(*strand, PARTITION)]).collect();
    (0..SIDES).map(|side| confined_on(side, before, &partitions, after)).collect()
}

fn confined_on(side: usize, before: &[u64], partitions: &[u64], after: &[u64]) -> Result<Confined, String> {
    let lives = |slot: &Slot| slots(after, side).any(|s| locked(&s) && s[..3] == slot[..3]);
    let (own, others): (Vec<Slot>, Vec<Slot>) = slots(before, side).filter(locked).partition(|slot| partitions.contains(&partition(slot)));
    if let Some(lost) = others.iter().find(|slot| !lives(slot)) {
        return Err(format!("guests of partitions {partitions:?} lost a locked entry on side {side}: {lost:#x?}"));
    }
    Ok(Confined {
        kept: others.len(),
        lost: own.iter().filter(|slot| !lives(slot)).count(),
        full: slots(before, side).all(|slot| slot[2] >> 63 == 1),
        changed: slots(before, side).ne(slots(after, side)),
    })
}
