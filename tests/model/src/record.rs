//! The lookups of a strand on a side as document 02's U5 has them kept: the outcomes of the last ones by age, and the words that hold them.
use crate::broken::{self, Broken};
use std::collections::VecDeque;
use t1mmu::numbers::{record_of, KEPT_LOOKUPS, NEWEST, OLDER, OLDER_WORDS, SEEN};

/// The outcomes of a word.
const OUTCOMES: usize = u64::BITS as usize;

/// The most that the word of the count may hold: past those kept it goes on by the outcomes in the newest word.
pub const SEEN_MOST: usize = KEPT_LOOKUPS + OUTCOMES;

#[derive(Clone, Debug, Default, PartialEq)]
pub struct Record {
    /// The lookups since reset. Read from words, past those kept, only how many of them are in the newest word is known.
    count: usize,
    /// Whether each lookup kept was a miss, the latest first.
    missed: VecDeque<bool>,
}

/// Where in a state the count of a record stands.
pub fn seen_at(strand: usize, side: usize) -> usize {
    SEEN + record_of(strand, side)
}

/// Where in a state its outcomes stand: the newest word, then the older ones.
pub fn outcomes_at(strand: usize, side: usize) -> [usize; 1 + OLDER_WORDS] {
    let record = record_of(strand, side);
    std::array::from_fn(|word| if word == 0 { NEWEST + record } else { OLDER + OLDER_WORDS * record + word - 1 })
}

/// How many outcomes the newest word has got; a full one stays until the next lookup.
fn fresh(count: usize) -> usize {
    if count == 0 { 0 } else { (count - 1) % OUTCOMES + 1 }
}

/// The word and bit of the outcome that so many came after. The latest are in word 0, and above them the oldest, for which no word is left.
fn place(count: usize, age: usize) -> (usize, usize) {
    let fresh = fresh(count);
    if age < fresh {
        return (0, age);
    }
    match ((age - fresh) / OUTCOMES, (age - fresh) % OUTCOMES) {
        (OLDER_WORDS, bit) => (0, fresh + bit),
        (older, bit) => (1 + older, bit),
    }
}

impl Record {
    /// The record of as many lookups as there are outcomes, oldest first.
    pub fn of(outcomes: impl IntoIterator<Item = bool>) -> Record {
        let mut record = Record::default();
        outcomes.into_iter().for_each(|missed| record.note(missed));
        record
    }

    /// The record that the words hold; none where the count is too high, or a bit is set that is of no lookup kept.
    pub fn from_words(words: &[u64], strand: usize, side: usize) -> Option<Record> {
        let count = usize::try_from(words[seen_at(strand, side)]).ok().filter(|n| *n <= SEEN_MOST)?;
        let outcomes = outcomes_at(strand, side).map(|at| words[at]);
        let missed = |age: usize| {
            let (word, bit) = place(count, age);
            outcomes[word] >> bit & 1 == 1
        };
        let record = Record { count, missed: (0..count.min(KEPT_LOOKUPS)).map(missed).collect() };
        let bits: u32 = outcomes.iter().map(|word| word.count_ones()).sum();
        (record.misses(KEPT_LOOKUPS) == bits as usize).then_some(record)
    }

    pub fn to_words(&self, words: &mut [u64], strand: usize, side: usize) {
        let past = self.count > KEPT_LOOKUPS;
        words[seen_at(strand, side)] = if past { KEPT_LOOKUPS + fresh(self.count) } else { self.count } as u64;
        let at = outcomes_at(strand, side);
        at.iter().for_each(|at| words[*at] = 0);
        for (age, missed) in self.missed.iter().enumerate() {
            let (word, bit) = place(self.count, age);
            words[at[word]] |= (*missed as u64) << bit;
        }
    }

    pub fn note(&mut self, missed: bool) {
        self.count += 1;
        self.missed.push_front(missed);
        self.missed.truncate(KEPT_LOOKUPS);
    }

    /// Among the latest lookups, as many as are taken.
    fn misses(&self, taken: usize) -> usize {
        self.missed.iter().take(taken).filter(|missed| **missed).count()
    }

    pub fn is_empty(&self) -> bool {
        self.missed.is_empty()
    }

    pub fn is_full(&self) -> bool {
        self.missed.len() == KEPT_LOOKUPS
    }

    /// Misses per thousand of the lookups kept, rounded down; there is one at least.
    pub fn rate(&self) -> u64 {
        let taken = self.missed.len().min(if broken::is(Broken::RateOfLast1023) { KEPT_LOOKUPS - 1 } else { KEPT_LOOKUPS });
        let up = if broken::is(Broken::RateRoundedUp) { taken - 1 } else { 0 };
        ((1000 * self.misses(taken) + up) / taken) as u64
    }
}
