//! What version 4.0 changed in the fixed runs and serves: commands that the strand's mode or the stream does not permit get number 16, and
//! later answers and parts of the same vector follow from that. A line `was` stands before each that changed and has what it was before. The
//! line `sum` ends what stood there before: with each `was` in place of the line behind it, the lines above are those of version 3.0.0.
use crate::vectors::bytes;
use t1mmu::numbers::{ANSWER_BYTES, REFUSED, REFUSED_VALUE};

/// Lines that are for this test alone.
pub fn is_record(line: &str) -> bool {
    line.starts_with("was ") || line.starts_with("sum ")
}

/// An answer; none where the line is another one.
fn answer(line: &str) -> Option<[u8; ANSWER_BYTES]> {
    (line.len() == 2 * ANSWER_BYTES).then(|| bytes(line).try_into().expect("as many bytes"))
}

/// Number 16 now, and before it no refusal, or one that is asked after 16.
fn not_permitted(was: &[u8], is: &[u8]) -> bool {
    let refused_earlier = was[0] == REFUSED && was[1] <= REFUSED_VALUE;
    is[..2] == [REFUSED, 16] && is[2..].iter().all(|b| *b == 0) && !refused_earlier
}

/// FNV-1a, 64 bits.
fn sum<'a>(lines: impl Iterator<Item = &'a str>) -> u64 {
    let add = |sum: u64, byte: u8| (sum ^ byte as u64).wrapping_mul(0x100_0000_01B3);
    lines.fold(0xCBF2_9CE4_8422_2325, |sum, line| line.bytes().chain(*b"\n").fold(sum, add))
}

/// How many answers changed, or what else did.
pub fn count(text: &str) -> Result<usize, String> {
    let (above, below) = text.split_once("\nsum ").ok_or("no line sum")?;
    let (mut before, mut changed, mut refused) = (Vec::new(), 0, false);
    let mut lines = above.lines().filter(|l| !l.is_empty());
    while let Some(line) = lines.next() {
        // what follows does so in the same vector
        refused &= !line.starts_with("# ");
        let Some(was) = line.strip_prefix("was ") else {
            before.push(line);
            continue;
        };
        let is = lines.next().unwrap_or("");
        let answers = answer(was).zip(answer(is));
        let parts = was.starts_with("part ") && is.starts_with("part ");
        refused |= answers.is_some_and(|(was, is)| not_permitted(&was, &is));
        if was == is || answers.is_none() && !parts || !refused {
            return Err(format!("more than number 16: {was}, now {is}"));
        }
        before.push(was);
        changed += 1;
    }
    let sum = format!("{:016x}", sum(before.into_iter()));
    if below.lines().next() == Some(&sum) { Ok(changed) } else { Err(format!("these are not the lines of version 3.0.0: sum {sum}")) }
}
