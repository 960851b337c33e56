// Tallies that every call must refuse, as they cross: out of order by one number, or in ways that keep some of the sums, and numbers that are no
// tally's at all.

use crate::bridge::State;
use crate::plain::LIMIT;
use crate::stream::Random;
use crate::tally::{Tally, BY_BITS, FRAME, NUMBERS, OPERATORS};

// Where the copies and the flags stand among the numbers; all others are counts.
const COPIES: [usize; 2] = [6, 7];
const FLAGS: [usize; 2] = [13, 15];

const HUGE: [u64; 5] = [LIMIT + 1, 1 << 62, 1 << 63, u64::MAX, u64::MAX - 3];

fn huge(r: &mut Random) -> u64 {
    HUGE[r.below(HUGE.len())]
}

// Raises bytes and FILL alike, which keeps a tally's sums.
pub fn fill_up_to(t: &mut Tally, bytes: u64) {
    let more = bytes.wrapping_sub(t.bytes);
    t.bytes = bytes;
    t.fill = t.fill.wrapping_add(more);
}

// More major frames, with all that they are made of: every sum but that of the operators' counts is kept.
fn more_majors(t: &mut Tally, majors: u64) {
    let good = FRAME as u64 * majors;
    let voted = FRAME as u64 * good;
    t.majors += majors;
    t.good += good;
    t.voted += voted;
    t.bytes += 4 * voted;
}

// What a tally in order may have more of: major frames paid to an operator, FILL, and weak copies.
pub struct More {
    majors: u64,
    operator_number: usize,
    fill: u64,
    weak: [u64; 3],
}

impl More {
    // Up to so many bytes, and as many weak copies as voted groups.
    pub fn up_to(r: &mut Random, t: &Tally, bytes: u64) -> More {
        let mut more = More { majors: r.next() % (1 << 23), operator_number: r.below(OPERATORS), fill: 0, weak: [0; 3] };
        let mut with_majors = *t;
        more.add_to(&mut with_majors);
        more.fill = bytes - with_majors.bytes;
        more.weak[r.below(3)] = with_majors.voted - t.weak.iter().sum::<u64>();
        more
    }

    pub fn add_to(&self, t: &mut Tally) {
        more_majors(t, self.majors);
        t.paid[self.operator_number] += self.majors;
        t.bytes += self.fill;
        t.fill += self.fill;
        t.weak.iter_mut().zip(self.weak).for_each(|(weak, more)| *weak += more);
    }
}

// A number too large for its copy or flag: the least such, a good one with bits above it, or a huge one.
pub fn no_tally(r: &mut Random, s: &mut State) {
    let (places, above) = if r.one_in(2) { (COPIES, 256) } else { (FLAGS, 2) };
    let number = &mut s.numbers[places[r.below(2)]];
    *number = match r.below(4) {
        0 => above,
        1 => *number + above * (1 + r.below(3) as u64),
        2 => *number + (1 << 32),
        _ => huge(r),
    };
}

// Numbers of any size, of which few lists are a tally's.
pub fn any_numbers(r: &mut Random, s: &mut State) {
    s.numbers.iter_mut().for_each(|n| *n = r.next() >> r.below(64));
}

// Changes a count, or several so that some of the sums are kept; likely to be out of order then.
pub fn out_of_order(r: &mut Random, s: &mut State) {
    if r.one_in(6) {
        one_count(r, &mut s.numbers);
    } else if let Some(mut t) = s.tally() {
        some_counts(r, &mut t);
        *s = State::of(&t);
    }
}

fn one_count(r: &mut Random, numbers: &mut [u64; NUMBERS]) {
    let counts: Vec<usize> = (0..NUMBERS).filter(|at| !COPIES.contains(at) && !FLAGS.contains(at)).collect();
    let number = &mut numbers[counts[r.below(counts.len())]];
    *number = if r.one_in(2) { number.wrapping_add(1) } else { huge(r) };
}

fn some_counts(r: &mut Random, t: &mut Tally) {
    match r.below(20) {
        0 => fill_up_to(t, huge(r)),
        1 => t.hunting = !t.hunting,
        2 => t.erasure = !t.erasure,
        3 => t.matched = r.below(5) as u64,
        // Sums that hold modulo 2^64 only.
        4 => t.voted = t.voted.wrapping_add(1 << 62),
        5 => {
            t.voted = t.voted.wrapping_add(1 << 62);
            t.hunted = t.hunted.wrapping_add(1 << 62);
        }
        // Sums that hold, beyond the bound of one part.
        6 => {
            t.open += 4;
            t.bytes += 4;
        }
        7 => {
            t.placed += 128;
            t.unsynced = t.unsynced.wrapping_sub(1);
        }
        8 => {
            t.building += 128;
            t.majors = t.majors.wrapping_sub(1);
            if let Some(paid) = t.paid.iter_mut().find(|paid| **paid != 0) {
                *paid -= 1;
            }
        }
        // One weak copy more than voted groups; far more of them, by a sum that holds modulo 2^64 only.
        9 => t.weak[r.below(3)] += t.voted + 1 - t.weak.iter().sum::<u64>(),
        10 => t.weak = [1 << 63, 1 << 63, t.weak[2]],
        // Nobody on duty who can be.
        11 => t.duty = if r.one_in(2) { OPERATORS as u64 } else { huge(r) },
        // A major frame that nobody was paid, one paid for none, one paid twice.
        12 => more_majors(t, 1),
        13 => t.paid[r.below(OPERATORS)] += 1,
        14 => {
            more_majors(t, 1);
            t.paid[r.below(OPERATORS)] += 2;
        }
        // Operators' counts that add up modulo 2^64 only.
        15 => {
            let more = huge(r);
            let first = r.below(OPERATORS);
            let second = (first + 1 + r.below(OPERATORS - 1)) % OPERATORS;
            t.paid[first] = t.paid[first].wrapping_add(more);
            t.paid[second] = t.paid[second].wrapping_sub(more);
        }
        // No rule, and a split group under the vote by bits.
        16 => t.rule = [0, 3, 256 + t.rule, huge(r)][r.below(4)],
        17 | 18 if t.split != 0 => t.rule = BY_BITS,
        17 | 18 if t.voted > t.weak.iter().sum() => {
            t.rule = BY_BITS;
            t.voted -= 1;
            t.split += 1;
        }
        _ => {
            t.loose = t.loose.wrapping_sub(1);
            t.building += 1;
        }
    }
}
