// The tally as papers 01 and 02 list it, and the values of the stream that every reader here needs.

pub const SYNC: u8 = 0x16;
pub const FILL: u8 = 0x32;
pub const FRAME_SYNC: [u8; 3] = [0xFA, 0xF3, 0x20];
pub const FRAME: usize = 128;
pub const NUMBER_PLACE: usize = 65;
pub const AREA: usize = 16_384;

// The most that a count may be.
const LIMIT: u64 = 1 << 40;
const WIDE: u64 = 1 << 50;

// A tally crosses as so many numbers and its frame.
pub const NUMBERS: usize = 33;

// Paper 02, request 5: operators are numbered 0 to 7.
pub const OPERATORS: usize = 8;

// Paper 02, request 6: a word is voted by bytes or by bits.
pub const BY_BYTES: u64 = 1;
pub const BY_BITS: u64 = 2;

#[derive(Clone, Copy, Debug, PartialEq, Eq)]
pub struct Tally {
    pub bytes: u64,
    pub fill: u64,
    pub stray: u64,
    pub voted: u64,
    pub split: u64,
    pub open: u64,
    pub first: u8,
    pub second: u8,
    pub hunted: u64,
    pub good: u64,
    pub damaged: u64,
    pub unsynced: u64,
    pub placed: u64,
    pub hunting: bool,
    pub matched: u64,
    pub erasure: bool,
    pub majors: u64,
    pub broken: u64,
    pub loose: u64,
    pub building: u64,
    // How often each copy of a voted group was outvoted by the two others.
    pub weak: [u64; 3],
    // The major frames paid to each operator, and who is on duty.
    pub paid: [u64; OPERATORS],
    pub duty: u64,
    pub rule: u64,
    pub frame: [u8; FRAME],
}

impl Tally {
    pub fn fresh(rule: u64) -> Tally {
        Tally {
            bytes: 0,
            fill: 0,
            stray: 0,
            voted: 0,
            split: 0,
            open: 0,
            first: 0,
            second: 0,
            hunted: 0,
            good: 0,
            damaged: 0,
            unsynced: 0,
            placed: 0,
            hunting: true,
            matched: 0,
            erasure: false,
            majors: 0,
            broken: 0,
            loose: 0,
            building: 0,
            weak: [0; 3],
            paid: [0; OPERATORS],
            duty: 0,
            rule,
            frame: [0; FRAME],
        }
    }

    // Papers 01 and 02: each count within the limit, the sums, and what goes with hunting, the operators and the rule.
    #[inline(never)]
    pub fn in_order(&self) -> bool {
        // All but the bytes are held to a wider bound, joined by `|`, so that no sum runs over; the sums hold them to the limit.
        let narrow = |counts: &[u64]| counts.iter().fold(0, |all, n| all | n) <= WIDE;
        self.bytes <= LIMIT
            && narrow(&[self.fill, self.stray, self.voted, self.split])
            && self.open <= 3
            && self.bytes == self.fill + self.stray + 4 * (self.voted + self.split) + self.open
            && narrow(&self.weak)
            && self.weak.iter().sum::<u64>() <= self.voted
            && narrow(&[self.hunted, self.good, self.damaged, self.unsynced])
            && self.placed < FRAME as u64
            && self.matched <= 2
            && self.voted + self.split == self.hunted + FRAME as u64 * (self.good + self.damaged + self.unsynced) + self.placed
            && narrow(&[self.majors, self.broken, self.loose])
            && self.building < FRAME as u64
            && self.good == FRAME as u64 * self.majors + self.broken + self.loose + self.building
            && narrow(&self.paid)
            && self.paid.iter().sum::<u64>() == self.majors
            && self.duty < OPERATORS as u64
            && (self.hunting || self.matched == 0)
            && !(self.hunting && (self.placed != 0 || self.building != 0))
            && !(self.erasure && self.placed == 0)
            && (self.rule == BY_BYTES || self.rule == BY_BITS && self.split == 0)
    }

    // The numbers in the order in which they cross.
    pub fn numbers(&self) -> [u64; NUMBERS] {
        [
            self.bytes,
            self.fill,
            self.stray,
            self.voted,
            self.split,
            self.open,
            self.first.into(),
            self.second.into(),
            self.hunted,
            self.good,
            self.damaged,
            self.unsynced,
            self.placed,
            self.hunting.into(),
            self.matched,
            self.erasure.into(),
            self.majors,
            self.broken,
            self.loose,
            self.building,
            self.weak[0],
            self.weak[1],
            self.weak[2],
            self.paid[0],
            self.paid[1],
            self.paid[2],
            self.paid[3],
            self.paid[4],
            self.paid[5],
            self.paid[6],
            self.paid[7],
            self.duty,
            self.rule,
        ]
    }

    // The tally whose numbers these are: none where a copy is no byte or a flag is neither 0 nor 1.
    pub fn of_numbers(numbers: &[u64; NUMBERS], frame: &[u8; FRAME]) -> Option<Tally> {
        let [bytes, fill, stray, voted, split, open, first, second, rest @ ..] = *numbers;
        let [hunted, good, damaged, unsynced, placed, hunting, matched, erasure, majors, broken, loose, building, rest @ ..] = rest;
        let [weak1, weak2, weak3, paid @ .., duty, rule] = rest;
        Some(Tally {
            bytes,
            fill,
            stray,
            voted,
            split,
            open,
            first: first.try_into().ok()?,
            second: second.try_into().ok()?,
            hunted,
            good,
            damaged,
            unsynced,
            placed,
            hunting: flag(hunting)?,
            matched,
            erasure: flag(erasure)?,
            majors,
            broken,
            loose,
            building,
            weak: [weak1, weak2, weak3],
            paid,
            duty,
            rule,
            frame: *frame,
        })
    }
}

fn flag(number: u64) -> Option<bool> {
    match number {
        0 => Some(false),
        1 => Some(true),
        _ => None,
    }
}
