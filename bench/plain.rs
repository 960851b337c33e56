// An independent reader over whole lists, written from papers 01 and 02 and docs/DECISIONS.md. It is meant to be read beside the paper, not to be
// fast: bytes are cut into groups, words into hunted stretches and frames, closed frames into runs, and every count is a count of pieces.

use crate::tally::{Tally, AREA, BY_BITS, BY_BYTES, FILL, FRAME, FRAME_SYNC, NUMBER_PLACE, OPERATORS, SYNC};

// No count of a tally is above this.
pub const LIMIT: u64 = 1 << 40;

#[derive(Clone, Copy, PartialEq, Eq)]
pub enum Label {
    Fill,
    Stray,
    Voted,
    Split,
    Open,
}

// A voted word, or none where the vote by bytes gives none: all three copies differ.
pub type Word = Option<u8>;

// What the bytes are: a label each, the word of each closed group, and how many bytes there are up to its last copy.
pub struct Groups {
    pub labels: Vec<Label>,
    pub words: Vec<Word>,
    pub ends: Vec<usize>,
    // The weak copy of each closed group, 0 for none.
    pub weak: Vec<usize>,
    // The last first copy and the last second copy seen, of a group closed or open.
    pub first: u8,
    pub second: u8,
}

pub fn vote(rule: u64, copies: [u8; 3]) -> Word {
    if rule == BY_BITS { Some(by_bits(copies)) } else { by_bytes(copies) }
}

fn by_bytes([a, b, c]: [u8; 3]) -> Word {
    if a == b || a == c {
        Some(a)
    } else if b == c {
        Some(b)
    } else {
        None
    }
}

// Each bit is the one that at least two copies have (paper 02, request 6).
fn by_bits(copies: [u8; 3]) -> u8 {
    let has = |bit: u8| copies.iter().filter(|&&copy| copy >> bit & 1 == 1).count() >= 2;
    (0..8).map(|bit| u8::from(has(bit)) << bit).sum()
}

// Which copy has another value than two equal ones (paper 02, request 2); 0 where none has, or no two are equal.
fn weak(copies: [u8; 3]) -> usize {
    let outvoted = |word: u8| copies.iter().position(|&copy| copy != word);
    by_bytes(copies).and_then(outvoted).map_or(0, |index| index + 1)
}

pub fn groups(bytes: &[u8], rule: u64) -> Groups {
    let mut g = Groups { labels: Vec::new(), words: Vec::new(), ends: Vec::new(), weak: Vec::new(), first: 0, second: 0 };
    while g.labels.len() < bytes.len() {
        let rest = &bytes[g.labels.len()..];
        match rest[0] {
            SYNC => group(&mut g, &rest[..rest.len().min(4)], rule),
            FILL => g.labels.push(Label::Fill),
            _ => g.labels.push(Label::Stray),
        }
    }
    g
}

// A group: SYNC and its copies, as many of them as there are.
fn group(g: &mut Groups, group: &[u8], rule: u64) {
    if let Some(&copy) = group.get(1) {
        g.first = copy;
    }
    if let Some(&copy) = group.get(2) {
        g.second = copy;
    }
    let label = match *group {
        [_, a, b, c] => {
            let word = vote(rule, [a, b, c]);
            g.words.push(word);
            g.ends.push(g.labels.len() + 4);
            g.weak.push(weak([a, b, c]));
            if word.is_some() { Label::Voted } else { Label::Split }
        }
        _ => Label::Open,
    };
    g.labels.extend(group.iter().map(|_| label));
}

#[derive(Clone, Copy, PartialEq, Eq)]
pub enum Class {
    Good,
    Damaged,
    Unsynced,
}

pub fn class(frame: &[Word]) -> Class {
    if (0..3).any(|p| frame[p] != Some(FRAME_SYNC[p])) {
        Class::Unsynced
    } else if frame.contains(&None) {
        Class::Damaged
    } else {
        Class::Good
    }
}

// How the words are cut: the places where each closed frame begins, and the two stretches at the end, of which one is empty.
pub struct Cut {
    pub hunted: usize,
    pub frames: Vec<usize>,
    pub hunting: bool,
    // Where the hunt, or the frame being filled, that the list ends in has begun.
    pub last: usize,
}

// The end of the shortest stretch from `from` that ends in FA, F3, 20.
fn end_of_hunt(words: &[Word], from: usize) -> Option<usize> {
    (from + 3..=words.len()).find(|&end| (0..3).all(|k| words[end - 3 + k] == Some(FRAME_SYNC[k])))
}

pub fn cut(words: &[Word]) -> Cut {
    let mut c = Cut { hunted: 0, frames: Vec::new(), hunting: true, last: 0 };
    while c.hunting {
        let end = match end_of_hunt(words, c.last) {
            Some(end) => end,
            None => {
                c.hunted += words.len() - c.last;
                return c;
            }
        };
        c.hunted += end - c.last;
        c.last = end;
        c.hunting = false;
        while !c.hunting && words.len() - c.last >= FRAME {
            c.frames.push(c.last);
            c.hunting = class(&words[c.last..c.last + FRAME]) == Class::Unsynced;
            c.last += FRAME;
        }
    }
    c
}

// The longest beginning of FA, F3, 20, of at most two words, in which the hunted stretch ends.
fn matched(hunted: &[Word]) -> u64 {
    let ends_in = |n: usize| n <= hunted.len() && (0..n).all(|k| hunted[hunted.len() - n + k] == Some(FRAME_SYNC[k]));
    (0..=2).rev().find(|&n| ends_in(n)).map_or(0, |n| n as u64)
}

// The number of each closed frame that is good, in order; none for any other.
fn numbers(words: &[Word], frames: &[usize]) -> Vec<Option<u8>> {
    frames
        .iter()
        .map(|&at| if class(&words[at..at + FRAME]) == Class::Good { words[at + NUMBER_PLACE] } else { None })
        .collect()
}

// The length of the longest run 0, 1, .. of good frames that begins at this one, 128 at most.
fn run_length(numbers: &[Option<u8>], from: usize) -> usize {
    (0..FRAME).find(|&k| numbers.get(from + k) != Some(&Some(k as u8))).unwrap_or(FRAME)
}

// A complete major frame: how many bytes of the stream there are before its first group and up to the copy that closes it, and its bytes.
pub struct Major {
    pub start: usize,
    pub end: usize,
    pub bytes: Vec<u8>,
}

// Who is on duty (paper 02, request 5), read off the list of calls: as each byte is taken, and at the end.
#[derive(Clone)]
pub struct Shifts {
    pub stamps: Vec<u64>,
    pub duty: u64,
}

impl Shifts {
    // No call yet, and so nobody named.
    pub fn new() -> Shifts {
        Shifts { stamps: Vec::new(), duty: 0 }
    }

    // A call took so many bytes.
    pub fn taken(&mut self, bytes: usize) {
        self.stamps.resize(self.stamps.len() + bytes, self.duty);
    }

    // How many of the major frames belong to each operator: to whoever was on duty when the last byte was taken.
    fn paid(&self, majors: &[Major]) -> [u64; OPERATORS] {
        let mut paid = [0; OPERATORS];
        majors.iter().for_each(|major| paid[self.stamps[major.end - 1] as usize] += 1);
        paid
    }
}

pub struct Reading {
    pub tally: Tally,
    pub majors: Vec<Major>,
    // The good frames that start or extend a run, in order of closing.
    pub stored: Vec<[u8; FRAME]>,
}

impl Reading {
    // What the area becomes.
    pub fn store(&self, area: &mut [u8]) {
        for frame in &self.stored {
            let at = FRAME * frame[NUMBER_PLACE] as usize;
            area[at..at + FRAME].copy_from_slice(frame);
        }
    }
}

fn frame_bytes(words: &[Word]) -> [u8; FRAME] {
    let mut bytes = [0; FRAME];
    for (byte, word) in bytes.iter_mut().zip(words) {
        *byte = word.unwrap_or(0);
    }
    bytes
}

// Where no call names an operator.
pub fn read_alone(bytes: &[u8], rule: u64) -> Reading {
    let mut shifts = Shifts::new();
    shifts.taken(bytes.len());
    read(bytes, rule, &shifts)
}

pub fn read(bytes: &[u8], rule: u64, shifts: &Shifts) -> Reading {
    let g = groups(bytes, rule);
    let c = cut(&g.words);
    let labelled = |label: Label| g.labels.iter().filter(|&&l| l == label).count() as u64;
    let classed = |k: Class| c.frames.iter().filter(|&&at| class(&g.words[at..at + FRAME]) == k).count() as u64;
    let end = &g.words[c.last..];
    let mut tally = Tally {
        bytes: bytes.len() as u64,
        fill: labelled(Label::Fill),
        stray: labelled(Label::Stray),
        voted: labelled(Label::Voted) / 4,
        split: labelled(Label::Split) / 4,
        open: labelled(Label::Open),
        first: g.first,
        second: g.second,
        hunted: c.hunted as u64,
        good: classed(Class::Good),
        damaged: classed(Class::Damaged),
        unsynced: classed(Class::Unsynced),
        placed: if c.hunting { 0 } else { end.len() as u64 },
        hunting: c.hunting,
        matched: if c.hunting { matched(end) } else { 0 },
        erasure: !c.hunting && end.contains(&None),
        majors: 0,
        broken: 0,
        loose: 0,
        building: 0,
        weak: [1, 2, 3].map(|copy| g.weak.iter().filter(|&&named| named == copy).count() as u64),
        paid: [0; OPERATORS],
        duty: shifts.duty,
        rule,
        frame: frame_left(&g.words, &c),
    };
    let (majors, stored) = runs(&g, &c, &mut tally);
    tally.paid = shifts.paid(&majors);
    Reading { tally, majors, stored }
}

// The 128 bytes of the frame: the last closed frame, overwritten by what is placed of the next.
fn frame_left(words: &[Word], c: &Cut) -> [u8; FRAME] {
    let mut frame = c.frames.last().map_or([0; FRAME], |&at| frame_bytes(&words[at..at + FRAME]));
    if !c.hunting {
        let part = &words[c.last..];
        frame[..part.len()].copy_from_slice(&frame_bytes(part)[..part.len()]);
    }
    frame
}

fn runs(g: &Groups, c: &Cut, tally: &mut Tally) -> (Vec<Major>, Vec<[u8; FRAME]>) {
    let numbers = numbers(&g.words, &c.frames);
    let bytes_of = |k: usize| frame_bytes(&g.words[c.frames[k]..c.frames[k] + FRAME]);
    let (mut majors, mut stored) = (Vec::new(), Vec::new());
    for from in 0..numbers.len() {
        let n = run_length(&numbers, from);
        let members = from..from + n;
        stored.extend(members.clone().map(bytes_of));
        if n == FRAME {
            let bytes: Vec<u8> = members.flat_map(bytes_of).collect();
            majors.push(Major { start: g.ends[c.frames[from]] - 4, end: g.ends[c.frames[from + n - 1] + FRAME - 1], bytes });
        } else if from + n == numbers.len() {
            tally.building += n as u64;
        } else {
            tally.broken += n as u64;
        }
    }
    tally.majors = majors.len() as u64;
    tally.loose = tally.good - 128 * tally.majors - tally.broken - tally.building;
    (majors, stored)
}

// Whether a tally is in order, over numbers wide enough for any sum.
pub fn in_order(t: &Tally) -> bool {
    let w = u128::from;
    let counts = [
        t.bytes, t.fill, t.stray, t.voted, t.split, t.hunted, t.good, t.damaged, t.unsynced, t.majors, t.broken, t.loose,
        t.weak[0], t.weak[1], t.weak[2],
    ];
    let sum = |counts: &[u64]| counts.iter().map(|&n| w(n)).sum::<u128>();
    counts.iter().chain(&t.paid).all(|&n| n <= LIMIT)
        && t.open <= 3
        && t.placed <= 127
        && t.building <= 127
        && t.matched <= 2
        && w(t.bytes) == w(t.fill) + w(t.stray) + 4 * w(t.voted) + 4 * w(t.split) + w(t.open)
        && w(t.voted) + w(t.split) == w(t.hunted) + 128 * (w(t.good) + w(t.damaged) + w(t.unsynced)) + w(t.placed)
        && w(t.good) == 128 * w(t.majors) + w(t.broken) + w(t.loose) + w(t.building)
        && (t.hunting || t.matched == 0)
        && (!t.hunting || (t.placed == 0 && t.building == 0))
        && (t.placed != 0 || !t.erasure)
        && sum(&t.weak) <= w(t.voted)
        && sum(&t.paid) == w(t.majors)
        && t.duty < OPERATORS as u64
        && (t.rule == BY_BYTES || (t.rule == BY_BITS && t.split == 0))
}

// The refusal of a call of `take`, in the order of paper 01's table. No tally is for numbers that are none's: it is not in order.
pub fn refusal(t: Option<&Tally>, piece: usize, area: usize) -> u8 {
    match t {
        Some(t) if in_order(t) => {
            if area != AREA {
                2
            } else if t.bytes + piece as u64 > LIMIT {
                3
            } else {
                0
            }
        }
        _ => 1,
    }
}

// The refusal of a call that names an operator.
pub fn duty_refusal(t: Option<&Tally>, operator_number: u64) -> u8 {
    match t {
        Some(t) if in_order(t) => {
            if operator_number >= OPERATORS as u64 {
                14
            } else {
                0
            }
        }
        _ => 1,
    }
}
