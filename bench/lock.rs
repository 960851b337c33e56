// The call that also stops where a hunt ends, against paper 01's cut of the whole stream: where hunts end is read off the list of words.

use crate::bridge::{self, State};
use crate::bytewise;
use crate::disorder;
use crate::plain::{self, Class, Word, LIMIT};
use crate::stream::Random;
use crate::tally::{Tally, AREA, FRAME, FRAME_SYNC};

#[derive(Default)]
pub struct Met {
    calls: u64,
    locks: u64,
    complete: u64,
    whole: u64,
    refused: [u64; 4],
}

impl Met {
    pub fn cases(&self) -> Vec<(&'static str, u64)> {
        vec![
            ("calls", self.calls),
            ("stopped at a lock", self.locks),
            ("at a major frame", self.complete),
            ("at the end", self.whole),
            ("refused 1", self.refused[1]),
            ("refused 2", self.refused[2]),
            ("refused 3", self.refused[3]),
        ]
    }
}

// How many bytes there are up to the end of each hunt.
fn hunt_ends(bytes: &[u8], rule: u64) -> Vec<usize> {
    let g = plain::groups(bytes, rule);
    let is_sync = |at: usize| g.words[at..at + 3] == FRAME_SYNC.map(Some);
    let (mut ends, mut from) = (Vec::new(), 0);
    while let Some(at) = (from..(g.words.len() + 1).saturating_sub(3)).find(|&at| is_sync(at)) {
        ends.push(g.ends[at + 2]);
        from = at + 3 + placed(&g.words[at + 3..]);
    }
    ends
}

// How many of the words are placed before a hunt begins again: all, or as far as the first unsynced frame.
fn placed(words: &[Word]) -> usize {
    let unsynced = words.chunks_exact(FRAME).position(|frame| plain::class(frame) == Class::Unsynced);
    unsynced.map_or(words.len(), |k| FRAME * (k + 1))
}

pub fn trial(r: &mut Random, bytes: &[u8], start: &[u8], rule: u64, longest: usize, met: &mut Met) -> Result<(), String> {
    let ends = hunt_ends(bytes, rule);
    let majors: Vec<usize> = plain::read_alone(bytes, rule).majors.iter().map(|major| major.end).collect();
    let (_, mut s) = bridge::fresh(rule);
    let (mut area, mut at) = (start.to_vec(), 0);
    while at < bytes.len() {
        if r.one_in(4) {
            spoilt(r, &s, &bytes[at..], met)?;
        }
        let n = 1 + r.below(longest).min(bytes.len() - at - 1);
        let first = |stops: &[usize]| stops.iter().copied().find(|&end| at < end && end <= at + n);
        let (lock, major) = (first(&ends), first(&majors));
        let stop = lock.into_iter().chain(major).min().unwrap_or(at + n);
        let wanted = [(stop - at) as u64, (major == Some(stop)) as u64, (lock == Some(stop)) as u64];
        let (refusal, answer) = bridge::take_to_lock(&mut s, &bytes[at..at + n], &mut area);
        met.calls += 1;
        met.locks += wanted[2];
        met.complete += wanted[1];
        met.whole += (wanted[1] + wanted[2] == 0) as u64;
        if (refusal, answer) != (0, wanted) {
            return Err(format!("a call to a lock at byte {at}: refusal {refusal}, {answer:?} for {wanted:?}"));
        }
        at = stop;
        if at == bytes.len() || r.one_in(1 + bytes.len() / 2000) {
            let reading = plain::read_alone(&bytes[..at], rule);
            let mut left = start.to_vec();
            reading.store(&mut left);
            if s != State::of(&reading.tally) || area != left {
                return Err(format!("the tally or the area differs after calls to a lock as far as byte {at}"));
            }
        }
    }
    Ok(())
}

// A call that is likely to be refused: all stays then. Where it is not, it does as the reader that goes a byte at a time.
fn spoilt(r: &mut Random, s: &State, rest: &[u8], met: &mut Met) -> Result<(), String> {
    let piece = &rest[..r.below(40).min(rest.len())];
    let (mut before, mut length) = (*s, AREA);
    match r.below(4) {
        0 => disorder::out_of_order(r, &mut before),
        1 => disorder::no_tally(r, &mut before),
        2 => length = [0, 1, AREA - 1, AREA + 1][r.below(4)],
        _ => {
            let mut t = before.tally().ok_or("the numbers are no tally's")?;
            disorder::fill_up_to(&mut t, LIMIT + r.below(3) as u64 - piece.len() as u64);
            before = State::of(&t);
        }
    }
    let tally = before.tally();
    let number = plain::refusal(tally.as_ref(), piece.len(), length);
    let mut area = vec![r.byte(); length];
    let (mut left, mut area_left, mut wanted) = (before, area.clone(), [u64::MAX; 3]);
    if let (Some(mut t), 0) = (tally, number) {
        wanted = bytewise_to_lock(&mut t, piece, &mut area_left);
        left = State::of(&t);
    }
    met.refused[number as usize] += 1;
    let mut s = before;
    if bridge::take_to_lock(&mut s, piece, &mut area) != (number, wanted) || s != left || area != area_left {
        return Err(format!("a call to a lock that should be refused {number}"));
    }
    Ok(())
}

fn bytewise_to_lock(t: &mut Tally, piece: &[u8], area: &mut [u8]) -> [u64; 3] {
    for (i, &b) in piece.iter().enumerate() {
        let hunting = t.hunting;
        let complete = bytewise::byte(t, b, area);
        let locked = hunting && !t.hunting;
        if complete || locked {
            return [i as u64 + 1, complete as u64, locked as u64];
        }
    }
    [piece.len() as u64, 0, 0]
}
