// Steps that lock on a frame's own sync, against a cut of the whole reel where its frames lie: a hunt ends before FA F3 20, which begin the frame; or
// behind them, as paper 01 has it, where the next word is FA or there is none. The reader's own part is paper 01's, on the bytes handed in.

use crate::bridge::{self, State};
use crate::disorder;
use crate::plain::{self, Class, LIMIT};
use crate::stream::{self, Random};
use crate::tally::{Tally, AREA, FRAME, FRAME_SYNC, SYNC};

// What is handed before the fourth word of a frame that a hunt has found.
const LEAD_IN: [u8; 12] = [SYNC, 0xFA, 0xFA, 0xFA, SYNC, 0xF3, 0xF3, 0xF3, SYNC, 0x20, 0x20, 0x20];

#[derive(Default)]
pub struct Met {
    steps: u64,
    locks: u64,
    lead_ins: u64,
    behind: u64,
    quiet: u64,
    asked: u64,
    complete: u64,
    ended_waiting: u64,
    ended_in_a_group: u64,
    refused: [u64; 4],
    no_lock: u64,
}

impl Met {
    pub fn cases(&self) -> Vec<(&'static str, u64)> {
        vec![
            ("steps", self.steps),
            ("locks", self.locks),
            ("lead-ins", self.lead_ins),
            ("before FA none", self.behind),
            ("no SYNC after a lock yet", self.quiet),
            ("asked for more", self.asked),
            ("major frames", self.complete),
            ("ended at a lock", self.ended_waiting),
            ("in the group after it", self.ended_in_a_group),
            ("refused 1", self.refused[1]),
            ("so for a lock that is none", self.no_lock),
            ("refused 2", self.refused[2]),
            ("refused 3", self.refused[3]),
        ]
    }
}

// A reel where its frames lie: how many bytes there are up to the end of each hunt, and before each lead-in.
struct Own {
    locks: Vec<usize>,
    lead_ins: Vec<usize>,
    // Whether it ends with a lock whose next word is still to come.
    awaits: bool,
}

fn own(bytes: &[u8], rule: u64) -> Own {
    let g = plain::groups(bytes, rule);
    let words = &g.words;
    let is_sync = |at: usize| words[at..at + 3] == FRAME_SYNC.map(Some);
    let mut own = Own { locks: Vec::new(), lead_ins: Vec::new(), awaits: false };
    let mut from = 0;
    while let Some(k) = (from..(words.len() + 1).saturating_sub(3)).find(|&at| is_sync(at)) {
        own.locks.push(g.ends[k + 2]);
        let next = words.get(k + 3);
        own.awaits = next.is_none();
        let begins = match next {
            None | Some(Some(0xFA)) => k + 3,
            Some(_) => {
                own.lead_ins.push(g.ends[k + 3] - 4);
                k
            }
        };
        let unsynced = words[begins..].chunks_exact(FRAME).position(|frame| plain::class(frame) == Class::Unsynced);
        from = unsynced.map_or(words.len(), |f| begins + FRAME * (f + 1));
    }
    own
}

// The bytes that the reader takes of a reel: its own, and the lead-ins.
fn handed(bytes: &[u8], lead_ins: &[usize]) -> Vec<u8> {
    let mut out = Vec::new();
    let mut at = 0;
    for &end in lead_ins {
        out.extend_from_slice(&bytes[at..end]);
        out.extend_from_slice(&LEAD_IN);
        at = end;
    }
    out.extend_from_slice(&bytes[at..]);
    out
}

// A reel as they come: begun anywhere, with slips, false syncs and lead-ins here and there.
fn reel(r: &mut Random, rare: usize) -> Vec<u8> {
    let mut bytes = if r.one_in(3) { stream::any_stream(r, rare) } else { frames(r, rare) };
    bytes.drain(..r.below(bytes.len().min(2000) + 1));
    for _ in 0..r.below(4) {
        let at = r.below(bytes.len() + 1);
        let n = [1, 1, 2, 4, 9, 50, 300][r.below(7)].min(bytes.len() - at);
        bytes.drain(at..at + n);
    }
    bytes
}

fn frames(r: &mut Random, rare: usize) -> Vec<u8> {
    // A long reel has few faults, so that it holds major frames after the first run, whose begin is lost.
    let (count, often, spacing) = if r.one_in(rare) { (260 + r.below(30), 1500, 0) } else { (1 + r.below(12), 24, [0, 0, 1, 5][r.below(4)]) };
    let mut out = Vec::new();
    for number in 0..count {
        let mut words = stream::frame(r, (number % 128) as u8, stream::Data::Any);
        words[3] %= 16;
        match r.below(often) {
            0 => words[3] = 0xFA,
            1 => {
                let at = 4 + r.below(120);
                words[at..at + 3].copy_from_slice(&FRAME_SYNC);
            }
            2 => stream::put_lead_in(&mut out, spacing),
            3 => words[r.below(3)] = 0,
            _ => {}
        }
        stream::put_words(&mut out, &words, spacing);
    }
    out
}

pub fn trial(r: &mut Random, rule: u64, rare: usize, met: &mut Met) -> Result<(), String> {
    let mut bytes = reel(r, rare);
    let mut whole = own(&bytes, rule);
    if let (true, Some(&lock)) = (r.one_in(8), whole.locks.last()) {
        // It ends at a lock, or a few bytes after.
        bytes.truncate(lock + r.below(5));
        whole = own(&bytes, rule);
    }
    let majors: Vec<usize> = {
        let joined = handed(&bytes, &whole.lead_ins);
        plain::read_alone(&joined, rule).majors.iter().map(|major| in_reel(major.end, &whole.lead_ins)).collect()
    };
    let longest = 1 + match r.below(4) {
        0 => r.below(9),
        1 => r.below(300),
        _ => bytes.len(),
    };
    let longest = longest + bytes.len() / 400;
    let (_, tally) = bridge::fresh(rule);
    let mut s = bridge::Feeder { tally, numbers: [0, 0] };
    let (mut area, mut at, mut end) = (vec![0; AREA], 0, 0);
    // The last step is told that the reel ends.
    let mut ended = false;
    while !ended || at < bytes.len() {
        end = (end.max(at) + r.below(longest + 1)).min(bytes.len());
        ended = end == bytes.len() && (at == end || r.one_in(2));
        if r.one_in(6) {
            spoilt(r, &s, &bytes[at..end], met)?;
        }
        let piece = &bytes[at..end];
        let wanted = expected(&bytes, at, end, ended, &s, &whole, &majors, met);
        let (refusal, answer) = bridge::relock(&mut s, piece, ended as u64, &mut area);
        met.steps += 1;
        if (refusal, answer) != (0, wanted) {
            return Err(format!("a step at byte {at} of {}: refusal {refusal}, {answer:?} for {wanted:?}", bytes.len()));
        }
        at += wanted[0] as usize;
        if ended || wanted[1] == 1 || r.one_in(1 + bytes.len() / 2000) {
            compare(&bytes[..at], rule, &s, &area)?;
        }
        if ended && at < bytes.len() {
            ended = false;
        }
    }
    let open = s.tally.numbers[5] != 0;
    met.ended_waiting += (whole.awaits && !open) as u64;
    met.ended_in_a_group += (whole.awaits && open) as u64;
    met.lead_ins += whole.lead_ins.len() as u64;
    met.behind += (whole.locks.len() - whole.lead_ins.len()) as u64;
    Ok(())
}

// A place of the bytes handed in, as a place of the reel.
fn in_reel(end: usize, lead_ins: &[usize]) -> usize {
    let before = (0..lead_ins.len()).filter(|&k| lead_ins[k] + LEAD_IN.len() * (k + 1) < end).count();
    end - LEAD_IN.len() * before
}

// What a step on the bytes from `at` to `end` answers: how many it takes, whether a major frame is complete, and whether it asks for more.
#[allow(clippy::too_many_arguments)]
fn expected(bytes: &[u8], at: usize, end: usize, ends: bool, s: &bridge::Feeder, whole: &Own, majors: &[usize], met: &mut Met) -> [u64; 3] {
    let piece = &bytes[at..end];
    let quiet = piece.iter().position(|&b| b == SYNC).unwrap_or(piece.len());
    if s.numbers[0] == 1 {
        if quiet > 0 {
            met.quiet += 1;
            return [quiet as u64, 0, 0];
        }
        if piece.len() < 4 {
            let asks = !ends && !piece.is_empty();
            met.asked += asks as u64;
            return [if asks { 0 } else { piece.len() as u64 }, 0, asks as u64];
        }
    }
    let first = |stops: &[usize]| stops.iter().copied().find(|&stop| at < stop && stop <= end);
    let (lock, major) = (first(&whole.locks), first(majors));
    let stop = lock.into_iter().chain(major).min().unwrap_or(end);
    met.locks += (lock == Some(stop)) as u64;
    met.complete += (major == Some(stop)) as u64;
    [(stop - at) as u64, (major == Some(stop)) as u64, 0]
}

// The feeder and the area after these bytes of the reel.
fn compare(bytes: &[u8], rule: u64, s: &bridge::Feeder, area: &[u8]) -> Result<(), String> {
    let own = own(bytes, rule);
    let reading = plain::read_alone(&handed(bytes, &own.lead_ins), rule);
    let mut left = vec![0; AREA];
    reading.store(&mut left);
    if s.tally != State::of(&reading.tally) {
        return Err(format!("the tally differs after {} bytes:\n  has   {:?}\n  wants {:?}", bytes.len(), s.tally.numbers, reading.tally.numbers()));
    }
    if s.numbers != [own.awaits as u64, own.lead_ins.len() as u64] || area != left {
        return Err(format!("the feeder or the area differs after {} bytes", bytes.len()));
    }
    Ok(())
}

// The refusal of a step. No tally is for numbers that are none's.
fn refusal(t: Option<&Tally>, numbers: [u64; 2], piece: usize, area: usize) -> u8 {
    let stands = |t: &Tally| match numbers[0] {
        0 => true,
        1 => !t.hunting && t.placed == 0 && t.open == 0,
        _ => false,
    };
    match t {
        Some(t) if plain::in_order(t) && stands(t) && numbers[1] <= t.bytes / 12 => {
            if area != AREA {
                2
            } else if t.bytes + piece as u64 + 12 > LIMIT {
                3
            } else {
                0
            }
        }
        _ => 1,
    }
}

// A step that is likely to be refused: all stays then.
fn spoilt(r: &mut Random, s: &bridge::Feeder, piece: &[u8], met: &mut Met) -> Result<(), String> {
    let (mut before, mut length) = (*s, AREA);
    let kind = r.below(7);
    match kind {
        0 => disorder::out_of_order(r, &mut before.tally),
        1 => disorder::no_tally(r, &mut before.tally),
        2 => length = [0, 1, AREA - 1, AREA + 1][r.below(4)],
        3 => before.numbers[0] = [1, 2, 256, u64::MAX][r.below(4)],
        4 => before.numbers[1] = before.tally.numbers[0] / 12 + [0, 1, 1 << 40, 1 << 63][r.below(4)],
        _ => {
            let mut t = before.tally.tally().ok_or("the numbers are no tally's")?;
            disorder::fill_up_to(&mut t, LIMIT - 12 + r.below(3) as u64 - piece.len() as u64);
            before.tally = State::of(&t);
        }
    }
    let number = refusal(before.tally.tally().as_ref(), before.numbers, piece.len(), length);
    if number == 0 {
        return Ok(());
    }
    met.refused[number as usize] += 1;
    met.no_lock += (kind == 3 && before.numbers[0] == 1) as u64;
    let area = vec![r.byte(); length];
    let (mut after, mut area_after) = (before, area.clone());
    let answer = bridge::relock(&mut after, piece, r.below(2) as u64, &mut area_after);
    if answer != (number, [u64::MAX; 3]) || after != before || area_after != area {
        return Err(format!("a step that should be refused {number}: {answer:?}"));
    }
    Ok(())
}
