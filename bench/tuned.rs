// A streaming reader in safe Rust, tuned by hand: one loop for hunting and one for placing, counts in locals and by difference, equal
// copies first, and a quick test for a run of FILL. A group across the end of a piece goes a byte at a time.

use crate::bytewise::{byte, close, count_weak, vote};
use crate::tally::{Tally, FILL, FRAME, FRAME_SYNC, SYNC};

const GROUP: usize = 4;

// Takes the whole piece, or stops just after the byte that completes a major frame: the bytes taken, and whether one is complete.
pub fn take(t: &mut Tally, piece: &[u8], area: &mut [u8]) -> (usize, bool) {
    let mut at = 0;
    while at < piece.len() {
        let complete;
        if t.open != 0 || piece.len() - at < GROUP {
            complete = byte(t, piece[at], area);
            at += 1;
        } else if t.hunting {
            at += hunt(t, &piece[at..]);
            complete = false;
        } else {
            let (taken, closed) = place(t, &piece[at..]);
            at += taken;
            complete = closed && close(t, area);
        }
        if complete {
            return (at, true);
        }
    }
    (at, false)
}

// What a loop has counted. FILL is what is left of the bytes.
struct Seen {
    rule: u64,
    bytes: usize,
    stray: u64,
    split: u64,
    weak: [u64; 3],
    words: u64,
    first: u8,
    second: u8,
}

impl Seen {
    fn none(t: &Tally) -> Seen {
        Seen { rule: t.rule, bytes: 0, stray: 0, split: 0, weak: t.weak, words: 0, first: t.first, second: t.second }
    }

    fn add_to(&self, t: &mut Tally) {
        let bytes = self.bytes as u64;
        t.bytes += bytes;
        t.fill += bytes - self.stray - GROUP as u64 * self.words;
        t.stray += self.stray;
        t.split += self.split;
        t.voted += self.words - self.split;
        t.weak = self.weak;
        t.first = self.first;
        t.second = self.second;
    }

    #[inline(always)]
    fn vote(&mut self, group: &[u8]) -> Option<u8> {
        let (first, second, third) = (group[1], group[2], group[3]);
        self.bytes += GROUP;
        self.words += 1;
        self.first = first;
        self.second = second;
        let (word, weak) = vote(self.rule, first, second, third);
        self.split += u64::from(word.is_none());
        count_weak(&mut self.weak, weak);
        word
    }

    // The usual spacing. Its first byte decides where there is none.
    #[inline(always)]
    fn skip_five_fill(&mut self, piece: &[u8]) {
        if let Some(&[FILL, FILL, FILL, FILL, FILL]) = piece.get(self.bytes..self.bytes + 5) {
            self.bytes += 5;
        }
    }

    #[inline(always)]
    fn outside(&mut self, b: u8) {
        self.bytes += 1;
        self.stray += (b != FILL) as u64;
    }
}

// Hunts until the sync is met or fewer bytes are left than a group has.
fn hunt(t: &mut Tally, piece: &[u8]) -> usize {
    let mut seen = Seen::none(t);
    let mut matched = t.matched as usize;
    while let Some(group) = piece.get(seen.bytes..seen.bytes + GROUP) {
        if group[0] != SYNC {
            seen.outside(group[0]);
            continue;
        }
        match seen.vote(group) {
            Some(word) if word == FRAME_SYNC[0] => matched = 1,
            Some(word) if matched != 0 && word == FRAME_SYNC[matched] => matched += 1,
            _ => matched = 0,
        }
        if matched == 3 {
            matched = 0;
            t.hunting = false;
            break;
        }
        seen.skip_five_fill(piece);
    }
    t.matched = matched as u64;
    t.hunted += seen.words;
    seen.add_to(t);
    seen.bytes
}

// Places words until the frame is full or fewer bytes are left than a group has: the bytes taken, and whether it is full.
fn place(t: &mut Tally, piece: &[u8]) -> (usize, bool) {
    let mut seen = Seen::none(t);
    let mut placed = t.placed as usize;
    let frame = &mut t.frame;
    while let Some(group) = piece.get(seen.bytes..seen.bytes + GROUP) {
        if group[0] != SYNC {
            seen.outside(group[0]);
            continue;
        }
        frame[placed] = seen.vote(group).unwrap_or(0);
        placed += 1;
        if placed == FRAME {
            break;
        }
        seen.skip_five_fill(piece);
    }
    t.placed = placed as u64;
    t.erasure |= seen.split != 0;
    seen.add_to(t);
    (seen.bytes, placed == FRAME)
}
