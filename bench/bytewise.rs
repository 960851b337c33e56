// A streaming reader in safe Rust that goes a byte at a time: what one writes first.

use crate::tally::{Tally, BY_BITS, FILL, FRAME, FRAME_SYNC, NUMBER_PLACE, SYNC};

// Takes the whole piece, or stops just after the byte that completes a major frame: the bytes taken, and whether one is complete.
pub fn take(t: &mut Tally, piece: &[u8], area: &mut [u8]) -> (usize, bool) {
    for (i, &b) in piece.iter().enumerate() {
        if byte(t, b, area) {
            return (i + 1, true);
        }
    }
    (piece.len(), false)
}

pub fn byte(t: &mut Tally, b: u8, area: &mut [u8]) -> bool {
    t.bytes += 1;
    match t.open {
        0 => {
            match b {
                SYNC => t.open = 1,
                FILL => t.fill += 1,
                _ => t.stray += 1,
            }
            false
        }
        1 => {
            t.first = b;
            t.open = 2;
            false
        }
        2 => {
            t.second = b;
            t.open = 3;
            false
        }
        _ => {
            t.open = 0;
            group(t, b, area)
        }
    }
}

// The word, and the copy that two equal ones outvote, counted from 1; 0 for none.
#[inline(always)]
pub fn vote(rule: u64, first: u8, second: u8, third: u8) -> (Option<u8>, usize) {
    if first == second {
        (Some(first), if first == third { 0 } else { 3 })
    } else if first == third {
        (Some(first), 2)
    } else if second == third {
        (Some(second), 1)
    } else if rule == BY_BITS {
        (Some(first & second | first & third | second & third), 0)
    } else {
        (None, 0)
    }
}

#[inline(always)]
pub fn count_weak(counts: &mut [u64; 3], weak: usize) {
    if weak != 0 {
        counts[weak - 1] += 1;
    }
}

pub fn group(t: &mut Tally, third: u8, area: &mut [u8]) -> bool {
    let (voted, weak) = vote(t.rule, t.first, t.second, third);
    match voted {
        Some(_) => t.voted += 1,
        None => t.split += 1,
    }
    count_weak(&mut t.weak, weak);
    if t.hunting {
        hunt(t, voted);
        false
    } else {
        place(t, voted, area)
    }
}

// FA F3 20 has no beginning that it also ends in, so a word that does not go on can only begin it anew.
fn hunt(t: &mut Tally, word: Option<u8>) {
    t.hunted += 1;
    let goes_on = word == Some(FRAME_SYNC[t.matched as usize]);
    t.matched = if goes_on { t.matched + 1 } else { (word == Some(FRAME_SYNC[0])) as u64 };
    if t.matched == 3 {
        t.matched = 0;
        t.hunting = false;
    }
}

fn place(t: &mut Tally, word: Option<u8>, area: &mut [u8]) -> bool {
    t.frame[t.placed as usize] = word.unwrap_or(0);
    t.erasure |= word.is_none();
    t.placed += 1;
    t.placed == FRAME as u64 && close(t, area)
}

// Closes the frame, whose 128 bytes are there. An erasure is stored as 0, which is no sync word.
pub fn close(t: &mut Tally, area: &mut [u8]) -> bool {
    let damaged = t.erasure;
    t.placed = 0;
    t.erasure = false;
    if t.frame[..3] != FRAME_SYNC {
        t.unsynced += 1;
        t.hunting = true;
        end_run(t);
        false
    } else if damaged {
        t.damaged += 1;
        end_run(t);
        false
    } else {
        t.good += 1;
        good(t, area)
    }
}

fn end_run(t: &mut Tally) {
    t.broken += t.building;
    t.building = 0;
}

fn good(t: &mut Tally, area: &mut [u8]) -> bool {
    let number = t.frame[NUMBER_PLACE] as usize;
    if number as u64 != t.building {
        end_run(t);
    }
    if number as u64 != t.building {
        t.loose += 1;
        return false;
    }
    area[FRAME * number..FRAME * (number + 1)].copy_from_slice(&t.frame);
    t.building += 1;
    if t.building < FRAME as u64 {
        return false;
    }
    t.building = 0;
    t.majors += 1;
    t.paid[t.duty as usize] += 1;
    true
}
