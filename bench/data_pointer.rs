// The data pointer's sequence once more, from paper 02, request 13, and the book's equations 1 and 2, and the proved one held to it. Everything
// is made of single steps: so many frames on by a table of jumps, each of which is the one before it taken twice, and a distance by counting.

use crate::bridge;
use crate::stream::Random;

const LAST: u64 = 84;

const MOST: u64 = (1 << 24) - 1;

fn next(p: u64) -> u64 {
    if p < 47 {
        p + 38
    } else {
        p - 47
    }
}

fn previous(p: u64) -> u64 {
    if p >= 38 {
        p - 38
    } else {
        p + 47
    }
}

// Where 2^k single steps lead from each pointer, doubled as often as n has digits.
fn after(p: u64, n: u64) -> u64 {
    let mut jump: Vec<u64> = (0..=LAST).map(next).collect();
    let (mut p, mut left) = (p, n);
    while left != 0 {
        if left & 1 == 1 {
            p = jump[p as usize];
        }
        jump = jump.iter().map(|&q| jump[q as usize]).collect();
        left >>= 1;
    }
    p
}

fn distance(p: u64, q: u64) -> u64 {
    let (mut at, mut frames) = (p, 0);
    while at != q {
        at = next(at);
        frames += 1;
    }
    frames
}

// Mostly a pointer; or just above, or any number.
fn any_pointer(r: &mut Random) -> u64 {
    match r.below(8) {
        0 => [85, 86, 256, 256 + 38, 1 << 32, u64::MAX][r.below(6)],
        1 => r.next(),
        _ => r.below(85) as u64,
    }
}

fn any_frames(r: &mut Random) -> u64 {
    match r.below(6) {
        0 => MOST - 1 + r.below(4) as u64,
        1 => r.next(),
        2 => r.below(200) as u64,
        _ => r.next() % (MOST + 1),
    }
}

fn pointer(p: u64, value: impl Fn() -> u64) -> Result<u64, u8> {
    if p > LAST {
        return Err(28);
    }
    Ok(value())
}

// What a refusal leaves in the lent place is what stood there.
fn same(what: &str, wanted: Result<u64, u8>, lent: u64, number: u8, left: u64) -> Result<(), String> {
    let (wants, has) = (wanted.map_or_else(|n| (n, lent), |v| (0, v)), (number, left));
    if wants == has {
        return Ok(());
    }
    Err(format!("{what}: has {has:?}, wants {wants:?}"))
}

fn trial(p: u64, q: u64, n: u64, lent: u64) -> Result<(), String> {
    let mut left = lent;
    let number = bridge::next_pointer(p, &mut left);
    same("the next pointer", pointer(p, || next(p)), lent, number, left)?;
    let mut left = lent;
    let number = bridge::previous_pointer(p, &mut left);
    same("the pointer before", pointer(p, || previous(p)), lent, number, left)?;
    let mut left = lent;
    let number = bridge::pointer_after(p, n, &mut left);
    let wanted = match n > MOST && p <= LAST {
        true => Err(29),
        false => pointer(p, || after(p, n)),
    };
    same("the pointer after some frames", wanted, lent, number, left)?;
    let mut left = lent;
    let number = bridge::pointer_distance(p, q, &mut left);
    let wanted = pointer(p.max(q), || distance(p, q));
    same("the frames between", wanted, lent, number, left)
}

pub fn trials(r: &mut Random) -> Result<(), String> {
    for _ in 0..16 {
        let (p, q, n) = (any_pointer(r), any_pointer(r), any_frames(r));
        trial(p, q, n, r.next()).map_err(|what| format!("data pointer {p} to {q}, {n} frames on: {what}"))?;
    }
    Ok(())
}
