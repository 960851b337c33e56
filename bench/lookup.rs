// The lookup once more, from paper 02, request 1, and the proved one held to it: the halving rule, and reading the whole list.

use crate::bridge;
use crate::stream::Random;

pub const MOST: usize = 100_000;

// The rule as the paper words it: low where it ends, which is the place plus one, and the looks.
#[inline(never)]
pub fn halve(instants: &[u64], wanted: u64) -> [u64; 2] {
    let (mut low, mut high, mut looks) = (0, instants.len(), 0);
    while low != high {
        let half = (low + high) / 2;
        if instants[half] <= wanted {
            low = half + 1;
        } else {
            high = half;
        }
        looks += 1;
    }
    [low as u64, looks]
}

// The last place whose instant is at most the wanted one, plus one; 0 for none.
fn read_whole(instants: &[u64], wanted: u64) -> u64 {
    instants.iter().rposition(|&x| x <= wanted).map_or(0, |place| place as u64 + 1)
}

fn any_length(r: &mut Random) -> usize {
    match r.below(200) {
        0 => MOST - 1 + r.below(4),
        1..=20 => r.below(5000),
        21..=30 => 1 << r.below(12),
        _ => r.below(41),
    }
}

// In any order, with few different values; or such that it never falls, or strictly rises.
pub fn any_list(r: &mut Random) -> Vec<u64> {
    let n = any_length(r);
    let values = if r.one_in(2) { u64::MAX } else { 1 + n as u64 * 2 };
    let mut list: Vec<u64> = (0..n).map(|_| r.next() % values).collect();
    match r.below(4) {
        0 => return list,
        1 => list.sort(),
        _ => {
            list.sort();
            list.dedup();
        }
    }
    if r.one_in(8) {
        list.push(u64::MAX);
    }
    list
}

// An instant of the list, or one beside it; or any.
pub fn any_wanted(r: &mut Random, list: &[u64]) -> u64 {
    if list.is_empty() || r.one_in(4) {
        return [0, 1, u64::MAX, r.next()][r.below(4)];
    }
    list[r.below(list.len())].wrapping_add([0, 1, u64::MAX][r.below(3)])
}

fn trial(list: &[u64], wanted: u64, lent: [u64; 2]) -> Result<(), String> {
    let mut left = lent;
    let number = bridge::find(list, wanted, &mut left);
    if list.len() > MOST {
        return same("a list too long", (12, lent), (number, left));
    }
    let [low, looks] = halve(list, wanted);
    same("the place or the looks", (0, [low, looks]), (number, left))?;
    if list.windows(2).all(|w| w[0] <= w[1]) {
        same("the whole reading", (0, [read_whole(list, wanted), looks]), (number, left))?;
    }
    if looks > u64::from(usize::BITS - list.len().leading_zeros()) {
        return Err(format!("{looks} looks are more than the binary digits of {}", list.len()));
    }
    Ok(())
}

fn same(what: &str, wanted: (u8, [u64; 2]), has: (u8, [u64; 2])) -> Result<(), String> {
    if wanted == has {
        return Ok(());
    }
    Err(format!("{what} differs: has {has:?}, wants {wanted:?}"))
}

pub fn trials(r: &mut Random) -> Result<(), String> {
    let list = any_list(r);
    for _ in 0..8 {
        let wanted = any_wanted(r, &list);
        let lent = [r.next(), r.next()];
        trial(&list, wanted, lent).map_err(|what| format!("find: {what}, for {wanted} among {} instants", list.len()))?;
    }
    Ok(())
}
