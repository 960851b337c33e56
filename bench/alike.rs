// Paper 02, request 6: a stream with no group split under the vote by bytes is read alike under both rules, call by call, from fresh tallies
// with the same area, cuts and shifts, but for the rule that the tally carries.

use crate::bridge::{self, State, Taken};
use crate::plain::{self, Shifts};
use crate::stream::Random;
use crate::tally::{Tally, BY_BITS, BY_BYTES, OPERATORS};

// The stream with a second copy like the first where all three differ, and with one copy changed to any byte in some groups of three equal
// ones. Which bytes are a group does not depend on its copies.
fn without_split(r: &mut Random, bytes: &[u8]) -> Vec<u8> {
    let groups = plain::groups(bytes, BY_BYTES);
    let rate = 1 + r.below(40);
    let mut bytes = bytes.to_vec();
    for (end, word) in groups.ends.into_iter().zip(groups.words) {
        let copies = &mut bytes[end - 3..end];
        if word.is_none() {
            copies[1] = copies[0];
        } else if copies == [copies[0]; 3] && r.one_in(rate) {
            copies[r.below(3)] = r.byte();
        }
    }
    bytes
}

// A reading under one rule: the tally and the area.
pub struct Side {
    pub state: State,
    pub area: Vec<u8>,
}

impl Side {
    pub fn fresh(rule: u64, start: &[u8]) -> Side {
        Side { state: bridge::fresh(rule).1, area: start.to_vec() }
    }

    pub fn take(&mut self, piece: &[u8]) -> Taken {
        bridge::take(&mut self.state, piece, &mut self.area)
    }
}

// The tally but for its rule, which must be this one.
fn but_for_rule(s: &State, rule: u64) -> Option<Tally> {
    s.tally().filter(|t| t.rule == rule).map(|t| Tally { rule: 0, ..t })
}

fn same(by_bytes: &Side, by_bits: &Side) -> bool {
    let tally = but_for_rule(&by_bytes.state, BY_BYTES);
    tally.is_some() && tally == but_for_rule(&by_bits.state, BY_BITS) && by_bytes.area == by_bits.area
}

pub fn trial(r: &mut Random, bytes: &[u8], start: &[u8], longest: usize) -> Result<(), String> {
    let bytes = without_split(r, bytes);
    let (mut by_bytes, mut by_bits) = (Side::fresh(BY_BYTES, start), Side::fresh(BY_BITS, start));
    let mut shifts = Shifts::new();
    while shifts.stamps.len() < bytes.len() {
        let at = shifts.stamps.len();
        if r.one_in(8) {
            shifts.duty = r.below(OPERATORS) as u64;
            bridge::change_duty(&mut by_bytes.state, shifts.duty);
            bridge::change_duty(&mut by_bits.state, shifts.duty);
        }
        let piece = &bytes[at..(at + r.below(longest + 1)).min(bytes.len())];
        let answer = by_bytes.take(piece);
        if answer.refusal != 0 || answer != by_bits.take(piece) || !same(&by_bytes, &by_bits) {
            return Err(format!("a stream with no split group is read otherwise by bits than by bytes, at byte {at}"));
        }
        shifts.taken(answer.taken as usize);
    }
    if by_bits.state != State::of(&plain::read(&bytes, BY_BITS, &shifts).tally) {
        return Err("the tally of a stream with no split group differs".to_string());
    }
    Ok(())
}
