// Paper 02, request 10 (the scratches promise): at most one copy changed in any closed group of three equal ones costs nobody a frame. A stream
// and the changed one are read by the proved reader from fresh tallies with the same area, cuts and shifts, and compared call by call.

use crate::alike::Side;
use crate::bridge::{self, State};
use crate::plain::{self, Shifts};
use crate::stream::Random;
use crate::tally::{Tally, BY_BYTES, OPERATORS};

// What the streams were like.
#[derive(Default)]
pub struct Met {
    // Copies truly changed, at each copy, and those changed to themselves.
    changed: [u64; 3],
    to_itself: u64,
    // Calls that ended between a changed copy and the end of its group, and major frames paid after a changed copy.
    cut: u64,
    paid: u64,
    // Streams whose last closed group was changed at a copy that is kept.
    kept_differ: u64,
}

impl Met {
    pub fn cases(&self) -> Vec<(&'static str, u64)> {
        vec![
            ("first copies", self.changed[0]),
            ("second", self.changed[1]),
            ("third", self.changed[2]),
            ("to themselves", self.to_itself),
            ("groups cut by a call", self.cut),
            ("major frames paid", self.paid),
            ("kept copies", self.kept_differ),
        ]
    }
}

// The changed stream, and the copies truly changed: where each stands, and which copy of its group it is.
struct Changed {
    bytes: Vec<u8>,
    places: Vec<(usize, usize)>,
}

// A byte that a copy becomes: any, or one that means something to a reader, or the word with one bit changed, or itself.
fn damaged(r: &mut Random, word: u8) -> u8 {
    match r.below(4) {
        0 => r.byte(),
        1 => r.telling_byte(),
        2 => word ^ 1 << r.below(8),
        _ => word,
    }
}

// Which bytes are a closed group does not depend on its copies, nor on the rule.
fn change(r: &mut Random, before: &[u8], met: &mut Met) -> Changed {
    let rate = 1 + r.below(30);
    let mut c = Changed { bytes: before.to_vec(), places: Vec::new() };
    for end in plain::groups(before, BY_BYTES).ends {
        let word = before[end - 1];
        if before[end - 3..end] != [word; 3] || !r.one_in(rate) {
            continue;
        }
        let copy = r.below(3);
        let at = end - 3 + copy;
        c.bytes[at] = damaged(r, word);
        if c.bytes[at] != word {
            c.places.push((at, copy));
            met.changed[copy] += 1;
        } else {
            met.to_itself += 1;
        }
    }
    c
}

// So many bytes close the group of a changed copy.
fn closed_by((at, copy): (usize, usize)) -> usize {
    at - copy + 3
}

fn tally(side: &Side) -> Result<Tally, String> {
    side.state.tally().ok_or_else(|| "numbers that are no tally's are left".to_string())
}

// Whether after so many bytes both sides are as 02 says. A copy of a group not yet closed is not yet voted, so it is counted only with its group.
fn as_promised(before: &Side, after: &Side, c: &Changed, bytes: usize) -> Result<bool, String> {
    let (t, u) = (tally(before)?, tally(after)?);
    let mut weak = t.weak;
    let voted = c.places.iter().filter(|&&place| closed_by(place) <= bytes);
    voted.for_each(|&(_, copy)| weak[copy] += 1);
    let wanted = Tally { weak, first: u.first, second: u.second, ..t };
    Ok(u == wanted && before.area == after.area)
}

pub fn trial(r: &mut Random, bytes: &[u8], start: &[u8], rule: u64, longest: usize, met: &mut Met) -> Result<(), String> {
    let c = change(r, bytes, met);
    let (mut before, mut after) = (Side::fresh(rule, start), Side::fresh(rule, start));
    let mut shifts = Shifts::new();
    while shifts.stamps.len() < bytes.len() {
        let at = shifts.stamps.len();
        if r.one_in(8) {
            shifts.duty = r.below(OPERATORS) as u64;
            bridge::change_duty(&mut before.state, shifts.duty);
            bridge::change_duty(&mut after.state, shifts.duty);
        }
        let end = (at + r.below(longest + 1)).min(bytes.len());
        let answer = before.take(&bytes[at..end]);
        if answer.refusal != 0 || answer != after.take(&c.bytes[at..end]) {
            return Err(format!("rule {rule}: a call over a changed stream answers otherwise, at byte {at}"));
        }
        shifts.taken(answer.taken as usize);
        let at = shifts.stamps.len();
        met.cut += c.places.iter().any(|&place| closed_by(place) > at && place.0 < at) as u64;
        met.paid += (answer.complete == 1 && c.places.iter().any(|&(place, _)| place < at)) as u64;
        if !as_promised(&before, &after, &c, at)? {
            return Err(format!("rule {rule}: a changed stream leaves something else, after {at} bytes"));
        }
    }
    ended(&before, &after, &c, rule, &shifts, met)
}

// At the end: the kept copies too, which may differ only where that copy of the last closed group was changed.
fn ended(before: &Side, after: &Side, c: &Changed, rule: u64, shifts: &Shifts, met: &mut Met) -> Result<(), String> {
    let (t, u) = (tally(before)?, tally(after)?);
    let last = plain::groups(&c.bytes, rule).ends.last().copied();
    let differs = |copy: usize| last.map_or(false, |end| c.places.contains(&(end - 3 + copy, copy)));
    if (t.first != u.first && !differs(0)) || (t.second != u.second && !differs(1)) {
        return Err(format!("rule {rule}: a kept copy differs where the last group was not changed"));
    }
    met.kept_differ += (t.first != u.first || t.second != u.second) as u64;
    if after.state != State::of(&plain::read(&c.bytes, rule, shifts).tally) {
        return Err(format!("rule {rule}: the tally of a changed stream differs"));
    }
    Ok(())
}
