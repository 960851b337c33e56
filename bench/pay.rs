// The pay system's five entries once more, from paper 02, request 14, over what else is written here from the papers, and the proved ones held to
// them: what is returned, and all bytes that are lent for the answer.

use crate::codecs::{self, TICKS_A_DAY};
use crate::entry::lent;
use crate::lookup;
use crate::pay_api;
use crate::plain;
use crate::stream::Random;
use crate::tally::{BY_BITS, BY_BYTES};

const ANSWER: usize = 16;

// The refusal number and the result, 0 where refused; a lent answer of another length stays as it is.
fn wanted(outcome: Result<u64, u8>, lent: &[u8]) -> (u8, Vec<u8>) {
    if lent.len() != ANSWER {
        return (2, lent.to_vec());
    }
    let (number, result) = outcome.map_or_else(|number| (number, 0), |result| (0, result));
    (number, [u64::from(number).to_be_bytes(), result.to_be_bytes()].concat())
}

fn find(bytes: &[u8], wanted: u64) -> Result<u64, u8> {
    if bytes.len() % 8 != 0 {
        return Err(2);
    }
    let instants: Vec<u64> = bytes.chunks(8).map(|eight| u64::from_be_bytes(eight.try_into().unwrap())).collect();
    if instants.len() > lookup::MOST {
        return Err(12);
    }
    let [count, looks] = lookup::halve(&instants, wanted);
    Ok(count << 32 | looks)
}

// What the calls were like.
#[derive(Default)]
pub struct Met {
    other_answer: u64,
    split: u64,
    // By the number of the refusal.
    refused: [u64; 14],
}

impl Met {
    pub fn cases(&self) -> Vec<(&'static str, u64)> {
        let [accepted, _, wrong_length, _, _, _, _, _, time, _, number, _, list, year] = self.refused;
        vec![
            ("accepted", accepted),
            ("split", self.split),
            ("refused 2 for the answer", self.other_answer),
            ("2", wrong_length),
            ("8", time),
            ("10", number),
            ("12", list),
            ("13", year),
        ]
    }

    // A call that wants this outcome, with an answer of any sort lent to it.
    fn hold(&mut self, outcome: Result<u64, u8>, r: &mut Random, call: impl Fn(&mut [u8]) -> u8) -> Result<(), String> {
        let lent = lent(r, ANSWER);
        match outcome {
            _ if lent.len() != ANSWER => self.other_answer += 1,
            Err(number) => self.refused[usize::from(number)] += 1,
            Ok(_) => self.refused[0] += 1,
        }
        let wants = wanted(outcome, &lent);
        let mut left = lent;
        let number = call(&mut left);
        let has = (number, left);
        if has == wants {
            return Ok(());
        }
        Err(format!("has {has:02X?}, wants {wants:02X?}"))
    }
}

fn votes(r: &mut Random, met: &mut Met) -> Result<(), String> {
    // Often two copies are equal.
    let few = [r.telling_byte(), r.telling_byte()];
    let [a, b, c] = [0; 3].map(|_: u8| if r.one_in(3) { r.byte() } else { few[r.below(2)] });
    let word = |rule| plain::vote(rule, [a, b, c]).map_or(256, u64::from);
    met.split += u64::from(word(BY_BYTES) == 256);
    let of = |what| format!("the vote of {a:02X} {b:02X} {c:02X}: {what}");
    met.hold(Ok(word(BY_BYTES)), r, |answer| pay_api::vote_bytes(a, b, c, answer)).map_err(of)?;
    met.hold(Ok(word(BY_BITS)), r, |answer| pay_api::vote_bits(a, b, c, answer)).map_err(of)
}

// A time of some year, now and then with a byte changed or of another length.
fn any_code(r: &mut Random) -> Vec<u8> {
    let instant = TICKS_A_DAY + r.next() % (366 * TICKS_A_DAY);
    let code = codecs::write_time(2000, r.below(16) as u64, instant, 7);
    let mut code = if r.one_in(8) { lent(r, 7) } else { code.unwrap() };
    if r.one_in(3) && !code.is_empty() {
        let at = r.below(code.len());
        code[at] = r.byte();
    }
    code
}

fn reading(r: &mut Random, met: &mut Met) -> Result<(), String> {
    let (year, code) = (codecs::any_year(r), any_code(r));
    let instant = codecs::read_time(year, &code).map(|[_, instant]| instant);
    met.hold(instant, r, |answer| pay_api::instant(&code, year, answer)).map_err(|what| format!("the time {code:02X?} in {year}: {what}"))?;
    let word = lent(r, 6);
    let bits = codecs::read_number(&word).map(f64::to_bits);
    met.hold(bits, r, |answer| pay_api::number(&word, answer)).map_err(|what| format!("the number {word:02X?}: {what}"))
}

fn finding(r: &mut Random, met: &mut Met) -> Result<(), String> {
    let mut list = lookup::any_list(r);
    if r.one_in(50) {
        list.resize(lookup::MOST - 1 + r.below(4), u64::MAX);
    }
    let mut bytes: Vec<u8> = list.iter().flat_map(|x| x.to_be_bytes()).collect();
    if r.one_in(6) {
        bytes.resize(bytes.len() + r.below(9), 0xFF);
    }
    for _ in 0..4 {
        let instant = lookup::any_wanted(r, &list);
        let outcome = find(&bytes, instant);
        met.hold(outcome, r, |answer| pay_api::find(&bytes, instant, answer))
            .map_err(|what| format!("{instant} among {} bytes: {what}", bytes.len()))?;
    }
    Ok(())
}

pub fn trials(r: &mut Random, met: &mut Met) -> Result<(), String> {
    for _ in 0..8 {
        votes(r, met)?;
        reading(r, met)?;
    }
    finding(r, met)
}
