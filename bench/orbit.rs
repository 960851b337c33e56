// The records of a cycle once more, from the book (DFCB 3.2.7.4.2 to 3.2.7.4.8), and the proved entries held to them. An answer is what is given, or the
// number of the refusal. Doubles are compared by their bits.

use crate::book::{self, column_place, BODY};
use crate::bridge;
use crate::codecs::{any_year, days, in_span, read_number, TICKS_A_DAY};
use crate::entry::same;
use crate::stream::Random;

const TICKS_A_SECOND: f64 = 16_000.0;

// The bytes of so many places of major frame k's column.
fn places<const N: usize>(body: &[u8], k: u64, first: usize) -> [u8; N] {
    std::array::from_fn(|i| body[column_place(k as usize, first + i)])
}

// A two's complement count times 2^-places; exact, as 32 bits are far fewer than a double has.
fn value(body: &[u8], k: u64, first: usize, places_after: i32) -> u64 {
    (f64::from(i32::from_be_bytes(places(body, k, first))) * 2f64.powi(-places_after)).to_bits()
}

// The instant of the cycle, where it is one.
fn cycle(body: &[u8], year: u64, k: u64) -> Result<u64, u8> {
    if body.len() != BODY {
        return Err(2);
    }
    in_span(year)?;
    if k > 3 {
        return Err(6);
    }
    book::cycle(body, year).ok_or(17)
}

// The instant of the records of major frame k.
fn dated(body: &[u8], year: u64, k: u64) -> Result<u64, u8> {
    let code = cycle(body, year, k)? as i64;
    let instant = code + ([-8.192, -4.096, 0.0, 4.096][k as usize] * TICKS_A_SECOND).round() as i64;
    let (first, end) = (TICKS_A_DAY as i64, ((days(year) + 1) * TICKS_A_DAY) as i64);
    if (first..end).contains(&instant) { Ok(instant as u64) } else { Err(8) }
}

pub fn temperatures(body: &[u8], year: u64, k: u64) -> Result<[u64; 4], u8> {
    cycle(body, year, k)?;
    let counts = [108, 110, 112, 114].map(|first| u16::from_be_bytes(places(body, k, first)));
    if counts.iter().any(|&dn| dn > 0xFFF) {
        return Err(9);
    }
    Ok(counts.map(|dn| (50.0 - f64::from(dn) * (50.0 / 4096.0)).to_bits()))
}

pub fn gyro_drift(body: &[u8], year: u64) -> Result<(u64, [u64; 3]), u8> {
    let instant = dated(body, year, 0)?;
    Ok((instant, [16, 20, 24].map(|first| value(body, 0, first, 47))))
}

pub fn attitude(body: &[u8], year: u64, k: u64) -> Result<(u64, [i64; 4]), u8> {
    let instant = dated(body, year, k)?;
    Ok((instant, [0, 4, 8, 12].map(|first| i64::from(i32::from_be_bytes(places(body, k, first))))))
}

pub fn clock(body: &[u8], year: u64) -> Result<(u64, [u64; 3]), u8> {
    cycle(body, year, 0)?;
    let updated = read_number(&places::<6>(body, 0, 28))?;
    Ok((updated.to_bits(), [36, 38, 40].map(|first| u64::from(u16::from_be_bytes(places(body, 0, first))))))
}

pub fn ephemeris(body: &[u8], year: u64, k: u64) -> Result<(u64, [u64; 6]), u8> {
    let instant = dated(body, year, k)?;
    let first = if k == 0 || k == 2 { 50 } else { 16 };
    let place = |i: usize| value(body, k, first + 4 * i, if i < 3 { 8 } else { 28 });
    Ok((instant, std::array::from_fn(place)))
}

// What was met, by refusal number, so that one can see that every case was: of a record of major frame k, temperatures and the clock.
#[derive(Default)]
pub struct Met {
    dated: [u64; 18],
    temperatures: [u64; 18],
    clock: [u64; 18],
}

impl Met {
    pub fn cases(&self) -> Vec<(&'static str, u64)> {
        vec![
            ("ephemeris", self.dated[0]),
            ("refused 2", self.dated[2]),
            ("refused 13", self.dated[13]),
            ("refused 6", self.dated[6]),
            ("refused 17", self.dated[17]),
            ("refused 8", self.dated[8]),
            ("temperatures", self.temperatures[0]),
            ("refused 9", self.temperatures[9]),
            ("clock", self.clock[0]),
            ("refused 10", self.clock[10]),
        ]
    }
}

fn number<T>(answer: &Result<T, u8>) -> usize {
    usize::from(*answer.as_ref().err().unwrap_or(&0))
}

// Somewhere in the year, or within ten seconds of its first or its last instant.
fn any_instant(r: &mut Random, year: u64) -> u64 {
    let end = (days(year) + 1) * TICKS_A_DAY;
    let near = r.next() % 160_000;
    match r.below(4) {
        0 => TICKS_A_DAY + near,
        1 => end - 1 - near,
        _ => TICKS_A_DAY + r.next() % (end - TICKS_A_DAY),
    }
}

// A cycle of the year, mostly with temperatures and a clock that are not refused.
pub fn any_body(r: &mut Random, year: u64) -> Vec<u8> {
    let mut body = vec![0; BODY];
    book::put_body(r, &mut body, &[]);
    let instant = any_instant(r, year);
    book::put_instant(r, &mut body, instant);
    for k in 0..4 {
        for place in [108, 110, 112, 114] {
            if !r.one_in(20) {
                body[column_place(k, place)] %= 16;
            }
        }
    }
    if !r.one_in(6) {
        let first = column_place(0, 28);
        body[first] = body[first] % 64 + [64, 128][r.below(2)];
    }
    body
}

fn trial(r: &mut Random, body: &[u8], year: u64, k: u64, met: &mut Met) -> Result<(), String> {
    let (lent, instant) = (0.375f64, r.next());
    let bits = lent.to_bits();
    let mut out = [lent; 4];
    let answer = bridge::temperatures(body, year, k, &mut out);
    let wanted = temperatures(body, year, k);
    met.temperatures[number(&wanted)] += 1;
    same("temperatures", wanted, [bits; 4], answer, out.map(f64::to_bits))?;
    let (mut out, mut left) = ([lent; 3], instant);
    let answer = bridge::gyro_drift(body, year, &mut left, &mut out);
    same("gyro_drift", gyro_drift(body, year), (instant, [bits; 3]), answer, (left, out.map(f64::to_bits)))?;
    let (mut out, mut left) = ([-7; 4], instant);
    let answer = bridge::attitude(body, year, k, &mut left, &mut out);
    same("attitude", attitude(body, year, k), (instant, [-7; 4]), answer, (left, out))?;
    let (mut out, mut left) = ([7; 3], lent);
    let answer = bridge::clock(body, year, &mut left, &mut out);
    let wanted = clock(body, year);
    met.clock[number(&wanted)] += 1;
    same("clock", wanted, (bits, [7; 3]), answer, (left.to_bits(), out))?;
    let (mut out, mut left) = ([lent; 6], instant);
    let answer = bridge::ephemeris(body, year, k, &mut left, &mut out);
    let wanted = ephemeris(body, year, k);
    met.dated[number(&wanted)] += 1;
    same("ephemeris", wanted, (instant, [bits; 6]), answer, (left, out.map(f64::to_bits)))
}

pub fn trials(r: &mut Random, met: &mut Met) -> Result<(), String> {
    let year = if r.one_in(6) { any_year(r) } else { 1999 + r.below(101) as u64 };
    // A year that has days; what is asked is this one.
    let recorded = if in_span(year).is_ok() { year } else { 2000 };
    let mut body = any_body(r, recorded);
    if r.one_in(4) {
        book::spoil_body(r, &mut body, recorded);
    }
    if r.one_in(8) {
        body.resize([0, 1, BODY - 1, BODY + 1][r.below(4)], 0);
    }
    for _ in 0..4 {
        let k = if r.one_in(8) { [4, 5, 256, 1 << 32, u64::MAX][r.below(5)] } else { r.below(4) as u64 };
        trial(r, &body, year, k, met).map_err(|what| format!("{what}, for year {year} and major frame {k}"))?;
    }
    Ok(())
}
