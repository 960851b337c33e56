// The codecs of word 72's times and numbers once more, from paper 01 and paper 02's request 4, and the proved ones held to them. An answer is
// the bytes or the value, or the number of the refusal.

use crate::bridge;
use crate::entry::{lent, same};
use crate::stream::Random;

pub const TICKS_A_DAY: u64 = 24 * 60 * 60 * 1000 * 16;

// A year of the span, or refusal 13.
pub fn in_span(year: u64) -> Result<(), u8> {
    if (1999..2100).contains(&year) { Ok(()) } else { Err(13) }
}

// Day 366 is good in a year that is divisible by 4.
pub fn days(year: u64) -> u64 {
    365 + u64::from(year & 3 == 0)
}

// A year of any sort: both ends of the span and what lies beside them, leap years and common ones, 2000 and 2100, any within, any number.
pub fn any_year(r: &mut Random) -> u64 {
    const YEARS: [u64; 10] = [1998, 1999, 2000, 2001, 2004, 2099, 2100, 0, u64::MAX, (1 << 32) + 2000];
    match r.below(8) {
        0..=2 => YEARS[r.below(10)],
        3 => r.next(),
        _ => 1999 + r.below(101) as u64,
    }
}

// Spacecraft and instant.
pub fn read_time(year: u64, bytes: &[u8]) -> Result<[u64; 2], u8> {
    if bytes.len() != 7 {
        return Err(2);
    }
    in_span(year)?;
    let halves: Vec<u64> = bytes.iter().flat_map(|&b| [u64::from(b >> 4), u64::from(b & 15)]).collect();
    if halves[1..13].iter().any(|&digit| digit > 9) {
        return Err(8);
    }
    let number = |digits: &[u64]| digits.iter().fold(0, |n, digit| 10 * n + digit);
    let (day, hour, minute, second) = (number(&halves[1..4]), number(&halves[4..6]), number(&halves[6..8]), number(&halves[8..10]));
    if day < 1 || day > days(year) || hour > 23 || minute > 59 || second > 59 {
        return Err(8);
    }
    let millisecond = number(&halves[10..13]);
    let seconds = ((day * 24 + hour) * 60 + minute) * 60 + second;
    Ok([halves[0], (seconds * 1000 + millisecond) * 16 + halves[13]])
}

pub fn write_time(year: u64, spacecraft: u64, instant: u64, out: usize) -> Result<Vec<u8>, u8> {
    if out != 7 {
        return Err(2);
    }
    in_span(year)?;
    if spacecraft > 15 || instant < TICKS_A_DAY || instant >= (days(year) + 1) * TICKS_A_DAY {
        return Err(8);
    }
    let (sixteenths, milliseconds) = (instant % 16, instant / 16);
    let seconds = milliseconds / 1000;
    let digits = format!(
        "{:03}{:02}{:02}{:02}{:03}",
        seconds / 86_400,
        seconds / 3600 % 24,
        seconds / 60 % 60,
        seconds % 60,
        milliseconds % 1000
    );
    let mut halves = vec![spacecraft as u8];
    halves.extend(digits.bytes().map(|d| d - b'0'));
    halves.push(sixteenths as u8);
    Ok(halves.chunks(2).map(|pair| 16 * pair[0] + pair[1]).collect())
}

pub fn read_number(bytes: &[u8]) -> Result<f64, u8> {
    if bytes.len() != 6 {
        return Err(2);
    }
    if bytes.iter().all(|&b| b == 0) {
        return Ok(0.0);
    }
    let m = i64::from_be_bytes([bytes[0], bytes[1], bytes[2], bytes[4], bytes[5], 0, 0, 0]) >> 24;
    if bytes[0] >> 7 == bytes[0] >> 6 & 1 {
        return Err(10);
    }
    // Exact: m has 40 bits, and the power of two is far from a double's limits.
    Ok(m as f64 * 2f64.powi(i32::from(bytes[3] as i8) - 39))
}

// Tries every exponent.
fn write_number(x: f64, out: usize) -> Result<Vec<u8>, u8> {
    if out != 6 {
        return Err(2);
    }
    if x.to_bits() == 0 {
        return Ok(vec![0; 6]);
    }
    let high = 2f64.powi(39);
    for e in -128..128 {
        let m = x * 2f64.powi(39 - e);
        let normalised = (m >= high / 2.0 && m < high) || (m >= -high && m < -high / 2.0);
        if normalised && m.fract() == 0.0 {
            let b = (m as i64).to_be_bytes();
            return Ok(vec![b[3], b[4], b[5], e as u8, b[6], b[7]]);
        }
    }
    Err(11)
}

fn time_trials(r: &mut Random) -> Result<(), String> {
    const DAY: u64 = TICKS_A_DAY;
    const EDGES: [u64; 9] =
        [0, DAY - 1, DAY, 366 * DAY - 1, 366 * DAY, 366 * DAY + DAY / 2, 367 * DAY - 1, 367 * DAY, u64::MAX];
    let year = any_year(r);
    let instant = if r.one_in(3) { EDGES[r.below(9)] } else { r.next() % (368 * DAY) };
    let spacecraft = if r.one_in(8) { r.next() } else { r.below(17) as u64 };
    let old = lent(r, 7);
    let mut new = old.clone();
    let number = bridge::encode_time(year, spacecraft, instant, &mut new);
    same("encode_time", write_time(year, spacecraft, instant, old.len()), old, number, new.clone())
        .map_err(|what| format!("{what}, for {spacecraft} and {instant} in {year}"))?;

    if r.one_in(2) && !new.is_empty() {
        let at = r.below(new.len());
        new[at] = r.byte();
    }
    // By the year that it was written with, or by another.
    let year = if r.one_in(2) { year } else { any_year(r) };
    let before = [r.next(), r.next()];
    let mut out = before;
    let number = bridge::decode_time(year, &new, &mut out);
    same("decode_time", read_time(year, &new), before, number, out).map_err(|what| format!("{what}, for {new:02X?} in {year}"))
}

fn number_trials(r: &mut Random) -> Result<(), String> {
    let mut bytes = lent(r, 6);
    if r.one_in(4) {
        bytes.iter_mut().for_each(|b| *b = [0, 0x40, 0x80, 0xBF, 0xC0, 0xFF][r.below(6)]);
    }
    let before = 0.125f64;
    let mut x = before;
    let number = bridge::decode_number(&bytes, &mut x);
    same("decode_number", read_number(&bytes).map(f64::to_bits), before.to_bits(), number, x.to_bits())
        .map_err(|what| format!("{what}, for {bytes:02X?}"))?;

    const SPECIAL: [f64; 6] = [0.0, -0.0, f64::INFINITY, f64::NEG_INFINITY, f64::NAN, f64::MIN_POSITIVE];
    let x = match r.below(6) {
        0 => f64::from_bits(r.next()),
        1 => SPECIAL[r.below(6)],
        // Powers of two, at both ends of the exponent.
        2 => (if r.one_in(2) { -1.0 } else { 1.0 }) * 2f64.powi(r.below(280) as i32 - 140),
        3 => f64::from_bits(x.to_bits() ^ 1 << r.below(64)),
        _ => x,
    };
    let old = lent(r, 6);
    let mut new = old.clone();
    let number = bridge::encode_number(x, &mut new);
    same("encode_number", write_number(x, old.len()), old, number, new).map_err(|what| format!("{what}, for {x:e}"))
}

pub fn trials(r: &mut Random) -> Result<(), String> {
    for _ in 0..8 {
        time_trials(r)?;
        number_trials(r)?;
    }
    Ok(())
}
