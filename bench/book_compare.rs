// The comparison of two books once more, from paper 02, request 9, and the proved one held to it. What a book holds is a map from instants to
// bodies; an answer is the list of lines, or the number of the refusal.

use std::collections::{BTreeMap, BTreeSet};

use crate::book::{cycle, fault, laid_out, offset, put_body, put_instant, BODY, MOST};
use crate::bridge;
use crate::codecs::TICKS_A_DAY;
use crate::stream::Random;

const TABLE: usize = 1530;

type Line = [u64; 3];

fn year(book: &[u8]) -> u64 {
    u64::from(book[2]) << 8 | u64::from(book[3])
}

// The bodies of an accepted book by their instants.
fn held(book: &[u8]) -> BTreeMap<u64, &[u8]> {
    let cycles = usize::from(book[0]) << 8 | usize::from(book[1]);
    let bodies = book[offset(cycles, 0)..].chunks_exact(BODY);
    bodies.filter_map(|body| Some((cycle(body, year(book))?, body))).collect()
}

fn line(instant: u64, first: Option<&&[u8]>, second: Option<&&[u8]>) -> Option<Line> {
    match (first, second) {
        (Some(_), None) => Some([instant, 1, 0]),
        (None, Some(_)) => Some([instant, 2, 0]),
        (Some(first), Some(second)) => first.iter().zip(*second).position(|(a, b)| a != b).map(|place| [instant, 3, place as u64]),
        (None, None) => None,
    }
}

fn compare(first: &[u8], second: &[u8], table: usize) -> Result<Vec<Line>, u8> {
    if table != TABLE {
        return Err(2);
    }
    fault(first).map_err(|(number, _)| number)?;
    fault(second).map_err(|(number, _)| number)?;
    if year(first) != year(second) {
        return Err(21);
    }
    let (first, second) = (held(first), held(second));
    let instants: BTreeSet<u64> = first.keys().chain(second.keys()).copied().collect();
    Ok(instants.into_iter().filter_map(|at| line(at, first.get(&at), second.get(&at))).collect())
}

const REFUSALS: [(&str, usize); 7] = [("2", 2), ("13", 13), ("16", 16), ("17", 17), ("18", 18), ("19", 19), ("21", 21)];

// What was met, so that one can see that every case was.
#[derive(Default)]
pub struct Met {
    equal: u64,
    cases: [u64; 3],
    full: u64,
    last_byte: u64,
    empty: [u64; 2],
    refused: [u64; 22],
}

impl Met {
    fn note(&mut self, first: &[u8], second: &[u8], wanted: &Result<Vec<Line>, u8>) {
        match wanted {
            Err(number) => self.refused[*number as usize] += 1,
            Ok(lines) => {
                self.equal += lines.is_empty() as u64;
                self.full += (lines.len() == TABLE / 3) as u64;
                lines.iter().for_each(|line| self.cases[line[1] as usize - 1] += 1);
                self.last_byte += lines.iter().any(|line| line[2] == BODY as u64 - 1) as u64;
                self.empty[0] += (first.len() == offset(0, 0)) as u64;
                self.empty[1] += (second.len() == offset(0, 0)) as u64;
            }
        }
    }

    // The cases and how often each was met.
    pub fn cases(&self) -> Vec<(&'static str, u64)> {
        let [first, second, both] = self.cases;
        let lists = [("equal", self.equal), ("only in the first", first), ("only in the second", second), ("in both", both)];
        let edges = [
            ("510 lines", self.full),
            ("the last byte alone", self.last_byte),
            ("the first of 0 cycles", self.empty[0]),
            ("the second of 0 cycles", self.empty[1]),
        ];
        let refused = REFUSALS.iter().map(|&(name, number)| (name, self.refused[number]));
        lists.into_iter().chain(edges).chain(refused).collect()
    }
}

// Instants of the year, rising, one or more apart.
fn any_instants(r: &mut Random, n: usize) -> Vec<u64> {
    let step = if r.one_in(3) { 1 } else { 364 * TICKS_A_DAY / n.max(1) as u64 };
    let first = TICKS_A_DAY + r.next() % (TICKS_A_DAY / 2);
    (0..n as u64).map(|i| first + step * i).collect()
}

// Changes a byte that may be any, often the last.
fn change(r: &mut Random, body: &mut [u8]) {
    let place = if r.one_in(2) { BODY - 1 } else { 128 * r.below(512) + 3 + r.below(60) };
    body[place] ^= 1 << r.below(8);
}

// Two lists of bodies: each instant has a body in the first, in the second, or in both, where they may differ.
fn any_two(r: &mut Random) -> [Vec<u8>; 2] {
    let full = r.one_in(150);
    let n = if full { 2 * MOST } else { r.below(9) };
    let only = r.below(5);
    let mut body = vec![0; BODY];
    put_body(r, &mut body, &[]);
    let mut bodies = [Vec::new(), Vec::new()];
    for (i, instant) in any_instants(r, n).into_iter().enumerate() {
        body[3] = r.byte();
        put_instant(r, &mut body, instant);
        let place = if full { i % 2 } else { [r.below(4), r.below(4), 2, 0, 1][only] };
        if place != 1 {
            bodies[0].extend_from_slice(&body);
        }
        if place == 3 {
            change(r, &mut body);
        }
        if place != 0 {
            bodies[1].extend_from_slice(&body);
        }
    }
    bodies
}

// Makes a fault, or another year; or neither.
fn spoil(r: &mut Random, book: &mut Vec<u8>) {
    let cycles = book.len() / BODY;
    match r.below(8) {
        0 => book.truncate([0, 3, book.len() - 1][r.below(3)]),
        1 => book[2..4].copy_from_slice(&[1998u16, 2001, 2002, 2100][r.below(4)].to_be_bytes()),
        2 if cycles > 0 => book[offset(cycles, cycles - 1) + r.below(3)] ^= 1,
        3 if cycles > 0 => book[4 + r.below(8)] ^= 1,
        4 if cycles > 0 => book[12 + r.below(4)] ^= 1,
        _ => {}
    }
}

fn trial(r: &mut Random, first: &[u8], second: &[u8], met: &mut Met) -> Result<(), String> {
    let size = if r.one_in(12) { [0, TABLE - 3, TABLE - 1, TABLE + 1, TABLE + 3][r.below(5)] } else { TABLE };
    let wanted = compare(first, second, size);
    met.note(first, second, &wanted);
    let lent: Vec<u64> = (0..size).map(|_| r.next()).collect();
    let (mut left, lines) = (lent.clone(), r.next());
    let mut count = lines;
    let number = bridge::book_compare(first, second, &mut left, &mut count);
    let refusal = wanted.as_ref().err().copied().unwrap_or(0);
    let many = wanted.as_ref().map_or(lines, |lines| lines.len() as u64);
    if (number, count) != (refusal, many) {
        return Err(format!("book_compare answers {number} and {count} lines, not {refusal} and {many}"));
    }
    let told: Vec<u64> = wanted.unwrap_or_default().concat();
    match (0..size).find(|&i| left[i] != *told.get(i).unwrap_or(&lent[i])) {
        Some(i) => Err(format!("book_compare answers {number} and leaves {} at {i} of the table", left[i])),
        None => Ok(()),
    }
}

pub fn trials(r: &mut Random, met: &mut Met) -> Result<(), String> {
    let [first, second] = any_two(r);
    let [mut first, mut second] = [laid_out(2001, &first), laid_out(2001, &second)];
    if r.one_in(2) {
        spoil(r, &mut first);
        spoil(r, &mut second);
    }
    let what = (first.len(), second.len());
    trial(r, &first, &second, met).map_err(|error| format!("{error}, for files of {what:?} bytes"))
}
