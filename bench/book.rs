// The book of cycles once more, from paper 02, requests 7 and 8, and the proved entries held to it. An answer is what is given, or the number of the
// refusal.

use crate::bridge;
use crate::codecs::{self, days, in_span, read_time, write_time, TICKS_A_DAY};
use crate::entry::same;
use crate::stream::Random;
use crate::tally::{AREA, FRAME, FRAME_SYNC, NUMBER_PLACE};

const HEADER: usize = 4;
const ENTRY: usize = 12;
pub const BODY: usize = 4 * AREA;
pub const MOST: usize = 255;
const WORD: usize = 72;

pub fn size(cycles: usize) -> usize {
    HEADER + (ENTRY + BODY) * cycles
}

pub fn offset(cycles: usize, i: usize) -> usize {
    HEADER + ENTRY * cycles + BODY * i
}

fn number(bytes: &[u8]) -> u64 {
    bytes.iter().fold(0, |n, &b| n << 8 | u64::from(b))
}

// Where in a body a place of major frame k's column is.
pub fn column_place(k: usize, place: usize) -> usize {
    AREA * k + FRAME * place + WORD
}

// The instant of a body: none where it is not as described.
pub fn cycle(body: &[u8], year: u64) -> Option<u64> {
    let whole = |(at, minor): (usize, &[u8])| minor[..3] == FRAME_SYNC && usize::from(minor[NUMBER_PLACE]) == at % FRAME;
    let column = |k: usize| (0..FRAME).map(|place| body[column_place(k, place)]).collect::<Vec<u8>>();
    // 0 where the column bears none.
    let identifier = |k: usize| (1..4).find(|&id| column(k)[96..104] == [id; 8]).unwrap_or(0);
    if !body.chunks_exact(FRAME).enumerate().all(whole) || (0..4).any(|k| usize::from(identifier(k)) != k) {
        return None;
    }
    read_time(year, &column(0)[96..103]).ok().map(|[_, instant]| instant)
}

// The bytes of a book, whether or not these are cycles: instants stand where there are some.
pub fn laid_out(year: u64, bodies: &[u8]) -> Vec<u8> {
    let cycles = bodies.len() / BODY;
    let mut book = Vec::with_capacity(size(cycles));
    book.extend_from_slice(&(cycles as u16).to_be_bytes());
    book.extend_from_slice(&(year as u16).to_be_bytes());
    for (i, body) in bodies.chunks_exact(BODY).enumerate() {
        book.extend_from_slice(&cycle(body, year).unwrap_or(0).to_be_bytes());
        book.extend_from_slice(&(offset(cycles, i) as u32).to_be_bytes());
    }
    book.extend_from_slice(bodies);
    book
}

fn write(year: u64, bodies: &[u8], out: usize) -> Result<Vec<u8>, u8> {
    let cycles = bodies.len() / BODY;
    if bodies.len() % BODY != 0 || out != size(cycles) {
        return Err(2);
    }
    in_span(year)?;
    if cycles > MOST {
        return Err(16);
    }
    let instants: Vec<u64> = bodies.chunks_exact(BODY).map(|body| cycle(body, year)).collect::<Option<_>>().ok_or(17)?;
    if instants.windows(2).any(|two| two[0] >= two[1]) {
        return Err(18);
    }
    Ok(laid_out(year, bodies))
}

// The number of cycles and the year, where the length is theirs.
fn header(book: &[u8]) -> Result<[u64; 2], u8> {
    if book.len() < HEADER {
        return Err(16);
    }
    let [cycles, year] = [number(&book[..2]), number(&book[2..4])];
    if cycles > MOST as u64 || book.len() != size(cycles as usize) {
        return Err(16);
    }
    Ok([cycles, year])
}

// The first fault, and the lowest entry that has it.
pub fn fault(book: &[u8]) -> Result<(), (u8, usize)> {
    if book.len() >= HEADER {
        in_span(number(&book[2..4])).map_err(|number| (number, 0))?;
    }
    let [cycles, year] = header(book).map_err(|number| (number, 0))?;
    let (entries, bodies) = book[HEADER..].split_at(ENTRY * cycles as usize);
    let instants: Vec<Option<u64>> = bodies.chunks_exact(BODY).map(|body| cycle(body, year)).collect();
    let stored: Vec<Option<u64>> = entries.chunks_exact(ENTRY).map(|entry| Some(number(&entry[..8]))).collect();
    let offsets: Vec<u64> = entries.chunks_exact(ENTRY).map(|entry| number(&entry[8..])).collect();
    let lowest = |number: u8, wrong: &dyn Fn(usize) -> bool| (0..cycles as usize).find(|&i| wrong(i)).map_or(Ok(()), |i| Err((number, i)));
    lowest(17, &|i| instants[i].is_none())?;
    lowest(18, &|i| stored[i] != instants[i] || (i > 0 && stored[i] <= stored[i - 1]))?;
    lowest(19, &|i| offsets[i] != offset(cycles as usize, i) as u64)
}

// Where entry i and body i stand, and their lengths.
fn part(book: &[u8], i: u64) -> Result<[[u64; 2]; 2], u8> {
    let [cycles, _] = header(book)?;
    if i >= cycles {
        return Err(20);
    }
    let (cycles, i) = (cycles as usize, i as usize);
    Ok([[(HEADER + ENTRY * i) as u64, ENTRY as u64], [offset(cycles, i) as u64, BODY as u64]])
}

const CYCLES: [(&str, usize); 5] = [("of 0 cycles", 0), ("of 1", 1), ("of 2", 2), ("of 255", MOST), ("of 256", MOST + 1)];

// What was met, so that one can see that every case was.
#[derive(Default)]
pub struct Met {
    cycles: [u64; CYCLES.len()],
    written: [u64; 19],
    viewed: [u64; 20],
    // The faults 17, 18 and 19 at the first entry, between, and at the last.
    at: [[u64; 3]; 3],
    no_entry: u64,
}

impl Met {
    fn fault(&mut self, number: u8, entry: usize, cycles: usize) {
        self.viewed[number as usize] += 1;
        if number >= 17 && cycles >= 3 {
            let place = if entry == 0 { 0 } else if entry + 1 < cycles { 1 } else { 2 };
            self.at[number as usize - 17][place] += 1;
        }
    }

    // The cases and how often each was met.
    pub fn cases(&self) -> Vec<(&'static str, u64)> {
        const WRITTEN: [(&str, usize); 6] = [("written", 0), ("write 2", 2), ("write 13", 13), ("write 16", 16), ("write 17", 17), ("write 18", 18)];
        const VIEWED: [(&str, usize); 6] = [("viewed", 0), ("view 13", 13), ("view 16", 16), ("view 17", 17), ("view 18", 18), ("view 19", 19)];
        const AT: [[&str; 3]; 3] = [
            ["17 at the first entry", "17 between", "17 at the last"],
            ["18 at the first entry", "18 between", "18 at the last"],
            ["19 at the first entry", "19 between", "19 at the last"],
        ];
        let cycles = CYCLES.iter().map(|&(name, _)| name).zip(self.cycles);
        let written = WRITTEN.iter().map(|&(name, n)| (name, self.written[n]));
        let viewed = VIEWED.iter().map(|&(name, n)| (name, self.viewed[n]));
        let at = AT.into_iter().flatten().zip(self.at.into_iter().flatten());
        cycles.chain(written).chain(viewed).chain(at).chain([("part 20", self.no_entry)]).collect()
    }
}

// A body as described but for its time code, which is this one.
pub fn put_body(r: &mut Random, body: &mut [u8], code: &[u8]) {
    r.fill(body);
    for (at, minor) in body.chunks_exact_mut(FRAME).enumerate() {
        minor[..3].copy_from_slice(&FRAME_SYNC);
        minor[NUMBER_PLACE] = (at % FRAME) as u8;
    }
    put_column(body, 0, code);
    (1..4).for_each(|k| put_column(body, k, &[k as u8; 8]));
}

// Bytes of major frame k's column, from place 96 on.
fn put_column(body: &mut [u8], k: usize, bytes: &[u8]) {
    for (place, &byte) in bytes.iter().enumerate() {
        body[column_place(k, 96 + place)] = byte;
    }
}

// In a leap year's writing, so that day 366 can be put too.
pub fn put_instant(r: &mut Random, body: &mut [u8], instant: u64) {
    if let Ok(code) = write_time(2000, r.below(16) as u64, instant, 7) {
        put_column(body, 0, &code);
    }
}

// Bodies of a year whose instants rise by as little as they can, or by more.
pub fn any_bodies(r: &mut Random, cycles: usize, year: u64) -> Vec<u8> {
    let days = days(year);
    let step = if r.one_in(3) { 1 } else { days * TICKS_A_DAY / 300 };
    // The last one may be the year's last.
    let last = (days + 1) * TICKS_A_DAY - 1 - if r.one_in(2) { 0 } else { r.next() % (days * TICKS_A_DAY / 10) };
    let mut bodies = vec![0; BODY * cycles];
    for (i, body) in bodies.chunks_exact_mut(BODY).enumerate() {
        put_body(r, body, &[]);
        put_instant(r, body, last - step * (cycles - 1 - i) as u64);
    }
    bodies
}

fn any_cycles(r: &mut Random) -> usize {
    match r.below(150) {
        0 => MOST,
        1 => MOST + 1,
        2..=25 => 0,
        26..=55 => 1,
        56..=90 => 2,
        _ => 3 + r.below(4),
    }
}

// The first, a middle or the last one.
fn any_place(r: &mut Random, cycles: usize) -> usize {
    [0, cycles / 2, cycles - 1][r.below(3)]
}

// Makes a body otherwise than described, or its instant no later than that before; or neither, by a byte that may be any.
pub fn spoil_body(r: &mut Random, bodies: &mut [u8], year: u64) {
    let cycles = bodies.len() / BODY;
    let i = any_place(r, cycles);
    let before = i.checked_sub(1).and_then(|i| cycle(&bodies[BODY * i..BODY * (i + 1)], year));
    let body = &mut bodies[BODY * i..BODY * (i + 1)];
    let minor = FRAME * [0, 1, 127, 128, 255, 256, 511, r.below(512)][r.below(8)];
    let k = 1 + r.below(3);
    let day_366 = 366 * TICKS_A_DAY + r.next() % TICKS_A_DAY;
    let no_later = before.map(|before| before - r.below(2) as u64);
    match r.below(13) {
        0 => body[minor + r.below(3)] ^= 1 << r.below(8),
        1 => body[minor + NUMBER_PLACE] ^= 1 << r.below(8),
        2 => body[column_place(k, 96 + r.below(8))] = [0, 1, 2, 3, 4, r.byte()][r.below(6)],
        // Another kind's identifier, or a good time.
        3 => put_column(body, k, &[1 + (k % 3) as u8; 8]),
        4 => put_column(body, k, &[0x71, 0x23, 0x04, 0x56, 0x07, 0x89, 0x0F]),
        // A time that is an identifier, or nearly so.
        5 => put_column(body, 0, &[k as u8; 8]),
        6 => {
            put_column(body, 0, &[k as u8; 8]);
            body[column_place(0, 96 + r.below(8))] ^= 1;
        }
        7 => body[column_place(0, 96 + r.below(7))] = r.byte(),
        8 => put_instant(r, body, day_366),
        9..=11 => put_instant(r, body, no_later.unwrap_or(day_366)),
        _ => body[minor + 3 + r.below(60)] = r.byte(),
    }
}

fn any_year(r: &mut Random) -> u64 {
    if r.one_in(6) { codecs::any_year(r) } else { 1999 + r.below(101) as u64 }
}

fn write_trial(r: &mut Random, year: u64, bodies: &[u8], met: &mut Met) -> Result<(), String> {
    let given = if r.one_in(10) { &bodies[..r.below(bodies.len() + 1)] } else { bodies };
    let right = size(bodies.len() / BODY);
    let length = if r.one_in(10) { [0, 4, right - 1, right + 1, right + ENTRY, right + BODY][r.below(6)] } else { right };
    let mut lent = vec![0; length];
    let some = length.min(4096);
    r.fill(&mut lent[..some]);
    let mut left = lent.clone();
    let number = bridge::book_write(year, given, &mut left);
    let wanted = write(year, given, length);
    met.written[wanted.as_ref().err().copied().unwrap_or(0) as usize] += 1;
    let refusal = wanted.as_ref().err().copied().unwrap_or(0);
    if number != refusal {
        return Err(format!("book_write answers {number}, not {refusal}, for year {year} and {} bytes into {length}", given.len()));
    }
    match left.iter().zip(&wanted.unwrap_or(lent)).position(|(a, b)| a != b) {
        Some(at) => Err(format!("book_write answers {number} and leaves another byte at {at}, for year {year} and {} bytes", given.len())),
        None => Ok(()),
    }
}

// Changes a file: its header, an entry, its length, or any byte.
fn spoil_file(r: &mut Random, book: &mut Vec<u8>, cycles: usize) {
    let place = if cycles == 0 { 0 } else { HEADER + ENTRY * any_place(r, cycles) };
    match r.below(9) {
        0 => book[2..4].copy_from_slice(&(any_year(r) as u16).to_be_bytes()),
        1 => book[r.below(4)] ^= 1 << r.below(8),
        2 => book.truncate([0, 1, 2, 3, 4, book.len() - 1][r.below(6)]),
        3 => book.resize(book.len() + [1, ENTRY, 128][r.below(3)], 0),
        4 if cycles != 0 => book[place + r.below(8)] ^= 1 << r.below(8),
        5 | 6 if cycles != 0 => book[place + 8 + r.below(4)] ^= 1 << r.below(8),
        // An instant as late as the next entry's.
        7 if cycles > 1 => {
            let at = HEADER + ENTRY * r.below(cycles - 1);
            book.copy_within(at + ENTRY..at + ENTRY + 8, at);
        }
        _ => {
            let at = r.below(book.len());
            book[at] = r.byte();
        }
    }
}

fn view_trial(r: &mut Random, book: &[u8], met: &mut Met) -> Result<(), String> {
    let wanted = fault(book);
    let (refusal, entry) = wanted.err().unwrap_or((0, 0));
    met.fault(refusal, entry, book.len() / BODY);
    let number = bridge::book_view_refusal(book);
    if number != refusal {
        return Err(format!("book_view_refusal answers {number}, not {refusal} for entry {entry}"));
    }
    // Request 8: the entry is told in every case, 0 where the book is accepted.
    let mut told = r.next();
    let number = bridge::book_check(book, &mut told);
    if (number, told) != (refusal, entry as u64) {
        return Err(format!("book_check answers {number} and entry {told}, not {refusal} and {entry}"));
    }
    let lent = [r.next(), r.next()];
    let mut left = lent;
    let number = bridge::book_header(book, &mut left);
    same("book_header", header(book), lent, number, left)?;
    let cycles = header(book).map_or(0, |[cycles, _]| cycles);
    for i in [0, cycles / 2, cycles.wrapping_sub(1), cycles, cycles + 1, 255, 256, 1 << 32, 1 << 63, r.next()] {
        part_trial(r, book, i, met).map_err(|what| format!("{what}, for {i}"))?;
    }
    Ok(())
}

fn part_trial(r: &mut Random, book: &[u8], i: u64, met: &mut Met) -> Result<(), String> {
    let wanted = part(book, i);
    met.no_entry += (wanted == Err(20)) as u64;
    let lent = [r.next(), r.next()];
    let (mut entry, mut body) = (lent, lent);
    let numbers = [bridge::book_entry(book, i, &mut entry), bridge::book_body(book, i, &mut body)];
    same("book_entry", wanted.map(|[entry, _]| entry), lent, numbers[0], entry)?;
    same("book_body", wanted.map(|[_, body]| body), lent, numbers[1], body)
}

pub fn trials(r: &mut Random, met: &mut Met) -> Result<(), String> {
    let (cycles, year) = (any_cycles(r), any_year(r));
    met.cycles.iter_mut().zip(CYCLES).for_each(|(met, (_, n))| *met += (n == cycles) as u64);
    let mut bodies = any_bodies(r, cycles, year);
    for _ in 0..if cycles == 0 { 0 } else { [0, 1, 1, 2][r.below(4)] } {
        spoil_body(r, &mut bodies, year);
    }
    write_trial(r, year, &bodies, met)?;
    let mut book = laid_out(year, &bodies);
    for _ in 0..[0, 1, 1, 2][r.below(4)] {
        if book.len() >= HEADER && book.len() == size(cycles) {
            spoil_file(r, &mut book, cycles);
        }
    }
    view_trial(r, &book, met).map_err(|what| format!("{what}, for a file of {} bytes that begins {:02X?}", book.len(), &book[..book.len().min(16)]))
}
