// Word 72 once more, from paper 01, its tables 17 to 20 and paper 02's request 4: gathering, kinds, every item of every kind and what it reads
// as; and the proved entries held to it. An answer is what is given, or the number of the refusal.

use crate::bridge;
use crate::codecs::{any_year, in_span, read_number, read_time, write_time, TICKS_A_DAY};
use crate::entry::same;
use crate::stream::Random;
use crate::tally::{AREA, FRAME};

const PLACE: usize = 72;
const PLACES: usize = 128;

// The numbers by which forms cross.
#[derive(Clone, Copy, PartialEq, Eq)]
enum Form {
    Count = 0,
    TwelveBit = 1,
    Flags = 2,
    Number = 3,
    Time = 4,
    Fill = 5,
}
use Form::*;

// Items of one form and length that follow each other: the first place, the place after the last, the length of each, the form.
type Row = (usize, usize, usize, Form);

const KINDS: [&[Row]; 4] = [
    &[
        (0, 28, 4, Count), (28, 34, 6, Number), (34, 35, 1, Count), (35, 36, 1, Fill), (36, 42, 6, Count), (42, 48, 6, Number),
        (48, 50, 2, Fill), (50, 74, 4, Count), (74, 84, 1, Count), (84, 90, 6, Number), (90, 96, 6, Fill), (96, 103, 7, Time),
        (103, 104, 1, Fill), (104, 108, 4, Fill), (108, 116, 2, TwelveBit), (116, 118, 2, Count), (118, 128, 10, Fill),
    ],
    &[
        (0, 40, 4, Count), (40, 74, 34, Fill), (74, 82, 1, Count), (82, 84, 1, Flags), (84, 96, 12, Fill), (96, 104, 8, Count),
        (104, 108, 4, Fill), (108, 116, 2, TwelveBit), (116, 118, 2, Count), (118, 128, 10, Fill),
    ],
    &[
        (0, 16, 4, Count), (16, 18, 1, Count), (18, 19, 1, Fill), (19, 28, 1, Count), (28, 29, 1, Fill), (29, 31, 1, Count),
        (31, 40, 1, Flags), (40, 47, 1, Count), (47, 50, 3, Fill), (50, 74, 4, Count), (74, 81, 1, Count), (81, 85, 1, Flags),
        (85, 96, 11, Fill), (96, 104, 8, Count), (104, 108, 4, Fill), (108, 116, 2, TwelveBit), (116, 118, 2, Count),
        (118, 128, 10, Fill),
    ],
    &[
        (0, 40, 4, Count), (40, 74, 34, Fill), (74, 81, 1, Count), (81, 84, 1, Flags), (84, 85, 1, Count), (85, 96, 11, Fill),
        (96, 104, 8, Count), (104, 108, 4, Fill), (108, 116, 2, TwelveBit), (116, 118, 2, Count), (118, 128, 10, Fill),
    ],
];

#[derive(Clone, Copy)]
struct Item {
    form: Form,
    first: usize,
    length: usize,
}

fn items(kind: u64) -> Result<Vec<Item>, u8> {
    let rows = if kind < 4 { KINDS[kind as usize] } else { return Err(6) };
    let of_row = |&(first, end, length, form): &Row| (first..end).step_by(length).map(move |first| Item { form, first, length });
    Ok(rows.iter().flat_map(of_row).collect())
}

fn item_of(kind: u64, item: u64) -> Result<Item, u8> {
    let items = items(kind)?;
    if item < items.len() as u64 { Ok(items[item as usize]) } else { Err(7) }
}

fn gathered(area: &[u8], column: usize) -> Result<Vec<u8>, u8> {
    if area.len() != AREA || column != PLACES {
        return Err(2);
    }
    Ok(area.chunks(FRAME).map(|frame| frame[PLACE]).collect())
}

fn kind_of(year: u64, column: &[u8]) -> Result<u64, u8> {
    if column.len() != PLACES {
        return Err(2);
    }
    in_span(year)?;
    let place = &column[96..104];
    if (1..=3).contains(&place[0]) && place.iter().all(|b| *b == place[0]) {
        return Ok(u64::from(place[0]));
    }
    read_time(year, &place[..7]).map(|_| 0).map_err(|_| 6)
}

// The nine numbers as they cross, and the double of a number.
type Reading = ([u64; 9], Option<f64>);

fn reading(form: Form, values: &[u64]) -> Reading {
    let mut numbers = [0; 9];
    numbers[0] = form as u64;
    numbers[1..1 + values.len()].copy_from_slice(values);
    (numbers, None)
}

fn read(year: u64, column: &[u8], kind: u64, item: u64) -> Result<Reading, u8> {
    if column.len() != PLACES {
        return Err(2);
    }
    in_span(year)?;
    let item = item_of(kind, item)?;
    let bytes = &column[item.first..item.first + item.length];
    match item.form {
        TwelveBit if bytes[0] > 15 => Err(9),
        Count if bytes.len() > 8 => Ok(reading(Fill, &[])),
        Count | TwelveBit => Ok(reading(Count, &[bytes.iter().fold(0, |n, &b| n << 8 | u64::from(b))])),
        // Bit 0 is the most significant, so the first digit.
        Flags => Ok(reading(Flags, &format!("{:08b}", bytes[0]).bytes().map(|d| u64::from(d - b'0')).collect::<Vec<u64>>())),
        Number => read_number(bytes).map(|x| (reading(Number, &[]).0, Some(x))),
        Time => read_time(year, bytes).map(|time| reading(Time, &time)),
        Fill => Ok(reading(Fill, &[])),
    }
}

// What was met, so that one can see that every case was.
#[derive(Default)]
pub struct Met {
    kinds: [u64; 4],
    readings: [u64; 6],
    refused: [u64; 14],
    // Columns whose only claim to a kind is day 366 of a common year.
    no_such_day: u64,
}

impl Met {
    // The cases and how often each was met. No item reads as a 12-bit one.
    pub fn cases(&self) -> Vec<(&'static str, u64)> {
        const KINDS: [&str; 4] = ["kind 0", "kind 1", "kind 2", "kind 3"];
        const FORMS: [(&str, Form); 5] = [("counts", Count), ("flags", Flags), ("numbers", Number), ("times", Time), ("fill", Fill)];
        const REFUSALS: [(&str, usize); 7] = [
            ("refused 2", 2),
            ("refused 13", 13),
            ("refused 6", 6),
            ("refused 7", 7),
            ("refused 8", 8),
            ("refused 9", 9),
            ("refused 10", 10),
        ];
        let kinds = KINDS.iter().copied().zip(self.kinds);
        let readings = FORMS.iter().map(|&(name, form)| (name, self.readings[form as usize]));
        let refused = REFUSALS.iter().map(|&(name, number)| (name, self.refused[number]));
        kinds.chain(readings).chain(refused).chain([("no day 366", self.no_such_day)]).collect()
    }
}

fn gather_trial(r: &mut Random) -> Result<(), String> {
    const LENGTHS: [usize; 5] = [0, 1, PLACES - 1, PLACES + 1, 2 * PLACES];
    let wrong = r.below(6);
    let mut area = vec![0; if wrong == 0 { [0, FRAME, AREA - 1, AREA + 1][r.below(4)] } else { AREA }];
    r.fill(&mut area);
    let mut lent = vec![0; if wrong <= 1 { LENGTHS[r.below(5)] } else { PLACES }];
    r.fill(&mut lent);
    let mut left = lent.clone();
    let number = bridge::gather(&area, &mut left);
    same("gather", gathered(&area, lent.len()), lent, number, left)
}

// A column whose bytes are those of the items of a kind, at the edges of their forms or anywhere within.
fn any_column(r: &mut Random) -> Vec<u8> {
    let kind = r.below(4) as u64;
    let mut column = vec![0; PLACES];
    for item in items(kind).unwrap_or_default() {
        put_item(r, item, &mut column[item.first..item.first + item.length]);
    }
    if kind != 0 {
        column[96..104].iter_mut().for_each(|b| *b = kind as u8);
    }
    // No identifier, or no good time.
    if r.one_in(3) {
        column[96 + r.below(8)] = [0, 1, 2, 3, 4, 0xFF, r.byte()][r.below(7)];
    }
    if r.one_in(8) {
        let same = [0, 4, 0x99, 0xFF][r.below(4)];
        column[96..104].iter_mut().for_each(|b| *b = same);
    }
    column
}

fn put_item(r: &mut Random, item: Item, bytes: &mut [u8]) {
    const WORDS: [[u8; 6]; 8] = [
        [0, 0, 0, 0, 0, 0],
        [0x40, 0, 0, 0, 0, 0],
        [0x7F, 0xFF, 0xFF, 0x7F, 0xFF, 0xFF],
        [0x80, 0, 0, 0x80, 0, 0],
        [0xBF, 0xFF, 0xFF, 0xFF, 0xFF, 0xFF],
        [0, 0, 0, 0, 0, 1],
        [0xC0, 0, 0, 0, 0, 0],
        [0x3F, 0xFF, 0xFF, 0, 0xFF, 0xFF],
    ];
    const INSTANTS: [u64; 5] = [TICKS_A_DAY, 2 * TICKS_A_DAY - 1, 100 * TICKS_A_DAY, 366 * TICKS_A_DAY, 367 * TICKS_A_DAY - 1];
    r.fill(bytes);
    match item.form {
        Number if r.one_in(2) => bytes.copy_from_slice(&WORDS[r.below(8)]),
        Time => {
            let instant = if r.one_in(2) { INSTANTS[r.below(5)] } else { TICKS_A_DAY + r.next() % (366 * TICKS_A_DAY) };
            // Days 1 to 366, as a leap year has them.
            if let Ok(code) = write_time(2000, r.below(16) as u64, instant, bytes.len()) {
                bytes.copy_from_slice(&code);
            }
        }
        TwelveBit if !r.one_in(4) => bytes[0] &= 15,
        Flags if r.one_in(2) => bytes[0] = 1 << r.below(8),
        _ if r.one_in(4) => {
            let same = [0, 1, 0x7F, 0x80, 0xFF][r.below(5)];
            bytes.iter_mut().for_each(|b| *b = same);
        }
        _ => {}
    }
}

// All entries on one item of a column, which is of any length.
fn item_trial(r: &mut Random, year: u64, column: &[u8], kind: u64, item: u64, met: &mut Met) -> Result<(), String> {
    let found = item_of(kind, item);
    let lent = [r.next(), r.next(), r.next()];
    let mut left = lent;
    let number = bridge::describe(kind, item, &mut left);
    same("describe", found.map(|i| [i.form as u64, i.first as u64, i.length as u64]), lent, number, left)?;

    let refusal = if column.len() == PLACES { found.err().unwrap_or(0) } else { 2 };
    let number = bridge::part_refusal(column, kind, item);
    if number != refusal {
        return Err(format!("part_refusal answers {number}, not {refusal}"));
    }

    let (lent, lent_double) = ([r.next(); 9], 0.375f64);
    let (mut left, mut double) = (lent, lent_double);
    let number = bridge::read(year, column, kind, item, &mut left, &mut double);
    let wanted = read(year, column, kind, item);
    match wanted {
        Ok((values, _)) => met.readings[values[0] as usize] += 1,
        Err(number) => met.refused[number as usize] += 1,
    }
    let wanted = wanted.map(|(values, double)| (values, double.unwrap_or(lent_double).to_bits()));
    same("read", wanted, (lent, lent_double.to_bits()), number, (left, double.to_bits()))
}

fn kind_trial(r: &mut Random, year: u64, column: &[u8], met: &mut Met) -> Result<(), String> {
    let lent = r.next();
    let mut left = lent;
    let number = bridge::kind(year, column, &mut left);
    let wanted = kind_of(year, column);
    met.no_such_day += u64::from(wanted == Err(6) && kind_of(2000, column) == Ok(0));
    match wanted {
        Ok(kind) => met.kinds[kind as usize] += 1,
        Err(number) => met.refused[number as usize] += 1,
    }
    same("kind", wanted, lent, number, left)
}

fn count_trial(r: &mut Random, kind: u64) -> Result<(), String> {
    let lent = r.next();
    let mut left = lent;
    let number = bridge::item_count(kind, &mut left);
    same("item_count", items(kind).map(|items| items.len() as u64), lent, number, left)
}

// The column's kind in some years, and every item of every kind, and some that there are not.
fn column_trial(r: &mut Random, column: &[u8], met: &mut Met) -> Result<(), String> {
    for year in [2000, 2001, any_year(r), any_year(r)] {
        kind_trial(r, year, column, met).map_err(|what| format!("{what}, for the column {column:02X?} in {year}"))?;
    }
    let year = any_year(r);
    for kind in [0, 1, 2, 3, 4, r.next(), u64::MAX] {
        count_trial(r, kind).map_err(|what| format!("{what}, for kind {kind}"))?;
        let count = items(kind).map_or(0, |items| items.len() as u64);
        for item in (0..count + 2).chain([255, 256, r.next(), u64::MAX]) {
            item_trial(r, year, column, kind, item, met)
                .map_err(|what| format!("{what}, for kind {kind}, item {item} of {column:02X?} in {year}"))?;
        }
    }
    Ok(())
}

pub fn trials(r: &mut Random, met: &mut Met) -> Result<(), String> {
    gather_trial(r)?;
    let mut column = any_column(r);
    column_trial(r, &column, met)?;
    if r.one_in(8) {
        column.resize([0, 1, 96, 127, 129, 256][r.below(6)], 0);
        column_trial(r, &column, met)?;
    }
    Ok(())
}
