// The rooms that stand apart from the reader, each beside what one would write in safe Rust, in one run: rooms. Each figure is the best of some
// rounds, in which the contenders take turns, and all of them must give the same answers. Nothing fails on a time.

// Of these the differential test uses more.
#[allow(dead_code)]
mod book;
#[allow(dead_code)]
mod bridge;
#[allow(dead_code)]
mod codecs;
#[allow(dead_code)]
mod entry;
#[allow(dead_code)]
mod lookup;
#[allow(dead_code)]
mod orbit;
#[allow(dead_code)]
mod pay_api;
#[allow(dead_code)]
mod stream;
#[allow(dead_code)]
mod tally;
#[allow(dead_code)]
mod vcdu_header;
mod vcdu_timing;

use std::hint::black_box;
use std::time::Instant;

use stream::Random;
use tally::{AREA, FRAME};

const ROUNDS: usize = 150;

fn main() {
    println!("lookup: ns a call, {} instants, random wanted ones, best of {ROUNDS} rounds of {CALLS}", lookup::MOST);
    println!("then the proved one's speed as a ratio to each");
    println!();
    println!("{:<20} | {:>7} {:>7} {:>15} | {:>7} {:>15}", "lists", "proved", "rule", "partition_point", "rule", "partition_point");
    print_lookups("numbers", FINDERS, |list| list);
    print_lookups("bytes", BYTE_FINDERS, |list| Instants::of(&list));
    println!();
    println!("gathering word 72: ns a major frame, best of {ROUNDS} rounds over so many areas; then the proved one's speed as a ratio to each");
    println!();
    println!("{:<18} | {:>7} {:>9} {:>9} | {:>9} {:>9}", "areas", "proved", "by steps", "by places", "by steps", "by places");
    print_gathering("16 (0.3 MB)", 16);
    print_gathering("4096 (67 MB)", 4096);
    println!();
    println!("books: ms a book, best of {BOOKS} rounds, beside a copy of as many bytes; then the time as a ratio to it");
    println!();
    println!("{:<18} | {:>7} {:>7} {:>7} | {:>7} {:>7}", "cycles", "write", "view", "memcpy", "write", "view");
    print_book("1 (0.07 MB)", 1);
    print_book("16 (1.0 MB)", 16);
    print_book("255 (16.7 MB)", book::MOST);
    println!();
    println!("comparing two equal books: ms, best of {BOOKS} rounds; then what it takes beside its two checks, as a ratio to memcmp of the bodies");
    println!();
    println!("{:<18} | {:>7} {:>7} {:>7} | {:>7}", "cycles", "compare", "checks", "memcmp", "beside");
    print_compare("16 (1.0 MB)", 16);
    print_compare("255 (16.7 MB)", book::MOST);
    println!();
    println!("the 14 records of a cycle: µs a cycle, best of {BOOKS} rounds over 16 cycles, each call testing the whole cycle; and a copy of it");
    println!();
    println!("{:>7} {:>7} {:>7} | {:>7} {:>7}", "proved", "plain", "memcpy", "plain", "memcpy");
    print_records();
    println!();
    vcdu_timing::print();
}

const BOOKS: usize = 60;

// Writing a book, making a view of it, and copying it.
fn print_book(name: &str, cycles: usize) {
    let bodies = book::any_bodies(&mut Random(4), cycles, 2000);
    let wanted = book::laid_out(2000, &bodies);
    let mut out = [vec![0; wanted.len()], vec![0; wanted.len()]];
    let mut best = [f64::INFINITY; 3];
    // As many bytes a round for a small book as for a large one.
    let turns = (16 / cycles).max(1);
    let mut time = |place: usize, work: &mut dyn FnMut()| {
        let started = Instant::now();
        (0..turns).for_each(|_| work());
        best[place] = best[place].min(started.elapsed().as_secs_f64() * 1e3 / turns as f64);
    };
    for _ in 0..BOOKS {
        time(0, &mut || assert_eq!(bridge::book_write(2000, &bodies, &mut out[0]), 0));
        time(1, &mut || assert_eq!(bridge::book_view_refusal(&out[0]), 0));
        time(2, &mut || out[1].copy_from_slice(&wanted));
    }
    assert!(out[0] == wanted && out[1] == wanted, "the books differ");
    let [write, view, copy] = best;
    println!("{name:<18} | {write:>7.3} {view:>7.3} {copy:>7.3} | {:>7.2} {:>7.2}", write / copy, view / copy);
}

// Comparing a book with an equal one, checking both, and comparing as many bytes of bodies by what the machine has for that.
fn print_compare(name: &str, cycles: usize) {
    let bodies = book::any_bodies(&mut Random(5), cycles, 2000);
    let books = [book::laid_out(2000, &bodies), book::laid_out(2000, &bodies)];
    let others = bodies.clone();
    let mut table = vec![0; 1530];
    let mut best = [f64::INFINITY; 3];
    // As many bytes a round for a small book as for a large one.
    let turns = (64 / cycles).max(1);
    let mut time = |place: usize, work: &mut dyn FnMut()| {
        let started = Instant::now();
        (0..turns).for_each(|_| work());
        best[place] = best[place].min(started.elapsed().as_secs_f64() * 1e3 / turns as f64);
    };
    for _ in 0..BOOKS {
        let mut lines = u64::MAX;
        time(0, &mut || assert_eq!(bridge::book_compare(&books[0], &books[1], &mut table, &mut lines), 0));
        assert_eq!(lines, 0);
        time(1, &mut || books.iter().for_each(|book| assert_eq!(bridge::book_view_refusal(book), 0)));
        time(2, &mut || assert!(black_box(&bodies) == black_box(&others)));
    }
    let [compare, checks, memcmp] = best;
    println!("{name:<18} | {compare:>7.3} {checks:>7.3} {memcmp:>7.3} | {:>7.2}", (compare - checks) / memcmp);
}

// All records of a cycle, as a sum of their instants: of each major frame ephemeris, attitude and temperatures; gyro drift and clock.
fn records_proved(cycle: &[u8], year: u64) -> u64 {
    let (mut sum, mut instant) = (0, 0);
    let (mut six, mut integers, mut four, mut three, mut updated, mut terms) = ([0.0; 6], [0; 4], [0.0; 4], [0.0; 3], 0.0, [0; 3]);
    for k in 0..4 {
        assert_eq!(bridge::ephemeris(cycle, year, k, &mut instant, &mut six), 0);
        sum += instant;
        assert_eq!(bridge::attitude(cycle, year, k, &mut instant, &mut integers), 0);
        sum += instant;
        bridge::temperatures(cycle, year, k, &mut four);
    }
    assert_eq!(bridge::gyro_drift(cycle, year, &mut instant, &mut three), 0);
    bridge::clock(cycle, year, &mut updated, &mut terms);
    black_box((six, integers, four, three, updated, terms));
    sum + instant
}

// The same in plain Rust, which likewise tests the cycle each time.
fn records_plain(cycle: &[u8], year: u64) -> u64 {
    let dated = |k| {
        black_box(orbit::temperatures(cycle, year, k).ok());
        orbit::ephemeris(cycle, year, k).map_or(0, |(instant, _)| instant) + orbit::attitude(cycle, year, k).map_or(0, |(instant, _)| instant)
    };
    black_box(orbit::clock(cycle, year).ok());
    (0..4).map(dated).sum::<u64>() + orbit::gyro_drift(cycle, year).map_or(0, |(instant, _)| instant)
}

fn print_records() {
    let mut r = Random(6);
    let dated = |body: &Vec<u8>| (0..4).all(|k| orbit::ephemeris(body, 2000, k).is_ok());
    let cycles: Vec<Vec<u8>> = (0..64).map(|_| orbit::any_body(&mut r, 2000)).filter(dated).take(16).collect();
    let mut copy = vec![0; book::BODY];
    let mut best = [f64::INFINITY; 3];
    for _ in 0..BOOKS {
        let mut time = |place: usize, work: &mut dyn FnMut(&[u8]) -> u64| -> u64 {
            let started = Instant::now();
            let sum = cycles.iter().map(|cycle| work(cycle)).sum();
            best[place] = best[place].min(started.elapsed().as_secs_f64() * 1e6 / cycles.len() as f64);
            sum
        };
        let proved = time(0, &mut |cycle| records_proved(cycle, 2000));
        let plain = time(1, &mut |cycle| records_plain(cycle, 2000));
        assert_eq!(proved, plain, "the records differ");
        time(2, &mut |cycle| {
            copy.copy_from_slice(black_box(cycle));
            u64::from(black_box(&copy)[0])
        });
    }
    let [proved, plain, memcpy] = best;
    println!("{proved:>7.1} {plain:>7.1} {memcpy:>7.1} | {:>7.2} {:>7.2}", plain / proved, memcpy / proved);
}

// Place 72 of each of the 128 minor frames, by steps of 128, and by the place of each.
const WORD: usize = 72;
const GATHERERS: [fn(&[u8], &mut [u8]); 3] = [
    |area, column| assert_eq!(bridge::gather(area, column), 0),
    gather_by_steps,
    gather_by_places,
];

#[inline(never)]
fn gather_by_steps(area: &[u8], column: &mut [u8]) {
    let mut at = WORD;
    for word in column.iter_mut() {
        *word = area[at];
        at += FRAME;
    }
}

#[inline(never)]
fn gather_by_places(area: &[u8], column: &mut [u8]) {
    for (frame, word) in column.iter_mut().enumerate() {
        *word = area[FRAME * frame + WORD];
    }
}

fn print_gathering(name: &str, areas: usize) {
    let mut bytes = vec![0; areas * AREA];
    Random(2).fill(&mut bytes);
    let mut best = [f64::INFINITY; GATHERERS.len()];
    let mut columns = vec![vec![0; areas * FRAME]; GATHERERS.len()];
    // As many calls a round for few areas as for many.
    let turns = (4096 / areas).max(1);
    for _ in 0..ROUNDS {
        for (i, gather) in GATHERERS.iter().enumerate() {
            let started = Instant::now();
            for _ in 0..turns {
                for (area, column) in bytes.chunks_exact(AREA).zip(columns[i].chunks_exact_mut(FRAME)) {
                    gather(area, column);
                }
            }
            best[i] = best[i].min(started.elapsed().as_secs_f64() * 1e9 / (turns * areas) as f64);
        }
    }
    assert!(columns.iter().all(|column| *column == columns[0]), "the columns differ");
    let [proved, steps, places] = best;
    println!("{name:<18} | {proved:>7.1} {steps:>9.1} {places:>9.1} | {:>9.2} {:>9.2}", steps / proved, places / proved);
}

// Calls in a round. In a round each contender has another share of the wanted instants, so that none finds in the cache what the one before it read.
const CALLS: usize = 20_000;
const SHARES: usize = 50;

// A contender: the place plus one, 0 for none.
type Finder<L> = fn(&L, u64) -> u64;

const FINDERS: [Finder<Vec<u64>>; 3] = [proved, |list, wanted| lookup::halve(list, wanted)[0], partition_point];

fn proved(instants: &Vec<u64>, wanted: u64) -> u64 {
    let mut out = [u64::MAX; 2];
    bridge::find(instants, wanted, &mut out);
    out[0]
}

#[inline(never)]
fn partition_point(instants: &Vec<u64>, wanted: u64) -> u64 {
    instants.partition_point(|&x| x <= wanted) as u64
}

// Instants as bytes, the first byte highest: as the pay system lends them, and eight by eight, as Rust would have them.
struct Instants {
    bytes: Vec<u8>,
    rows: Vec<[u8; 8]>,
}

impl Instants {
    fn of(list: &[u64]) -> Instants {
        let rows: Vec<[u8; 8]> = list.iter().map(|x| x.to_be_bytes()).collect();
        Instants { bytes: rows.concat(), rows }
    }
}

const BYTE_FINDERS: [Finder<Instants>; 3] = [proved_on_bytes, halve_rows, partition_point_of_rows];

fn proved_on_bytes(instants: &Instants, wanted: u64) -> u64 {
    let mut answer = [0; 16];
    pay_api::find(&instants.bytes, wanted, &mut answer);
    u64::from(u32::from_be_bytes([answer[8], answer[9], answer[10], answer[11]]))
}

#[inline(never)]
fn halve_rows(instants: &Instants, wanted: u64) -> u64 {
    let (mut low, mut high) = (0, instants.rows.len());
    while low != high {
        let half = (low + high) / 2;
        if u64::from_be_bytes(instants.rows[half]) <= wanted {
            low = half + 1;
        } else {
            high = half;
        }
    }
    low as u64
}

#[inline(never)]
fn partition_point_of_rows(instants: &Instants, wanted: u64) -> u64 {
    instants.rows.partition_point(|&row| u64::from_be_bytes(row) <= wanted) as u64
}

// Over one list, which stays in the cache, and over 64 that do not.
fn print_lookups<L>(what: &str, finders: [Finder<L>; 3], made: fn(Vec<u64>) -> L) {
    print_lookup(&format!("{what}, 1 (0.8 MB)"), 1, finders, made);
    print_lookup(&format!("{what}, 64 (51 MB)"), 64, finders, made);
}

fn print_lookup<L>(name: &str, lists: usize, finders: [Finder<L>; 3], made: fn(Vec<u64>) -> L) {
    let mut r = Random(1);
    let lists: Vec<L> = (0..lists).map(|_| made(rising(&mut r))).collect();
    let wanted: Vec<u64> = (0..CALLS * SHARES).map(|_| r.next()).collect();
    let mut best = [f64::INFINITY; 3];
    let mut sums = [[0; SHARES]; 3];
    for round in 0..ROUNDS {
        for (i, find) in finders.iter().enumerate() {
            let share = (round + i * 17) % SHARES;
            let started = Instant::now();
            sums[i][share] = find_all(&lists, &wanted[share * CALLS..(share + 1) * CALLS], *find);
            best[i] = best[i].min(started.elapsed().as_secs_f64() * 1e9 / CALLS as f64);
        }
    }
    assert!(sums.iter().all(|sum| *sum == sums[0]), "the answers differ");
    let [proved, rule, std] = best;
    println!("{name:<20} | {proved:>7.1} {rule:>7.1} {std:>15.1} | {:>7.2} {:>15.2}", rule / proved, std / proved);
}

fn rising(r: &mut Random) -> Vec<u64> {
    let mut list: Vec<u64> = (0..lookup::MOST).map(|_| r.next()).collect();
    list.sort();
    list
}

// A sum over the answers, in list after list.
fn find_all<L>(lists: &[L], wanted: &[u64], find: Finder<L>) -> u64 {
    let answers = wanted.iter().zip(lists.iter().cycle()).map(|(&w, list)| find(list, w));
    answers.fold(0, |sum, low| sum.wrapping_mul(31).wrapping_add(low))
}
