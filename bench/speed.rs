// The proved reader against safe Rust and memcpy, and the program end to end from a file, in one run: speed [MIB [FILE_MIB]]. Each figure is
// the best of five rounds, in which the readers take turns, and all of them must leave the same tally and area. Nothing fails on a time.

// Of these the differential test uses more.
#[allow(dead_code)]
mod bridge;
mod bytewise;
mod from_file;
mod nominal;
#[allow(dead_code)]
mod stream;
#[allow(dead_code)]
mod tally;
mod tuned;
mod voted;

use std::env;
use std::fs;
use std::process::exit;
use std::time::Instant;

use bridge::{Feeder, State};
use stream::{Data, Random};
use tally::{Tally, AREA, BY_BITS, BY_BYTES};

const ROUNDS: usize = 5;
const MIB: usize = 1 << 20;
const STREAMS: [&str; 9] =
    ["five FILL", "no FILL", "as timed", "five, bad", "same copy", "any copy", "one in ten", "1 in 100", "random"];
// Those that are measured under the vote by bits.
const STREAMS_BY_BITS: [&str; 6] = ["five FILL", "five, bad", "same copy", "any copy", "all differ", "random"];

type Take = fn(&mut Tally, &[u8], &mut [u8]) -> (usize, bool);

// The readers in Rust: what one writes first, the one tuned by hand, and that with our own ideas copied into it.
const READERS: [(&str, Take); 3] = [("bytewise", bytewise::take), ("tuned", tuned::take), ("nominal", nominal::take)];

fn main() {
    let sizes: Vec<Option<usize>> = env::args().skip(1).map(|a| a.parse().ok()).collect();
    let (mib, file_mib) = match sizes[..] {
        [] => (32, 256),
        [Some(mib)] => (mib, 256),
        [Some(mib), Some(file_mib)] => (mib, file_mib),
        _ => {
            eprintln!("usage: speed [MIB [FILE_MIB]]");
            exit(2);
        }
    };
    println!("MB/s (10^6 bytes), {mib} MiB, best of {ROUNDS}; then the proved reader's speed as a ratio to each");
    println!();
    print_heading();
    for name in STREAMS {
        let bytes = stream_of(name, mib * MIB);
        for piece in [bytes.len(), 65_536, 4096, 300] {
            print_row(name, &bytes, piece, BY_BYTES);
        }
    }
    println!();
    println!("the same under the vote by bits");
    println!();
    print_heading();
    for name in STREAMS_BY_BITS {
        let bytes = stream_of(name, mib * MIB);
        for piece in [bytes.len(), 4096] {
            print_row(name, &bytes, piece, BY_BITS);
        }
    }
    println!();
    println!("the proved reader in pieces of mixed lengths, half to one and a half of this one");
    println!();
    println!("{:>7} | {:>9} {:>8} | {:>8}", "piece", "five FILL", "as timed", "ratio");
    print_mixed(mib);
    println!();
    println!("reels as they come: steps that lock on a frame's own sync, beside calls of the proved reader on the same bytes");
    println!();
    println!("{:<12} {:>7} | {:>8} {:>8} | {:>8}", "stream", "piece", "steps", "calls", "ratio");
    for name in STREAMS.iter().chain(&["slips"]) {
        let bytes = stream_of(name, mib * MIB);
        for piece in [bytes.len(), 65_536, 4096, 300] {
            print_steps(name, &bytes, piece);
        }
    }
    println!();
    println!("the program from a file of {file_mib} MiB, MB/s, best of {ROUNDS}; beside it the same file read in pieces of 65,536 and no more");
    println!();
    from_file::print_heading();
    for name in STREAMS {
        from_file::print_row(name, &stream_of(name, file_mib * MIB));
    }
    println!();
    linearity();
}

fn stream_of(name: &str, n: usize) -> Vec<u8> {
    let mut r = Random(3);
    match name {
        "five FILL" => reel(n, || 5),
        "no FILL" => reel(n, || 0),
        "as timed" => reel(n, timed()),
        // A head drops the same copy of every group; or one copy of every group is bad, or of one group in ten, whichever it is.
        "same copy" => scratched(n, 1, |_| 1),
        "any copy" => scratched(n, 1, |r| r.below(3)),
        "one in ten" => scratched(n, 10, |r| r.below(3)),
        // No two copies of a group are equal: each is wrong in a bit of its own.
        "all differ" => {
            let mut bytes = reel(n, || 5);
            for cell in bytes.chunks_exact_mut(9) {
                let bit = r.below(8);
                (0..3).for_each(|copy| cell[1 + copy] ^= 1 << ((bit + copy) % 8));
            }
            bytes
        }
        // A byte is lost in every hundredth frame.
        "slips" => {
            let bytes = reel(n + n / 100, || 5);
            let lost = |at: usize| at % (100 * 128 * 9) == 50 * 128 * 9;
            let mut bytes: Vec<u8> = (0..bytes.len()).filter(|&at| !lost(at)).map(|at| bytes[at]).collect();
            bytes.truncate(n);
            bytes
        }
        "five, bad" => spoilt(n, 5000),
        "1 in 100" => spoilt(n, 100),
        _ => {
            let mut bytes = vec![0; n];
            r.fill(&mut bytes);
            bytes
        }
    }
}

// Five FILL, with a bit wrong in one copy of one group in so many.
fn scratched(n: usize, groups: usize, copy: impl Fn(&mut Random) -> usize) -> Vec<u8> {
    let mut r = Random(3);
    let mut bytes = reel(n, || 5);
    for cell in bytes.chunks_exact_mut(9) {
        if r.one_in(groups) {
            cell[1 + copy(&mut r)] ^= 1 << r.below(8);
        }
    }
    bytes
}

// Five FILL, with one byte in so many bad.
fn spoilt(n: usize, rate: usize) -> Vec<u8> {
    let mut r = Random(3);
    let mut bytes = reel(n, || 5);
    for b in bytes.iter_mut() {
        if r.one_in(rate) {
            *b = r.byte();
        }
    }
    bytes
}

// The FILL after each word as the book times it (DFCB 3.2.7.1): a word's cycle is 250 microseconds and a read 27.7652, which makes 9.004
// reads a cycle. So a sixth FILL comes once in 245 words.
fn timed() -> impl FnMut() -> usize {
    let (mut words, mut reads) = (0.0f64, 0.0f64);
    move || {
        words += 1.0;
        let more = (words * 250.0 / 27.7652).floor() - reads;
        reads += more;
        more as usize - 4
    }
}

// A lead-in and major frames with so many FILL after each word, cut off at n bytes.
fn reel(n: usize, mut fill: impl FnMut() -> usize) -> Vec<u8> {
    let mut r = Random(7);
    let mut out = Vec::with_capacity(n + 2048);
    for word in tally::FRAME_SYNC {
        stream::put_word(&mut out, word, fill());
    }
    let mut number = 0;
    while out.len() < n {
        for word in stream::frame(&mut r, number, Data::Any) {
            stream::put_word(&mut out, word, fill());
        }
        number = (number + 1) % 128;
    }
    out.truncate(n);
    out
}

// What a reader leaves: the tally, the area, and how many major frames it paid.
#[derive(PartialEq)]
struct Left {
    state: State,
    area: Vec<u8>,
    paid: u64,
}

// Hands the pieces on; a call that stops at a major frame is followed by one with the rest of its piece.
fn in_pieces<'a>(pieces: impl Iterator<Item = &'a [u8]>, mut take: impl FnMut(&[u8]) -> (usize, bool)) -> u64 {
    let mut paid = 0;
    for piece in pieces {
        let mut at = 0;
        while at < piece.len() {
            let (taken, complete) = take(&piece[at..]);
            at += taken;
            paid += complete as u64;
        }
    }
    paid
}

fn proved(bytes: &[u8], piece: usize, rule: u64) -> Left {
    proved_in(bytes.chunks(piece), rule)
}

fn proved_in<'a>(pieces: impl Iterator<Item = &'a [u8]>, rule: u64) -> Left {
    let (refusal, mut state) = bridge::fresh(rule);
    assert_eq!(refusal, 0);
    let mut area = vec![0; AREA];
    let paid = in_pieces(pieces, |part| {
        let answer = bridge::take(&mut state, part, &mut area);
        assert_eq!(answer.refusal, 0);
        (answer.taken as usize, answer.complete != 0)
    });
    Left { state, area, paid }
}

// The same by steps that lock on a frame's own sync: how many major frames they pay, and how many lead-ins they hand.
fn stepped(bytes: &[u8], piece: usize) -> (u64, u64) {
    let (_, tally) = bridge::fresh(BY_BYTES);
    let mut feeder = Feeder { tally, numbers: [0, 0] };
    let mut area = vec![0; AREA];
    let (mut at, mut end, mut paid) = (0, 0, 0);
    while at < bytes.len() {
        let (refusal, [taken, complete, more]) = bridge::relock(&mut feeder, &bytes[at..end], (end == bytes.len()) as u64, &mut area);
        assert_eq!(refusal, 0);
        at += taken as usize;
        paid += complete;
        if more == 1 || at == end {
            end = (end + piece).min(bytes.len());
        }
    }
    (paid, feeder.numbers[1])
}

fn in_rust(bytes: &[u8], piece: usize, rule: u64, take: Take) -> Left {
    let mut t = Tally::fresh(rule);
    let mut area = vec![0; AREA];
    let paid = in_pieces(bytes.chunks(piece), |part| take(&mut t, part, &mut area));
    Left { state: State::of(&t), area, paid }
}

fn copy(bytes: &[u8], piece: usize, to: &mut [u8]) {
    for (from, to) in bytes.chunks(piece).zip(to.chunks_mut(piece)) {
        to.copy_from_slice(from);
    }
}

fn seconds<T>(work: impl FnOnce() -> T) -> (T, f64) {
    let started = Instant::now();
    let answer = work();
    (answer, started.elapsed().as_secs_f64())
}

fn print_heading() {
    let others: String = READERS.iter().map(|(name, _)| *name).chain(["memcpy"]).map(|name| format!(" {name:>8}")).collect();
    println!("{:<12} {:>7} | {:>8}{others} |{others}", "stream", "piece", "proved");
}

fn print_row(name: &str, bytes: &[u8], piece: usize, rule: u64) {
    let mut to = vec![1; bytes.len()];
    let mut proved_time = f64::INFINITY;
    let mut times = [f64::INFINITY; READERS.len() + 1];
    for _ in 0..ROUNDS {
        let (left, time) = seconds(|| proved(bytes, piece, rule));
        proved_time = proved_time.min(time);
        for ((reader, take), best) in READERS.iter().zip(&mut times) {
            let (other, time) = seconds(|| in_rust(bytes, piece, rule, *take));
            *best = best.min(time);
            held(left == other, &format!("the proved reader and the {reader} one differ on the stream '{name}' in pieces of {piece}"));
        }
        let ((), time) = seconds(|| copy(bytes, piece, &mut to));
        times[READERS.len()] = times[READERS.len()].min(time);
        held(to == bytes, "the copy differs");
    }
    let speed = |time: f64| bytes.len() as f64 / time / 1e6;
    let speeds: String = times.iter().map(|&time| format!(" {:>8.0}", speed(time))).collect();
    let ratios: String = times.iter().map(|&time| format!(" {:>8.2}", time / proved_time)).collect();
    let piece = if piece == bytes.len() { "whole".to_string() } else { piece.to_string() };
    println!("{name:<12} {piece:>7} | {:>8.0}{speeds} |{ratios}", speed(proved_time));
}

fn print_steps(name: &str, bytes: &[u8], piece: usize) {
    let (mut steps, mut calls) = (f64::INFINITY, f64::INFINITY);
    for _ in 0..ROUNDS {
        let ((paid, lead_ins), time) = seconds(|| stepped(bytes, piece));
        steps = steps.min(time);
        let (left, time) = seconds(|| proved(bytes, piece, BY_BYTES));
        calls = calls.min(time);
        held(lead_ins != 0 || paid == left.paid, &format!("steps pay something else on the stream '{name}' in pieces of {piece}"));
    }
    let speed = |time: f64| bytes.len() as f64 / time / 1e6;
    let piece = if piece == bytes.len() { "whole".to_string() } else { piece.to_string() };
    println!("{name:<12} {piece:>7} | {:>8.0} {:>8.0} | {:>8.2}", speed(steps), speed(calls), calls / steps);
}

// Pieces of half to one and a half of this length.
fn mixed(bytes: &[u8], piece: usize) -> Vec<&[u8]> {
    let mut r = Random(5);
    let (mut pieces, mut rest) = (Vec::new(), bytes);
    while !rest.is_empty() {
        let (next, later) = rest.split_at((piece / 2 + r.below(piece)).min(rest.len()));
        pieces.push(next);
        rest = later;
    }
    pieces
}

// The book's spacing beside five FILL, where no two pieces end alike: of pieces of one length five FILL makes a cycle that the processor learns.
fn print_mixed(mib: usize) {
    let streams = ["five FILL", "as timed"].map(|name| stream_of(name, mib * MIB));
    for piece in [65_536, 4096, 300] {
        let pieces = [mixed(&streams[0], piece), mixed(&streams[1], piece)];
        let mut best = [f64::INFINITY; 2];
        for _ in 0..ROUNDS {
            for (pieces, best) in pieces.iter().zip(&mut best) {
                *best = best.min(seconds(|| proved_in(pieces.iter().copied(), BY_BYTES)).1);
            }
        }
        let [five, timed] = [0, 1].map(|k| streams[k].len() as f64 / best[k] / 1e6);
        println!("{piece:>7} | {five:>9.0} {timed:>8.0} | {:>8.2}", timed / five);
    }
}

fn held(ok: bool, what: &str) {
    if !ok {
        fail(what);
    }
}

fn fail(what: &str) -> ! {
    println!("{what}");
    exit(1)
}

// The cost a byte must not grow with the length.
fn linearity() {
    println!("the proved reader on five FILL, one piece, ns a byte, best of {ROUNDS}");
    for mib in [16, 64, 256, 1024] {
        if available_mib().map_or(false, |most| most < 2 * mib) {
            println!("{mib:>5} MiB   skipped: too little memory");
            continue;
        }
        let bytes = reel(mib * MIB, || 5);
        let best = (0..ROUNDS).map(|_| seconds(|| proved(&bytes, bytes.len(), BY_BYTES)).1).fold(f64::INFINITY, f64::min);
        println!("{mib:>5} MiB   {:.3}", best * 1e9 / bytes.len() as f64);
    }
}

fn available_mib() -> Option<usize> {
    let info = fs::read_to_string("/proc/meminfo").ok()?;
    let line = info.lines().find(|l| l.starts_with("MemAvailable:"))?;
    let kib: usize = line.split_whitespace().nth(1)?.parse().ok()?;
    Some(kib / 1024)
}
