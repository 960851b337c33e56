// The proved check and repair of VCDU headers beside two decoders by tables in safe Rust.

use std::time::Instant;

use crate::bridge;
use crate::stream::Random;
use crate::vcdu_header::{any_header, Logs, Syndromes, HEADER};
use crate::ROUNDS;

const HEADERS: usize = 16_384;

// What a contender answers of a header: yes or no, or how many symbols were wrong, 9 where there is no code word near.
type Contender<'a> = &'a dyn Fn(&mut [u8]) -> u64;

fn proved_check(header: &mut [u8]) -> u64 {
    let mut out = 9;
    bridge::check_header(header, &mut out);
    out
}

fn proved_repair(header: &mut [u8]) -> u64 {
    let mut out = 9;
    bridge::repair_header(header, &mut out);
    out
}

// ns a header for each contender, the best of the rounds; each begins with the same headers and must leave and answer the same.
fn best(headers: &[[u8; HEADER]], contenders: [Contender; 3]) -> [f64; 3] {
    let mut best = [f64::INFINITY; 3];
    let mut left = vec![(0, Vec::new()); 3];
    for _ in 0..ROUNDS {
        for (i, run) in contenders.iter().enumerate() {
            let mut bytes = headers.to_vec();
            let started = Instant::now();
            let sum = bytes.iter_mut().fold(0u64, |sum, header| sum.wrapping_mul(31).wrapping_add(run(header)));
            best[i] = best[i].min(started.elapsed().as_secs_f64() * 1e9 / headers.len() as f64);
            left[i] = (sum, bytes);
        }
    }
    assert!(left.iter().all(|l| *l == left[0]), "the answers or the headers differ");
    best
}

fn line(name: &str, [proved, logs, syndromes]: [f64; 3]) {
    println!("{name:<26} | {proved:>7.1} {logs:>10.1} {syndromes:>13.1} | {:>10.2} {:>13.2}", logs / proved, syndromes / proved);
}

pub fn print() {
    let (logs, tables) = (Logs::new(), Syndromes::new());
    println!("VCDU headers: ns a header, best of {ROUNDS} rounds over {HEADERS}; then the proved one's speed as a ratio to each");
    println!();
    println!("{:<26} | {:>7} {:>10} {:>13} | {:>10} {:>13}", "headers", "proved", "logarithms", "all syndromes", "logarithms", "all syndromes");
    let mut r = Random(3);
    for (name, wrong) in [("good", 0), ("one symbol wrong", 1), ("two symbols wrong", 2), ("any bytes", 5)] {
        let headers: Vec<_> = (0..HEADERS).map(|_| any_header(&mut r, wrong)).collect();
        let check: [Contender; 3] = [&proved_check, &|h| logs.check(h), &|h| tables.check(h)];
        line(&format!("check, {name}"), best(&headers, check));
        let repair: [Contender; 3] = [&proved_repair, &|h| logs.repair(h).unwrap_or(9), &|h| tables.repair(h).unwrap_or(9)];
        line(&format!("repair, {name}"), best(&headers, repair));
    }
}
