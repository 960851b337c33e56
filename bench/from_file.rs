// The program end to end: a stream in a file below target/bench/, which the program reads as its standard input. The file has just been
// written, so both it and the plain reading beside it take it from the system's memory and not from a disk.

use std::fs::{self, File};
use std::io::{self, Read};
use std::process::{Command, Stdio};

use crate::tally::{Tally, AREA, BY_BYTES};
use crate::{fail, nominal, seconds, ROUNDS};

const PROGRAM: &str = "crates/pcd_tally/out/pcd_tally";
const FILE: &str = "target/bench/stream.pcd";

pub fn print_heading() {
    println!("{:<12} | {:>8} {:>8} | {:>7}", "stream", "program", "reading", "ratio");
}

pub fn print_row(name: &str, bytes: &[u8]) {
    let times = measure(bytes);
    let removed = fs::remove_file(FILE);
    let [program, plain] = times.and_then(|times| removed.map(|()| times)).unwrap_or_else(|e| fail(&format!("{FILE}: {e}")));
    let speed = |time: f64| bytes.len() as f64 / time / 1e6;
    println!("{name:<12} | {:>8.0} {:>8.0} | {:>7.2}", speed(program), speed(plain), plain / program);
}

// The least times of the program and of reading alone. The program must print what the stream's tally is.
fn measure(bytes: &[u8]) -> io::Result<[f64; 2]> {
    fs::write(FILE, bytes)?;
    let wanted = listing(&tally_of(bytes));
    let mut best = [f64::INFINITY; 2];
    for _ in 0..ROUNDS {
        let (printed, program_time) = seconds(run_program);
        let (length, plain_time) = seconds(read_alone);
        if printed? != wanted.as_bytes() || length? != bytes.len() {
            return Err(io::Error::new(io::ErrorKind::Other, "the program prints another tally, or the file has another length"));
        }
        for (best, time) in best.iter_mut().zip([program_time, plain_time]) {
            *best = best.min(time);
        }
    }
    Ok(best)
}

fn run_program() -> io::Result<Vec<u8>> {
    let output = Command::new(PROGRAM).stdin(Stdio::from(File::open(FILE)?)).output()?;
    Ok(output.stdout)
}

fn read_alone() -> io::Result<usize> {
    let mut file = File::open(FILE)?;
    let mut piece = vec![0; 65_536];
    let mut length = 0;
    loop {
        match file.read(&mut piece)? {
            0 => return Ok(length),
            n => length += n,
        }
    }
}

// The program keeps the vote by bytes.
fn tally_of(bytes: &[u8]) -> Tally {
    let mut t = Tally::fresh(BY_BYTES);
    let mut area = vec![0; AREA];
    let mut at = 0;
    while at < bytes.len() {
        at += nominal::take(&mut t, &bytes[at..], &mut area).0;
    }
    t
}

// What the program prints, as papers 01 and 02 list it.
fn listing(t: &Tally) -> String {
    let lines = [
        ("PCD TALLY", 2),
        ("bytes", t.bytes),
        ("fill", t.fill),
        ("stray", t.stray),
        ("voted", t.voted),
        ("split", t.split),
        ("weak1", t.weak[0]),
        ("weak2", t.weak[1]),
        ("weak3", t.weak[2]),
        ("open", t.open),
        ("hunted", t.hunted),
        ("good", t.good),
        ("damaged", t.damaged),
        ("unsynced", t.unsynced),
        ("placed", t.placed),
        ("majors", t.majors),
        ("broken", t.broken),
        ("loose", t.loose),
        ("building", t.building),
    ];
    lines.iter().map(|(name, n)| format!("{name} {n}\n")).collect()
}
