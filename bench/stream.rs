// Seeded streams: whole reels and every kind of damage to them.

use crate::tally::{FILL, FRAME, FRAME_SYNC, NUMBER_PLACE, SYNC};

// SplitMix64.
pub struct Random(pub u64);

impl Random {
    pub fn next(&mut self) -> u64 {
        self.0 = self.0.wrapping_add(0x9E37_79B9_7F4A_7C15);
        let mut z = self.0;
        z = (z ^ (z >> 30)).wrapping_mul(0xBF58_476D_1CE4_E5B9);
        z = (z ^ (z >> 27)).wrapping_mul(0x94D0_49BB_1331_11EB);
        z ^ (z >> 31)
    }

    pub fn below(&mut self, n: usize) -> usize {
        (self.next() % n as u64) as usize
    }

    pub fn one_in(&mut self, n: usize) -> bool {
        self.below(n) == 0
    }

    pub fn byte(&mut self) -> u8 {
        self.next() as u8
    }

    pub fn fill(&mut self, bytes: &mut [u8]) {
        for part in bytes.chunks_mut(8) {
            let word = self.next().to_le_bytes();
            part.copy_from_slice(&word[..part.len()]);
        }
    }

    // A byte that means something to a reader, more often than chance would have it.
    pub fn telling_byte(&mut self) -> u8 {
        const TELLING: [u8; 8] = [SYNC, FILL, 0xFA, 0xF3, 0x20, 0x00, 0x7F, 0x80];
        if self.one_in(2) {
            TELLING[self.below(TELLING.len())]
        } else {
            self.byte()
        }
    }
}

// One word as it stands on a reel.
pub fn put_word(out: &mut Vec<u8>, word: u8, spacing: usize) {
    out.extend_from_slice(&[SYNC, word, word, word]);
    out.resize(out.len() + spacing, FILL);
}

pub fn put_words(out: &mut Vec<u8>, words: &[u8], spacing: usize) {
    for &word in words {
        put_word(out, word, spacing);
    }
}

pub fn put_lead_in(out: &mut Vec<u8>, spacing: usize) {
    put_words(out, &FRAME_SYNC, spacing);
}

// How a frame's other words are chosen.
#[derive(Clone, Copy)]
pub enum Data {
    Any,
    // SYNC, FILL, the frame sync and frame numbers as data.
    Telling,
    Same(u8),
}

pub fn frame(r: &mut Random, number: u8, data: Data) -> [u8; FRAME] {
    let mut f = [0; FRAME];
    match data {
        Data::Any => r.fill(&mut f),
        Data::Telling => f.iter_mut().for_each(|b| *b = r.telling_byte()),
        Data::Same(b) => f = [b; FRAME],
    }
    f[..3].copy_from_slice(&FRAME_SYNC);
    f[NUMBER_PLACE] = number;
    f
}

fn any_data(r: &mut Random) -> Data {
    match r.below(4) {
        0 | 1 => Data::Any,
        2 => Data::Telling,
        _ => Data::Same(r.telling_byte()),
    }
}

fn any_spacing(r: &mut Random) -> usize {
    match r.below(8) {
        0..=2 => 0,
        3..=5 => 5,
        6 => r.below(8),
        _ => r.below(61),
    }
}

// How often something goes wrong with a frame: one in so many, and never at 0.
struct Faults(usize);

impl Faults {
    fn strike(&self, r: &mut Random) -> bool {
        self.0 != 0 && r.one_in(self.0)
    }
}

// Frames numbered from `from` on, with a lead-in and, here and there, a fault.
fn reel(r: &mut Random, frames: usize, from: u8, spacing: Option<usize>, faults: &Faults) -> Vec<u8> {
    let mut out = Vec::new();
    let data = any_data(r);
    // A reader that has lost the sync locks again only at another lead-in.
    let lead_ins = Faults(if faults.0 == 0 || r.one_in(2) { 0 } else { 3 });
    put_lead_in(&mut out, spacing.unwrap_or(5));
    let mut number = from;
    for _ in 0..frames {
        if lead_ins.strike(r) {
            put_lead_in(&mut out, spacing.unwrap_or(0));
        }
        let spacing = spacing.unwrap_or_else(|| any_spacing(r));
        let start = out.len();
        let wrong = faults.strike(r).then(|| wrong_number(r, number));
        put_words(&mut out, &frame(r, wrong.unwrap_or(number), data), spacing);
        if faults.strike(r) {
            spoil(r, &mut out, start, spacing);
        }
        number = (number + 1) % 128;
    }
    out
}

fn wrong_number(r: &mut Random, number: u8) -> u8 {
    match r.below(6) {
        0 => 0,
        1 => number.wrapping_add(1),
        2 => number.wrapping_sub(1),
        3 => 127,
        4 => 128 + r.below(128) as u8,
        _ => r.byte(),
    }
}

// Damage to the frame that begins at `start` and ends the stream.
fn spoil(r: &mut Random, out: &mut Vec<u8>, start: usize, spacing: usize) {
    let cell = 4 + spacing;
    let group = start + cell * r.below(FRAME);
    match r.below(9) {
        // The frame is missing.
        0 => out.truncate(start),
        // It is cut off, at a group or anywhere.
        1 => out.truncate(group),
        2 => out.truncate(start + r.below(out.len() - start)),
        // Its beginning is lost.
        3 => {
            out.drain(start..group);
        }
        // A group that no two copies agree in: an erasure.
        4 => split(r, &mut out[group..]),
        // The same in its sync.
        5 => {
            let at = start + cell * r.below(3);
            split(r, &mut out[at..]);
        }
        // An erased stretch.
        6 => {
            let end = (group + 1 + r.below(12 * cell)).min(out.len());
            let blank = if r.one_in(2) { FILL } else { r.byte() };
            out[group..end].iter_mut().for_each(|b| *b = blank);
        }
        // A lead-in where none belongs.
        7 => put_lead_in(out, spacing),
        // A wrong sync word, agreed by all copies.
        _ => {
            let at = start + cell * r.below(3);
            let word = r.telling_byte();
            out[at + 1..at + 4].iter_mut().for_each(|b| *b = word);
        }
    }
}

fn split(r: &mut Random, group: &mut [u8]) {
    let word = r.byte();
    for (k, copy) in group[1..4].iter_mut().enumerate() {
        *copy = word.wrapping_add(k as u8);
    }
}

// Flips, insertions and deletions anywhere, about one in `rate` bytes.
fn disturb(r: &mut Random, bytes: &mut Vec<u8>, rate: usize) {
    for _ in 0..bytes.len() / rate + 1 {
        if bytes.is_empty() {
            return;
        }
        let at = r.below(bytes.len());
        match r.below(5) {
            0 => bytes[at] ^= 1 << r.below(8),
            1 => bytes[at] = r.telling_byte(),
            2 => bytes.insert(at, r.telling_byte()),
            3 => {
                bytes.remove(at);
            }
            _ => {
                let end = (at + 1 + r.below(20)).min(bytes.len());
                bytes.drain(at..end);
            }
        }
    }
}

fn noise(r: &mut Random, n: usize) -> Vec<u8> {
    let mut bytes = vec![0; n];
    r.fill(&mut bytes);
    bytes
}

// Words chosen so that the sync is met, nearly met, and met again.
fn words(r: &mut Random, n: usize) -> Vec<u8> {
    let mut out = Vec::new();
    for _ in 0..n {
        let word = if r.one_in(3) { r.byte() } else { FRAME_SYNC[r.below(3)] };
        put_word(&mut out, word, r.below(2));
        if r.one_in(9) {
            let at = out.len() - 2;
            out[at] = r.telling_byte();
        }
    }
    out
}

// A stream of one of the kinds below. Most are a few thousand bytes; one in `rare` holds a whole major frame or more.
pub fn any_stream(r: &mut Random, rare: usize) -> Vec<u8> {
    if r.one_in(rare) {
        return long_stream(r);
    }
    let mut bytes = match r.below(10) {
        0 => {
            let n = r.below(3000);
            noise(r, n)
        }
        1 => (0..r.below(3000)).map(|_| r.telling_byte()).collect(),
        2 => {
            let n = r.below(400);
            words(r, n)
        }
        3 => {
            let (n, from, spacing) = (r.below(8), r.below(128) as u8, any_spacing(r));
            reel(r, n, from, Some(spacing), &Faults(0))
        }
        4 => {
            let n = r.below(8);
            reel(r, n, 0, None, &Faults(0))
        }
        _ => {
            let (n, from) = (1 + r.below(12), if r.one_in(3) { r.below(130) as u8 % 128 } else { 0 });
            let spacing = if r.one_in(4) { None } else { Some([0, 1, 2, 5, 5, 5][r.below(6)]) };
            let rate = 2 + r.below(6);
            reel(r, n, from, spacing, &Faults(rate))
        }
    };
    if r.one_in(3) {
        slip(r, &mut bytes);
    }
    if r.one_in(3) {
        let rate = 20 + r.below(2000);
        disturb(r, &mut bytes, rate);
    }
    if r.one_in(5) {
        let (n, front) = (r.below(200), r.one_in(2));
        let extra = noise(r, n);
        let at = if front { 0 } else { bytes.len() };
        bytes.splice(at..at, extra);
    }
    bytes
}

// One FILL more after some of them, as now and then from the spacecraft (DFCB 3.2.7.1), or often.
fn slip(r: &mut Random, bytes: &mut Vec<u8>) {
    let rate = if r.one_in(2) { 1225 } else { 1 + r.below(200) };
    let mut out = Vec::with_capacity(bytes.len() + bytes.len() / 4);
    for &b in bytes.iter() {
        out.push(b);
        if b == FILL && r.one_in(rate) {
            out.push(FILL);
        }
    }
    *bytes = out;
}

// One to three major frames, whole or with few faults, now and then after frames that lead up to them.
fn long_stream(r: &mut Random) -> Vec<u8> {
    let from = if r.one_in(2) { 0 } else { 128 - r.below(6) as u8 };
    let lead = (128 - from as usize) % 128;
    let (frames, spacing) = (lead + 128 * (1 + r.below(2)) + r.below(4), [0, 1, 2, 5][r.below(4)]);
    let faults = Faults(if r.one_in(2) { 0 } else { 60 + r.below(400) });
    let mut bytes = reel(r, frames, from % 128, Some(spacing), &faults);
    if r.one_in(4) {
        disturb(r, &mut bytes, 60_000);
    }
    bytes
}
