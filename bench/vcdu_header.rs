// The check symbols of VCDU headers once more, from paper 02, request 11, and appendix B of the book, and the proved entries held to them: a
// product by shifts, check symbols by a division by the generator, and a repair that tries every change of at most two symbols. And two
// decoders by tables for the timing, held to the same.

use crate::bridge;
use crate::stream::Random;

pub const HEADER: usize = 8;
const PROTECTED: [usize; 5] = [0, 1, 5, 6, 7];

pub type Word = [u8; 10];

// ---- the field and the code, as the papers word them

// Modulo x^4 + x + 1.
fn times(a: u8, b: u8) -> u8 {
    let mut product = (0..4).filter(|i| b >> i & 1 == 1).fold(0, |sum, i| sum ^ u16::from(a) << i);
    for i in (4..8).rev() {
        if product >> i & 1 == 1 {
            product ^= 0b10011 << (i - 4);
        }
    }
    product as u8
}

fn power(n: usize) -> u8 {
    (0..n).fold(1, |p, _| times(p, 2))
}

// The product of x + a^j for j from 6 to 9, highest coefficient first.
fn generator() -> [u8; 5] {
    let mut g = [1, 0, 0, 0, 0];
    for j in 6..10 {
        for i in (1..5).rev() {
            g[i] ^= times(g[i - 1], power(j));
        }
    }
    g
}

// What a division by the generator leaves.
fn remainder(word: &Word) -> [u8; 4] {
    let g = generator();
    let mut rest = *word;
    for i in 0..6 {
        let first = rest[i];
        for (k, &c) in g.iter().enumerate() {
            rest[i + k] ^= times(first, c);
        }
    }
    [rest[6], rest[7], rest[8], rest[9]]
}

fn is_word(word: &Word) -> bool {
    remainder(word) == [0; 4]
}

#[inline(always)]
pub fn symbols(header: &[u8]) -> Word {
    let mut word = [0; 10];
    for (n, &i) in PROTECTED.iter().enumerate() {
        word[2 * n] = header[i] >> 4;
        word[2 * n + 1] = header[i] & 15;
    }
    word
}

#[inline(always)]
fn place(header: &mut [u8], word: &Word) {
    for (n, &i) in PROTECTED.iter().enumerate() {
        header[i] = word[2 * n] << 4 | word[2 * n + 1];
    }
}

pub fn encode(header: &mut [u8]) {
    let mut word = symbols(header);
    word[6..].fill(0);
    let checks = remainder(&word);
    word[6..].copy_from_slice(&checks);
    place(header, &word);
}

// Every change of at most two symbols, and what the division leaves of it.
fn changes() -> Vec<(Word, [u8; 4])> {
    let mut all = Vec::new();
    for (first, second) in (0..10).flat_map(|i| (0..=i).map(move |j| (i, j))) {
        for (by, also) in (0..16).flat_map(|a| (0..16).map(move |b| (a, b))) {
            let mut change = [0; 10];
            change[first] ^= by;
            change[second] ^= also;
            all.push((change, remainder(&change)));
        }
    }
    all.sort();
    all.dedup();
    all
}

thread_local! {
    static CHANGES: Vec<(Word, [u8; 4])> = changes();
}

// The code word within two symbols, and how many differ, by trying every change: by linearity it leads to a code word where it leaves what the
// word leaves. No second one is found.
fn search(word: &Word) -> Option<(Word, u64)> {
    let wanted = remainder(word);
    let right: Vec<Word> = CHANGES.with(|all| all.iter().filter(|(_, rest)| *rest == wanted).map(|(change, _)| *change).collect());
    assert!(right.len() <= 1, "more than one code word lies within two symbols of {word:?}");
    let change = right.first()?;
    let mut c = *word;
    c.iter_mut().zip(change).for_each(|(c, d)| *c ^= d);
    assert!(is_word(&c));
    Some((c, change.iter().filter(|&&d| d != 0).count() as u64))
}

// ---- a decoder as it is usually written: logarithms, values by Horner's rule, two errors by a determinant and a search over the places

pub struct Logs {
    exp: [u8; 32],
    log: [usize; 16],
}

impl Logs {
    pub fn new() -> Logs {
        let mut logs = Logs { exp: [0; 32], log: [0; 16] };
        for n in 0..32 {
            logs.exp[n] = power(n);
        }
        for n in (0..15).rev() {
            logs.log[logs.exp[n] as usize] = n;
        }
        logs
    }

    #[inline(always)]
    fn times(&self, a: u8, b: u8) -> u8 {
        if a == 0 || b == 0 {
            return 0;
        }
        self.exp[self.log[a as usize] + self.log[b as usize]]
    }

    #[inline(always)]
    fn over(&self, a: u8, b: u8) -> u8 {
        if a == 0 {
            return 0;
        }
        self.exp[self.log[a as usize] + 15 - self.log[b as usize]]
    }

    #[inline(always)]
    fn values(&self, word: &Word) -> [u8; 4] {
        [6, 7, 8, 9].map(|k| word.iter().fold(0, |s, &c| self.times(s, self.exp[k]) ^ c))
    }

    #[inline(never)]
    pub fn check(&self, header: &[u8]) -> u64 {
        (self.values(&symbols(header)) == [0; 4]) as u64
    }

    // How many symbols were wrong; none where there is no code word near.
    #[inline(never)]
    pub fn repair(&self, header: &mut [u8]) -> Option<u64> {
        let mut word = symbols(header);
        let [p, q, r, s] = self.values(&word);
        if [p, q, r, s] == [0; 4] {
            return Some(0);
        }
        let d = self.times(p, r) ^ self.times(q, q);
        if d == 0 {
            let x = if p == 0 { 0 } else { self.over(q, p) };
            if x == 0 || self.times(r, x) != s || self.log[x as usize] > 9 {
                return None;
            }
            word[9 - self.log[x as usize]] ^= self.over(p, self.exp[6 * self.log[x as usize] % 15]);
            place(header, &word);
            return Some(1);
        }
        let t = self.over(self.times(p, s) ^ self.times(q, r), d);
        let u = self.over(self.times(q, s) ^ self.times(r, r), d);
        let is_root = |n: &usize| self.exp[2 * n % 15] ^ self.times(t, self.exp[*n]) ^ u == 0;
        let mut roots = (0..10).filter(is_root);
        let (m, n) = (roots.next()?, roots.next()?);
        for (here, other) in [(m, n), (n, m)] {
            let f = self.over(q ^ self.times(p, self.exp[other]), t);
            word[9 - here] ^= self.over(f, self.exp[6 * here % 15]);
        }
        place(header, &word);
        Some(2)
    }
}

// ---- a decoder by the largest tables: the syndrome of each byte, and what to change for each of the 65,536 syndromes

pub struct Syndromes {
    bytes: Vec<[u16; 256]>,
    // The ten symbols to add, above them the count; all ones where there are none.
    repairs: Vec<u64>,
}

const NONE: u64 = u64::MAX;

impl Syndromes {
    pub fn new() -> Syndromes {
        let joined = |rest: [u8; 4]| rest.iter().fold(0u16, |s, &c| s << 4 | u16::from(c));
        let mut tables = Syndromes { bytes: vec![[0; 256]; 5], repairs: vec![NONE; 65_536] };
        for (n, b) in (0..5).flat_map(|n| (0..256).map(move |b| (n, b))) {
            let mut word = [0; 10];
            word[2 * n] = (b >> 4) as u8;
            word[2 * n + 1] = (b & 15) as u8;
            tables.bytes[n][b] = joined(remainder(&word));
        }
        for (change, rest) in changes() {
            let number = change.iter().fold(0, |x, &c| x << 4 | u64::from(c));
            let count = change.iter().filter(|&&c| c != 0).count() as u64;
            tables.repairs[joined(rest) as usize] = count << 40 | number;
        }
        tables
    }

    #[inline(always)]
    fn syndrome(&self, header: &[u8]) -> u16 {
        PROTECTED.iter().zip(&self.bytes).fold(0, |s, (&i, table)| s ^ table[header[i] as usize])
    }

    #[inline(never)]
    pub fn check(&self, header: &[u8]) -> u64 {
        (self.syndrome(header) == 0) as u64
    }

    #[inline(never)]
    pub fn repair(&self, header: &mut [u8]) -> Option<u64> {
        let repair = self.repairs[self.syndrome(header) as usize];
        if repair == NONE {
            return None;
        }
        for (n, &i) in PROTECTED.iter().enumerate() {
            header[i] ^= (repair >> (32 - 8 * n)) as u8;
        }
        Some(repair >> 40)
    }
}

// ---- trials

// Any bytes, or a code word with so many symbols changed.
pub fn any_header(r: &mut Random, wrong: usize) -> [u8; HEADER] {
    let mut header = [0; HEADER];
    r.fill(&mut header);
    if wrong > 4 {
        return header;
    }
    encode(&mut header);
    let mut word = symbols(&header);
    let mut left = wrong;
    while left > 0 {
        let i = r.below(10);
        if word[i] == symbols(&header)[i] {
            word[i] ^= 1 + r.below(15) as u8;
            left -= 1;
        }
    }
    place(&mut header, &word);
    header
}

fn same<T: PartialEq + std::fmt::Debug>(entry: &str, header: &[u8], wanted: T, has: T) -> Result<(), String> {
    if wanted == has {
        return Ok(());
    }
    Err(format!("{entry} of {header:02X?} differs: has {has:02X?}, wants {wanted:02X?}"))
}

fn trial(header: &[u8], lent: u64) -> Result<(), String> {
    let mut wanted = header.to_vec();
    if header.len() == HEADER {
        encode(&mut wanted);
    }
    let number = if header.len() == HEADER { 0 } else { 22 };
    let mut left = header.to_vec();
    same("encode", header, (number, wanted), (bridge::encode_header(&mut left), left))?;
    let mut out = lent;
    let word = if number == 0 { is_word(&symbols(header)) as u64 } else { lent };
    same("check", header, (number, word), (bridge::check_header(header, &mut out), out))?;
    let mut wanted = (number, header.to_vec(), lent);
    if number == 0 {
        match search(&symbols(header)) {
            Some((c, count)) => {
                place(&mut wanted.1, &c);
                wanted.2 = count;
            }
            None => wanted.0 = 23,
        }
    }
    let (mut left, mut out) = (header.to_vec(), lent);
    let number = bridge::repair_header(&mut left, &mut out);
    same("repair", header, wanted, (number, left, out))
}

// The decoders of the timing, held to the proved one.
fn trial_by_tables(header: [u8; HEADER], logs: &Logs, tables: &Syndromes) -> Result<(), String> {
    let (mut left, mut out) = (header, 0);
    let wanted = if bridge::repair_header(&mut left, &mut out) == 0 { Some(out) } else { None };
    let mut has = header;
    same("repair by logarithms", &header, (wanted, left), (logs.repair(&mut has), has))?;
    let mut has = header;
    same("repair by all syndromes", &header, (wanted, left), (tables.repair(&mut has), has))?;
    let mut word = 0;
    bridge::check_header(&header, &mut word);
    same("check by tables", &header, [word; 2], [logs.check(&header), tables.check(&header)])
}

thread_local! {
    static TABLES: (Logs, Syndromes) = (Logs::new(), Syndromes::new());
}

pub fn trials(r: &mut Random) -> Result<(), String> {
    for wrong in 0..6 {
        let header = any_header(r, wrong);
        trial(&header, r.next())?;
        TABLES.with(|(logs, tables)| trial_by_tables(header, logs, tables))?;
    }
    let mut other = vec![0; r.below(20)];
    r.fill(&mut other);
    trial(&other, r.next())
}
