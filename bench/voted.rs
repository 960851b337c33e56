// Voted stretches in safe Rust: groups of which at least two copies are equal, with any bytes but SYNC between them. Cells are taken in blocks, whose copies are
// gathered into three columns and compared as vectors; of other groups it is counted which two copies agree, three counts side by side in one number,
// and the word comes from masks. So no branch depends on which copy is bad.

use crate::nominal::{copy_cells, eight, is_cell, leading_fill, CELL, GROUP};
use crate::tally::{Tally, FILL, FRAME, FRAME_SYNC, SYNC};

// The bytes of a cell that are no copies, among its first eight.
const SPACED: u64 = u64::from_le_bytes([0xFF, 0, 0, 0, 0xFF, 0xFF, 0xFF, 0xFF]);
const SPACED_BITS: u64 = u64::from_le_bytes([SYNC, 0, 0, 0, FILL, FILL, FILL, FILL]);

// So many cells of a block at most.
const LANES: usize = 64;

// So many lanes are voted on at once.
const VECTOR: usize = 16;

// Three counts stand side by side in 16 bits each.
const MOST: usize = 0xFFFF;

// What a run has counted: how far it goes, how many groups it has, how often copies agree, where the last group stands, and how many bytes are stray.
#[derive(Default)]
struct Run {
    bytes: usize,
    groups: usize,
    agreements: u64,
    last: usize,
    stray: usize,
}

// Takes what is voted from the first byte on, up to the last place of a frame, or up to a word that the hunt may match: the bytes taken.
pub fn take(t: &mut Tally, piece: &[u8]) -> usize {
    if t.hunting {
        return if t.matched == 0 { hunt(t, piece) } else { 0 };
    }
    if t.placed as usize == FRAME - 1 {
        return 0;
    }
    place(t, piece)
}

fn place(t: &mut Tally, piece: &[u8]) -> usize {
    let places = &mut t.frame[t.placed as usize..FRAME - 1];
    let mut run = Run::default();
    // A block is begun where a group is voted, and the next one after a whole block.
    let mut more = group_at(&run, piece).is_some();
    while more {
        more = place_block(&mut run, piece, places);
    }
    run.past_quiet(piece);
    while run.groups < places.len() {
        match group_at(&run, piece) {
            Some((agree, word)) => {
                places[run.groups] = word;
                run.pass(piece, agree);
                let cells = copy_cells(&piece[run.bytes..], &mut places[run.groups..]);
                run.pass_alike(cells);
            }
            None => break,
        }
    }
    t.placed += run.groups as u64;
    run.count(t, piece)
}

// A block of cells, as many as there are places: whether it is whole. It takes none where a group is split. Not inlined, here and below, it is faster.
#[inline(never)]
fn place_block(run: &mut Run, piece: &[u8], places: &mut [u8]) -> bool {
    let (mut first, mut second, mut third) = ([0; LANES], [0; LANES], [0; LANES]);
    let mut n = 0;
    for cell in piece[run.bytes..].chunks_exact(CELL).take(LANES.min(places.len() - run.groups)) {
        if !is_spaced(cell) {
            break;
        }
        first[n] = cell[1];
        second[n] = cell[2];
        third[n] = cell[3];
        n += 1;
    }
    if n == 0 {
        return false;
    }
    let lanes = (n + VECTOR - 1) / VECTOR * VECTOR;
    let (agreements, split) = vote(&mut first[..lanes], &second[..lanes], &third[..lanes]);
    if split != 0 {
        return false;
    }
    places[run.groups..run.groups + n].copy_from_slice(&first[..n]);
    run.last = run.bytes + CELL * (n - 1);
    run.bytes += CELL * n;
    run.groups += n;
    // Lanes with no cell have three equal copies.
    run.agreements += agreements - (lanes - n) as u64 * side_by_side(1, 1, 1);
    n == LANES
}

// Votes on each lane, whatever stands in it, and puts the word in place of the first copy: how often copies agree, and how many lanes are split.
#[inline(never)]
fn vote(first: &mut [u8], second: &[u8], third: &[u8]) -> (u64, u8) {
    let (mut first_two, mut outer_two, mut last_two, mut split) = (0u8, 0u8, 0u8, 0u8);
    for ((a, &b), &c) in first.iter_mut().zip(second).zip(third) {
        first_two += u8::from(*a == b);
        outer_two += u8::from(*a == c);
        last_two += u8::from(b == c);
        split += u8::from(agreement(*a, b, c) == 0);
        *a = masked(*a, b, c);
    }
    (side_by_side(first_two, outer_two, last_two), split)
}

#[inline(always)]
fn is_spaced(cell: &[u8]) -> bool {
    eight(cell) & SPACED == SPACED_BITS && cell[8] == FILL
}

fn hunt(t: &mut Tally, piece: &[u8]) -> usize {
    let mut run = Run { bytes: leading_fill(piece), ..Run::default() };
    while run.groups < MOST {
        match group_at(&run, piece) {
            Some((agree, word)) if word != FRAME_SYNC[0] => {
                run.pass(piece, agree);
                let goes_on = |c: &&[u8]| is_cell(c) && c[1] != FRAME_SYNC[0];
                let cells = piece[run.bytes..].chunks_exact(CELL).take(MOST - run.groups).take_while(goes_on).count();
                run.pass_alike(cells);
            }
            _ => break,
        }
    }
    t.hunted += run.groups as u64;
    run.count(t, piece)
}

// Which copies agree and the word of the group that comes next, if it is voted.
#[inline(always)]
fn group_at(run: &Run, piece: &[u8]) -> Option<(u64, u8)> {
    match piece.get(run.bytes..run.bytes + GROUP) {
        Some(&[SYNC, a, b, c]) if agreement(a, b, c) != 0 => Some((agreement(a, b, c), masked(a, b, c))),
        _ => None,
    }
}

#[inline(always)]
fn agreement(a: u8, b: u8, c: u8) -> u64 {
    side_by_side(u8::from(a == b), u8::from(a == c), u8::from(b == c))
}

#[inline(always)]
fn side_by_side(x: u8, y: u8, z: u8) -> u64 {
    u64::from(x) + (u64::from(y) << 16) + (u64::from(z) << 32)
}

#[inline(always)]
fn masked(a: u8, b: u8, c: u8) -> u8 {
    a & b | a & c | b & c
}

impl Run {
    // Past a group and what stands between it and the next SYNC.
    #[inline(always)]
    fn pass(&mut self, piece: &[u8], agree: u64) {
        self.last = self.bytes;
        self.bytes += GROUP;
        self.past_quiet(piece);
        self.groups += 1;
        self.agreements += agree;
    }

    // Past so many cells of three equal copies.
    #[inline(always)]
    fn pass_alike(&mut self, cells: usize) {
        if cells != 0 {
            self.last = self.bytes + CELL * (cells - 1);
            self.bytes += CELL * cells;
            self.groups += cells;
            self.agreements += cells as u64 * side_by_side(1, 1, 1);
        }
    }

    // FILL mostly, and stray bytes now and then.
    #[inline(always)]
    fn past_quiet(&mut self, piece: &[u8]) {
        self.bytes += leading_fill(&piece[self.bytes..]);
        if piece.get(self.bytes).is_some_and(|&b| b != SYNC) {
            self.past_stray(piece);
        }
    }

    #[inline(never)]
    fn past_stray(&mut self, piece: &[u8]) {
        let rest = &piece[self.bytes..];
        let n = rest.iter().position(|&b| b == SYNC).unwrap_or(rest.len());
        self.stray += rest[..n].iter().filter(|&&b| b != FILL).count();
        self.bytes += n;
    }

    fn count(&self, t: &mut Tally, piece: &[u8]) -> usize {
        let groups = self.groups as u64;
        t.bytes += self.bytes as u64;
        t.fill += (self.bytes - self.stray) as u64 - GROUP as u64 * groups;
        t.stray += self.stray as u64;
        t.voted += groups;
        if groups != 0 {
            let [first_two, outer_two, last_two] = [0, 16, 32].map(|at| self.agreements >> at & 0xFFFF);
            let alike = (first_two + outer_two + last_two - groups) / 2;
            t.weak[0] += last_two - alike;
            t.weak[1] += outer_two - alike;
            t.weak[2] += first_two - alike;
            t.first = piece[self.last + 1];
            t.second = piece[self.last + 2];
        }
        self.bytes
    }
}
