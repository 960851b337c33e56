// A streaming reader in safe Rust with the ideas for a fast proved one copied into it. A nominal group is SYNC and three equal copies, a
// nominal cell such a group and five FILL: a cell or two groups are compared as one number, sixteen cells or groups on whole vectors, and the counts
// of a run are added once, from how far it went. From the first bad copy on, groups of which two copies are equal are voted without branches
// (voted.rs). Outside groups, blocks of 64 bytes without SYNC are passed over. All else goes a group at a time, or a byte at a time where a
// group lies across the end of a piece.

use crate::bytewise::{byte, group};
use crate::tally::{Tally, FILL, FRAME, FRAME_SYNC, SYNC};
use crate::voted;

pub const GROUP: usize = 4;
pub const CELL: usize = 9;
const ROW: usize = 16;
const BLOCK: usize = 64;

// A group, two groups, the first eight bytes of a cell and eight FILL as numbers, first byte lowest, with 0 for each copy; x times COPIES is x
// at the three copies.
const GROUP_BITS: u32 = SYNC as u32;
const PAIR_BITS: u64 = u64::from_le_bytes([SYNC, 0, 0, 0, SYNC, 0, 0, 0]);
const CELL_BITS: u64 = u64::from_le_bytes([SYNC, 0, 0, 0, FILL, FILL, FILL, FILL]);
const FILL_BITS: u64 = u64::from_le_bytes([FILL; 8]);
const COPIES: u32 = 0x0101_0100;

// Takes the whole piece, or stops just after the byte that completes a major frame: the bytes taken, and whether one is complete.
// As the proved reader does, it tests first that the tally is in order.
pub fn take(t: &mut Tally, piece: &[u8], area: &mut [u8]) -> (usize, bool) {
    assert!(t.in_order());
    let mut at = 0;
    while at < piece.len() {
        let (taken, complete) = step(t, &piece[at..], area);
        at += taken;
        if complete {
            return (at, true);
        }
    }
    (at, false)
}

fn step(t: &mut Tally, piece: &[u8], area: &mut [u8]) -> (usize, bool) {
    if t.open != 0 || piece.len() < GROUP {
        return (1, byte(t, piece[0], area));
    }
    let run = if t.hunting { hunt(t, piece) } else { place(t, piece) };
    run.count(t);
    let mut at = run.bytes;
    if piece.get(at).is_some_and(|&b| b != SYNC) {
        at += quiet(t, &piece[at..]);
    }
    if let Some(taken) = open_last(t, &piece[at..]) {
        return (at + taken, false);
    }
    match voted::take(t, &piece[at..]) {
        0 => {
            let (taken, complete) = next_group(t, &piece[at..], area);
            (at + taken, complete)
        }
        taken => (at + taken, false),
    }
}

// The last bytes of a piece that ends within a group, from its SYNC on.
fn open_last(t: &mut Tally, piece: &[u8]) -> Option<usize> {
    match *piece {
        [SYNC] => {}
        [SYNC, first] => t.first = first,
        [SYNC, first, second] => (t.first, t.second) = (first, second),
        _ => return None,
    }
    t.bytes += piece.len() as u64;
    t.open = piece.len() as u64;
    Some(piece.len())
}

// How far nominal groups and FILL go, how many groups they are, and the last one's word.
#[derive(Default)]
struct Run {
    bytes: usize,
    words: usize,
    last: u8,
}

impl Run {
    fn past_fill(piece: &[u8]) -> Run {
        Run { bytes: leading_fill(piece), ..Run::default() }
    }

    // Past n nominal parts of this width, and the FILL after them.
    #[inline(always)]
    fn pass(&mut self, piece: &[u8], width: usize, n: usize) {
        if n != 0 {
            self.bytes += n * width;
            self.words += n;
            self.last = piece[self.bytes - width + 1];
            self.bytes += leading_fill(&piece[self.bytes..]);
        }
    }

    fn count(&self, t: &mut Tally) {
        t.bytes += self.bytes as u64;
        t.fill += (self.bytes - GROUP * self.words) as u64;
        t.voted += self.words as u64;
        if self.words != 0 {
            t.first = self.last;
            t.second = self.last;
        }
    }
}

// Nominal groups and FILL, while no word can begin the sync.
fn hunt(t: &mut Tally, piece: &[u8]) -> Run {
    if t.matched != 0 {
        return Run::default();
    }
    let goes_on = |word| word != FRAME_SYNC[0];
    let mut run = Run::past_fill(piece);
    for _ in 0..2 {
        let cells = piece[run.bytes..].chunks_exact(CELL).take_while(|c| is_cell(c) && goes_on(c[1])).count();
        run.pass(piece, CELL, cells);
    }
    while let Some(g) = piece.get(run.bytes..run.bytes + GROUP) {
        if !(is_group(g) && goes_on(g[1])) {
            break;
        }
        run.pass(piece, GROUP, 1);
    }
    t.hunted += run.words as u64;
    run
}

// Nominal groups and FILL, up to the last place: the group that fills it may end the call, so nothing after it is taken with it.
fn place(t: &mut Tally, piece: &[u8]) -> Run {
    let places = &mut t.frame[t.placed as usize..FRAME - 1];
    let mut run = Run::past_fill(piece);
    // Sixteen at a time, one by one, and again behind a sixth FILL, which comes once in a frame or so.
    while run.words < places.len() && piece.get(run.bytes..run.bytes + CELL).is_some_and(is_cell) {
        let rows = copy_cell_rows(&piece[run.bytes..], &mut places[run.words..]);
        let cells = rows + copy_cells(&piece[run.bytes + CELL * rows..], &mut places[run.words + rows..]);
        run.pass(piece, CELL, cells);
    }
    if run.words < places.len() {
        let groups = copy_groups(&piece[run.bytes..], &mut places[run.words..]);
        run.pass(piece, GROUP, groups);
    }
    // What is left: groups with FILL between them, of any other number.
    for place in &mut places[run.words..] {
        match piece.get(run.bytes..run.bytes + GROUP) {
            Some(g) if is_group(g) => *place = g[1],
            _ => break,
        }
        run.pass(piece, GROUP, 1);
    }
    t.placed += run.words as u64;
    run
}

// The words of the cells that come first, as many as there are places: how many.
#[inline(always)]
pub fn copy_cells(piece: &[u8], places: &mut [u8]) -> usize {
    let mut words = 0;
    for (place, cell) in places.iter_mut().zip(piece.chunks_exact(CELL)) {
        if !is_cell(cell) {
            break;
        }
        *place = cell[1];
        words += 1;
    }
    words
}

// The same, sixteen at a time.
#[inline(always)]
fn copy_cell_rows(piece: &[u8], places: &mut [u8]) -> usize {
    let mut words = 0;
    for places in places.chunks_exact_mut(ROW) {
        match piece.get(CELL * words..CELL * (words + ROW) + 1) {
            // Where no SYNC stands after them, a sixth FILL is among them as a rule.
            Some(row) if row[CELL * ROW] == SYNC && is_cell_row(row.try_into().unwrap()) => {
                for (place, cell) in places.iter_mut().zip(row.chunks_exact(CELL)) {
                    *place = cell[1];
                }
                words += ROW;
            }
            _ => break,
        }
    }
    words
}

// What stands in a row of cells where no copy does, and the bits that are looked at: of those bytes, and of copies that are compared with the next byte.
const USUAL: [u8; ROW * CELL] = by_place([SYNC, 0, 0, 0, FILL, FILL, FILL, FILL, FILL]);
const SPACED: [u8; ROW * CELL] = by_place([0xFF, 0, 0, 0, 0xFF, 0xFF, 0xFF, 0xFF, 0xFF]);
const COPIED: [u8; ROW * CELL] = by_place([0, 0xFF, 0xFF, 0, 0, 0, 0, 0, 0]);

const fn by_place(cell: [u8; CELL]) -> [u8; ROW * CELL] {
    let mut row = [0; ROW * CELL];
    let mut k = 0;
    while k < row.len() {
        row[k] = cell[k % CELL];
        k += 1;
    }
    row
}

#[inline(always)]
fn is_cell_row(row: &[u8; ROW * CELL + 1]) -> bool {
    let mut wrong = 0;
    for k in 0..ROW * CELL {
        wrong |= (row[k] ^ USUAL[k]) & SPACED[k] | (row[k] ^ row[k + 1]) & COPIED[k];
    }
    wrong == 0
}

// The same of groups that follow each other: sixteen at a time, then two. Not inlined: beside it the loop over cells is slower.
#[inline(never)]
fn copy_groups(piece: &[u8], places: &mut [u8]) -> usize {
    let rows = copy_rows(piece, places);
    rows + copy_pairs(&piece[GROUP * rows..], &mut places[rows..])
}

#[inline(always)]
fn copy_rows(piece: &[u8], places: &mut [u8]) -> usize {
    let mut words = 0;
    for (places, row) in places.chunks_exact_mut(ROW).zip(piece.chunks_exact(ROW * GROUP)) {
        if !is_row(row) {
            break;
        }
        for (place, group) in places.iter_mut().zip(row.chunks_exact(GROUP)) {
            *place = (number(group) >> 8) as u8;
        }
        words += ROW;
    }
    words
}

#[inline(always)]
fn copy_pairs(piece: &[u8], places: &mut [u8]) -> usize {
    let mut words = 0;
    for (place, pair) in places.chunks_exact_mut(2).zip(piece.chunks_exact(2 * GROUP)) {
        if !is_pair(pair) {
            break;
        }
        place[0] = pair[1];
        place[1] = pair[1 + GROUP];
        words += 2;
    }
    words
}

#[inline(always)]
fn number(g: &[u8]) -> u32 {
    u32::from_le_bytes(g.try_into().unwrap())
}

#[inline(always)]
fn is_group(g: &[u8]) -> bool {
    number(g) == GROUP_BITS + COPIES * u32::from(g[1])
}

// The bits that are wrong in each group, in its SYNC and between neighbouring copies, are joined, so that it is done on whole vectors.
#[inline(always)]
fn is_row(row: &[u8]) -> bool {
    let wrong = |g: &[u8]| {
        let bits = number(g);
        ((bits ^ GROUP_BITS) & 0xFF) | ((bits ^ (bits >> 8)) & 0xFF_FF00)
    };
    row.chunks_exact(GROUP).fold(0, |all, g| all | wrong(g)) == 0
}

#[inline(always)]
fn is_pair(p: &[u8]) -> bool {
    let copies = u64::from(COPIES) * u64::from(p[1]) + (u64::from(COPIES) << 32) * u64::from(p[1 + GROUP]);
    eight(p) == PAIR_BITS + copies
}

#[inline(always)]
pub fn is_cell(c: &[u8]) -> bool {
    eight(c) == CELL_BITS + u64::from(COPIES) * u64::from(c[1]) && c[8] == FILL
}

#[inline(always)]
pub fn eight(b: &[u8]) -> u64 {
    u64::from_le_bytes(b[..8].try_into().unwrap())
}

// None and one by branches, which the processor foresees; more by eights, with what it has to wait for, a count of bits, at the end.
#[inline(always)]
pub fn leading_fill(piece: &[u8]) -> usize {
    if piece.first() != Some(&FILL) {
        return 0;
    }
    if piece.get(1) != Some(&FILL) {
        return 1;
    }
    let mut at = 0;
    for part in piece.chunks_exact(8) {
        let other = eight(part) ^ FILL_BITS;
        if other != 0 {
            return at + other.trailing_zeros() as usize / 8;
        }
        at += 8;
    }
    at + piece[at..].iter().take_while(|&&b| b == FILL).count()
}

// Counts what stands before the next SYNC: how many bytes.
#[inline(always)]
fn quiet(t: &mut Tally, piece: &[u8]) -> usize {
    if piece.first() == Some(&SYNC) {
        return 0;
    }
    let (at, fill) = before_sync(piece);
    t.bytes += at as u64;
    t.fill += fill as u64;
    t.stray += (at - fill) as u64;
    at
}

// The group of the SYNC that comes next, where the piece has the whole of it.
fn next_group(t: &mut Tally, piece: &[u8], area: &mut [u8]) -> (usize, bool) {
    match piece.get(..GROUP) {
        Some(&[_, first, second, third]) => {
            t.bytes += GROUP as u64;
            t.first = first;
            t.second = second;
            (GROUP, group(t, third, area))
        }
        _ => (0, false),
    }
}

// How many bytes there are before the first SYNC, and how many of them are FILL: by blocks, by eights, then one by one.
fn before_sync(piece: &[u8]) -> (usize, usize) {
    let (mut at, mut fill) = (0, 0);
    for size in [BLOCK, 8, 1] {
        for block in piece[at..].chunks_exact(size) {
            if count(block, SYNC) != 0 {
                break;
            }
            at += size;
            fill += count(block, FILL);
        }
    }
    (at, fill)
}

// A sum of bytes, so that it is done on whole vectors; a block has few enough.
#[inline(always)]
fn count(block: &[u8], wanted: u8) -> usize {
    block.iter().map(|&b| u8::from(b == wanted)).sum::<u8>() as usize
}
