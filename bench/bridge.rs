// The proved library, through its archives for C. The only unsafe code here and in pay_api.rs: each lent slice crosses as its pointer and its length.

use crate::tally::{Tally, FRAME, NUMBERS};

extern "C" {
    fn pcd_fresh(rule: u64, numbers: *mut [u64; NUMBERS], frame: *mut [u8; FRAME]) -> u8;
    fn pcd_take(
        numbers: *mut [u64; NUMBERS],
        frame: *mut [u8; FRAME],
        piece: *const u8,
        piece_len: usize,
        area: *mut u8,
        area_len: usize,
        answer: *mut [u64; 2],
    ) -> u8;
    fn pcd_take_to_lock(
        numbers: *mut [u64; NUMBERS],
        frame: *mut [u8; FRAME],
        piece: *const u8,
        piece_len: usize,
        area: *mut u8,
        area_len: usize,
        answer: *mut [u64; 3],
    ) -> u8;
    fn pcd_relock(
        numbers: *mut [u64; NUMBERS],
        frame: *mut [u8; FRAME],
        feeder: *mut [u64; 2],
        piece: *const u8,
        piece_len: usize,
        ends: u64,
        area: *mut u8,
        area_len: usize,
        answer: *mut [u64; 3],
    ) -> u8;
    fn pcd_change_duty(numbers: *mut [u64; NUMBERS], frame: *mut [u8; FRAME], operator_number: u64) -> u8;
    fn pcd_write_lead_in(spacing: u64, out: *mut u8, out_len: usize) -> u8;
    fn pcd_write_minor_frame(spacing: u64, frame: *const u8, frame_len: usize, out: *mut u8, out_len: usize) -> u8;
    fn pcd_decode_time(year: u64, bytes: *const u8, bytes_len: usize, out: *mut [u64; 2]) -> u8;
    fn pcd_encode_time(year: u64, spacecraft: u64, instant: u64, out: *mut u8, out_len: usize) -> u8;
    fn pcd_decode_number(bytes: *const u8, bytes_len: usize, out: *mut f64) -> u8;
    fn pcd_encode_number(x: f64, out: *mut u8, out_len: usize) -> u8;
    fn pcd_gather(area: *const u8, area_len: usize, column: *mut u8, column_len: usize) -> u8;
    fn pcd_kind(year: u64, column: *const u8, column_len: usize, out: *mut u64) -> u8;
    fn pcd_item_count(kind: u64, out: *mut u64) -> u8;
    fn pcd_describe(kind: u64, item: u64, out: *mut [u64; 3]) -> u8;
    fn pcd_part_refusal(column: *const u8, column_len: usize, kind: u64, item: u64) -> u8;
    fn pcd_read(
        year: u64,
        column: *const u8,
        column_len: usize,
        kind: u64,
        item: u64,
        out: *mut [u64; 9],
        number: *mut f64,
    ) -> u8;
    fn pcd_book_write(year: u64, bodies: *const u8, bodies_len: usize, out: *mut u8, out_len: usize) -> u8;
    fn pcd_book_view_refusal(book: *const u8, book_len: usize) -> u8;
    fn pcd_book_check(book: *const u8, book_len: usize, out: *mut u64) -> u8;
    fn pcd_book_header(book: *const u8, book_len: usize, out: *mut [u64; 2]) -> u8;
    fn pcd_book_entry(book: *const u8, book_len: usize, i: u64, out: *mut [u64; 2]) -> u8;
    fn pcd_book_body(book: *const u8, book_len: usize, i: u64, out: *mut [u64; 2]) -> u8;
    fn pcd_book_compare(
        first: *const u8,
        first_len: usize,
        second: *const u8,
        second_len: usize,
        table: *mut u64,
        table_len: usize,
        lines: *mut u64,
    ) -> u8;
    fn pcd_find(instants: *const u64, instants_len: usize, wanted: u64, out: *mut [u64; 2]) -> u8;
    fn pcd_encode_header(header: *mut u8, header_len: usize) -> u8;
    fn pcd_check_header(header: *const u8, header_len: usize, out: *mut u64) -> u8;
    fn pcd_repair_header(header: *mut u8, header_len: usize, out: *mut u64) -> u8;
    fn pcd_store(area: *mut u8, area_len: usize, bits: *mut u64, frame: *const u8, frame_len: usize, slot: *mut u64) -> u8;
    fn pcd_release(area: *const u8, area_len: usize, bits: *mut u64, slot: u64) -> u8;
    fn pcd_slot_refusal(area: *const u8, area_len: usize, bits: u64, slot: u64) -> u8;
    fn pcd_next_pointer(p: u64, out: *mut u64) -> u8;
    fn pcd_previous_pointer(p: u64, out: *mut u64) -> u8;
    fn pcd_pointer_after(p: u64, n: u64, out: *mut u64) -> u8;
    fn pcd_pointer_distance(p: u64, q: u64, out: *mut u64) -> u8;
    fn pcd_temperatures(cycle: *const u8, cycle_len: usize, year: u64, frame: u64, out: *mut [f64; 4]) -> u8;
    fn pcd_gyro_drift(cycle: *const u8, cycle_len: usize, year: u64, instant: *mut u64, out: *mut [f64; 3]) -> u8;
    fn pcd_attitude(cycle: *const u8, cycle_len: usize, year: u64, frame: u64, instant: *mut u64, out: *mut [i64; 4]) -> u8;
    fn pcd_clock(cycle: *const u8, cycle_len: usize, year: u64, updated: *mut f64, out: *mut [u64; 3]) -> u8;
    fn pcd_ephemeris(cycle: *const u8, cycle_len: usize, year: u64, frame: u64, instant: *mut u64, out: *mut [f64; 6]) -> u8;
}

// A tally as it crosses.
#[derive(Clone, Copy, Debug, PartialEq, Eq)]
pub struct State {
    pub numbers: [u64; NUMBERS],
    pub frame: [u8; FRAME],
}

impl State {
    pub fn of(t: &Tally) -> State {
        State { numbers: t.numbers(), frame: t.frame }
    }

    // None where the numbers are no tally's.
    pub fn tally(&self) -> Option<Tally> {
        Tally::of_numbers(&self.numbers, &self.frame)
    }
}

// A refused call leaves u64::MAX in the last two.
#[derive(PartialEq, Eq)]
pub struct Taken {
    pub refusal: u8,
    pub taken: u64,
    pub complete: u64,
}

// The refusal, and what is left, which a refused call has written too.
pub fn fresh(rule: u64) -> (u8, State) {
    let mut s = State { numbers: [u64::MAX; NUMBERS], frame: [0xFF; FRAME] };
    let refusal = unsafe { pcd_fresh(rule, &mut s.numbers, &mut s.frame) };
    (refusal, s)
}

pub fn take(s: &mut State, piece: &[u8], area: &mut [u8]) -> Taken {
    let mut answer = [u64::MAX; 2];
    let refusal = unsafe {
        pcd_take(
            &mut s.numbers,
            &mut s.frame,
            piece.as_ptr(),
            piece.len(),
            area.as_mut_ptr(),
            area.len(),
            &mut answer,
        )
    };
    Taken { refusal, taken: answer[0], complete: answer[1] }
}

// The refusal, and the bytes taken, whether a frame is complete and whether a hunt has ended; a refused call leaves u64::MAX in the three.
pub fn take_to_lock(s: &mut State, piece: &[u8], area: &mut [u8]) -> (u8, [u64; 3]) {
    let mut answer = [u64::MAX; 3];
    let refusal = unsafe {
        pcd_take_to_lock(
            &mut s.numbers,
            &mut s.frame,
            piece.as_ptr(),
            piece.len(),
            area.as_mut_ptr(),
            area.len(),
            &mut answer,
        )
    };
    (refusal, answer)
}

// A feeder as it crosses: its tally, and whether a lock awaits its word and how many lead-ins were handed.
#[derive(Clone, Copy, Debug, PartialEq, Eq)]
pub struct Feeder {
    pub tally: State,
    pub numbers: [u64; 2],
}

// The refusal, and the bytes taken, whether a frame is complete and whether more is asked for; a refused step leaves u64::MAX in the three.
pub fn relock(s: &mut Feeder, piece: &[u8], ends: u64, area: &mut [u8]) -> (u8, [u64; 3]) {
    let mut answer = [u64::MAX; 3];
    let refusal = unsafe {
        pcd_relock(
            &mut s.tally.numbers,
            &mut s.tally.frame,
            &mut s.numbers,
            piece.as_ptr(),
            piece.len(),
            ends,
            area.as_mut_ptr(),
            area.len(),
            &mut answer,
        )
    };
    (refusal, answer)
}

pub fn change_duty(s: &mut State, operator_number: u64) -> u8 {
    unsafe { pcd_change_duty(&mut s.numbers, &mut s.frame, operator_number) }
}

pub fn write_lead_in(spacing: u64, out: &mut [u8]) -> u8 {
    unsafe { pcd_write_lead_in(spacing, out.as_mut_ptr(), out.len()) }
}

pub fn write_minor_frame(spacing: u64, frame: &[u8], out: &mut [u8]) -> u8 {
    unsafe { pcd_write_minor_frame(spacing, frame.as_ptr(), frame.len(), out.as_mut_ptr(), out.len()) }
}

pub fn decode_time(year: u64, bytes: &[u8], out: &mut [u64; 2]) -> u8 {
    unsafe { pcd_decode_time(year, bytes.as_ptr(), bytes.len(), out) }
}

pub fn encode_time(year: u64, spacecraft: u64, instant: u64, out: &mut [u8]) -> u8 {
    unsafe { pcd_encode_time(year, spacecraft, instant, out.as_mut_ptr(), out.len()) }
}

pub fn decode_number(bytes: &[u8], out: &mut f64) -> u8 {
    unsafe { pcd_decode_number(bytes.as_ptr(), bytes.len(), out) }
}

pub fn encode_number(x: f64, out: &mut [u8]) -> u8 {
    unsafe { pcd_encode_number(x, out.as_mut_ptr(), out.len()) }
}

pub fn gather(area: &[u8], column: &mut [u8]) -> u8 {
    unsafe { pcd_gather(area.as_ptr(), area.len(), column.as_mut_ptr(), column.len()) }
}

pub fn kind(year: u64, column: &[u8], out: &mut u64) -> u8 {
    unsafe { pcd_kind(year, column.as_ptr(), column.len(), out) }
}

pub fn item_count(kind: u64, out: &mut u64) -> u8 {
    unsafe { pcd_item_count(kind, out) }
}

pub fn describe(kind: u64, item: u64, out: &mut [u64; 3]) -> u8 {
    unsafe { pcd_describe(kind, item, out) }
}

pub fn part_refusal(column: &[u8], kind: u64, item: u64) -> u8 {
    unsafe { pcd_part_refusal(column.as_ptr(), column.len(), kind, item) }
}

pub fn read(year: u64, column: &[u8], kind: u64, item: u64, out: &mut [u64; 9], number: &mut f64) -> u8 {
    unsafe { pcd_read(year, column.as_ptr(), column.len(), kind, item, out, number) }
}

pub fn find(instants: &[u64], wanted: u64, out: &mut [u64; 2]) -> u8 {
    unsafe { pcd_find(instants.as_ptr(), instants.len(), wanted, out) }
}

pub fn book_write(year: u64, bodies: &[u8], out: &mut [u8]) -> u8 {
    unsafe { pcd_book_write(year, bodies.as_ptr(), bodies.len(), out.as_mut_ptr(), out.len()) }
}

pub fn book_view_refusal(book: &[u8]) -> u8 {
    unsafe { pcd_book_view_refusal(book.as_ptr(), book.len()) }
}

pub fn book_check(book: &[u8], out: &mut u64) -> u8 {
    unsafe { pcd_book_check(book.as_ptr(), book.len(), out) }
}

pub fn book_header(book: &[u8], out: &mut [u64; 2]) -> u8 {
    unsafe { pcd_book_header(book.as_ptr(), book.len(), out) }
}

pub fn book_entry(book: &[u8], i: u64, out: &mut [u64; 2]) -> u8 {
    unsafe { pcd_book_entry(book.as_ptr(), book.len(), i, out) }
}

pub fn book_body(book: &[u8], i: u64, out: &mut [u64; 2]) -> u8 {
    unsafe { pcd_book_body(book.as_ptr(), book.len(), i, out) }
}

pub fn book_compare(first: &[u8], second: &[u8], table: &mut [u64], lines: &mut u64) -> u8 {
    unsafe { pcd_book_compare(first.as_ptr(), first.len(), second.as_ptr(), second.len(), table.as_mut_ptr(), table.len(), lines) }
}

pub fn encode_header(header: &mut [u8]) -> u8 {
    unsafe { pcd_encode_header(header.as_mut_ptr(), header.len()) }
}

pub fn check_header(header: &[u8], out: &mut u64) -> u8 {
    unsafe { pcd_check_header(header.as_ptr(), header.len(), out) }
}

pub fn repair_header(header: &mut [u8], out: &mut u64) -> u8 {
    unsafe { pcd_repair_header(header.as_mut_ptr(), header.len(), out) }
}

pub fn store(area: &mut [u8], bits: &mut u64, frame: &[u8], slot: &mut u64) -> u8 {
    unsafe { pcd_store(area.as_mut_ptr(), area.len(), bits, frame.as_ptr(), frame.len(), slot) }
}

pub fn release(area: &[u8], bits: &mut u64, slot: u64) -> u8 {
    unsafe { pcd_release(area.as_ptr(), area.len(), bits, slot) }
}

pub fn slot_refusal(area: &[u8], bits: u64, slot: u64) -> u8 {
    unsafe { pcd_slot_refusal(area.as_ptr(), area.len(), bits, slot) }
}

pub fn next_pointer(p: u64, out: &mut u64) -> u8 {
    unsafe { pcd_next_pointer(p, out) }
}

pub fn previous_pointer(p: u64, out: &mut u64) -> u8 {
    unsafe { pcd_previous_pointer(p, out) }
}

pub fn pointer_after(p: u64, n: u64, out: &mut u64) -> u8 {
    unsafe { pcd_pointer_after(p, n, out) }
}

pub fn pointer_distance(p: u64, q: u64, out: &mut u64) -> u8 {
    unsafe { pcd_pointer_distance(p, q, out) }
}

pub fn temperatures(cycle: &[u8], year: u64, frame: u64, out: &mut [f64; 4]) -> u8 {
    unsafe { pcd_temperatures(cycle.as_ptr(), cycle.len(), year, frame, out) }
}

pub fn gyro_drift(cycle: &[u8], year: u64, instant: &mut u64, out: &mut [f64; 3]) -> u8 {
    unsafe { pcd_gyro_drift(cycle.as_ptr(), cycle.len(), year, instant, out) }
}

pub fn attitude(cycle: &[u8], year: u64, frame: u64, instant: &mut u64, out: &mut [i64; 4]) -> u8 {
    unsafe { pcd_attitude(cycle.as_ptr(), cycle.len(), year, frame, instant, out) }
}

pub fn clock(cycle: &[u8], year: u64, updated: &mut f64, out: &mut [u64; 3]) -> u8 {
    unsafe { pcd_clock(cycle.as_ptr(), cycle.len(), year, updated, out) }
}

pub fn ephemeris(cycle: &[u8], year: u64, frame: u64, instant: &mut u64, out: &mut [f64; 6]) -> u8 {
    unsafe { pcd_ephemeris(cycle.as_ptr(), cycle.len(), year, frame, instant, out) }
}
