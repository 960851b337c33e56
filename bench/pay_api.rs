// The pay system's entries, through libpay_api.a. Each lent slice crosses as its pointer and its length.

extern "C" {
    fn pcd_pay_vote_bytes(a: u8, b: u8, c: u8, answer: *mut u8, answer_len: usize) -> u8;
    fn pcd_pay_vote_bits(a: u8, b: u8, c: u8, answer: *mut u8, answer_len: usize) -> u8;
    fn pcd_pay_instant(bytes: *const u8, bytes_len: usize, year: u64, answer: *mut u8, answer_len: usize) -> u8;
    fn pcd_pay_number(bytes: *const u8, bytes_len: usize, answer: *mut u8, answer_len: usize) -> u8;
    fn pcd_pay_find(instants: *const u8, instants_len: usize, wanted: u64, answer: *mut u8, answer_len: usize) -> u8;
}

pub fn vote_bytes(a: u8, b: u8, c: u8, answer: &mut [u8]) -> u8 {
    unsafe { pcd_pay_vote_bytes(a, b, c, answer.as_mut_ptr(), answer.len()) }
}

pub fn vote_bits(a: u8, b: u8, c: u8, answer: &mut [u8]) -> u8 {
    unsafe { pcd_pay_vote_bits(a, b, c, answer.as_mut_ptr(), answer.len()) }
}

pub fn instant(bytes: &[u8], year: u64, answer: &mut [u8]) -> u8 {
    unsafe { pcd_pay_instant(bytes.as_ptr(), bytes.len(), year, answer.as_mut_ptr(), answer.len()) }
}

pub fn number(bytes: &[u8], answer: &mut [u8]) -> u8 {
    unsafe { pcd_pay_number(bytes.as_ptr(), bytes.len(), answer.as_mut_ptr(), answer.len()) }
}

pub fn find(instants: &[u8], wanted: u64, answer: &mut [u8]) -> u8 {
    unsafe { pcd_pay_find(instants.as_ptr(), instants.len(), wanted, answer.as_mut_ptr(), answer.len()) }
}
