// The writer once more, from paper 01, and the proved one held to it. An answer is the bytes, or the number of the refusal.

use crate::bridge;
use crate::entry::{lent, same};
use crate::stream::{self, Random};
use crate::tally::{FRAME, FRAME_SYNC, NUMBER_PLACE};

fn lead_in(spacing: u64, out: usize) -> Result<Vec<u8>, u8> {
    if spacing > 60 {
        return Err(4);
    }
    let mut bytes = Vec::new();
    stream::put_lead_in(&mut bytes, spacing as usize);
    if out == bytes.len() { Ok(bytes) } else { Err(2) }
}

fn minor_frame(spacing: u64, frame: &[u8], out: usize) -> Result<Vec<u8>, u8> {
    if spacing > 60 {
        return Err(4);
    }
    if frame.len() != FRAME || out != FRAME * (4 + spacing as usize) {
        return Err(2);
    }
    if frame[..3] != FRAME_SYNC || frame[NUMBER_PLACE] > 127 {
        return Err(5);
    }
    let mut bytes = Vec::new();
    stream::put_words(&mut bytes, frame, spacing as usize);
    Ok(bytes)
}

fn lead_in_trial(r: &mut Random, spacing: u64) -> Result<(), String> {
    let old = lent(r, 3 * (4 + spacing as usize));
    let mut new = old.clone();
    let number = bridge::write_lead_in(spacing, &mut new);
    same("write_lead_in", lead_in(spacing, old.len()), old, number, new).map_err(|what| format!("{what}, for spacing {spacing}"))
}

fn minor_frame_trial(r: &mut Random, spacing: u64) -> Result<(), String> {
    let number = r.below(140) as u8;
    let mut frame = stream::frame(r, number, stream::Data::Telling).to_vec();
    if r.one_in(8) {
        frame[r.below(3)] = r.telling_byte();
    }
    if r.one_in(16) {
        frame.resize(r.below(260), 0);
    }
    let old = lent(r, FRAME * (4 + spacing as usize));
    let mut new = old.clone();
    let number = bridge::write_minor_frame(spacing, &frame, &mut new);
    same("write_minor_frame", minor_frame(spacing, &frame, old.len()), old, number, new)
        .map_err(|what| format!("{what}, for spacing {spacing} and {frame:02X?}"))
}

pub fn trials(r: &mut Random) -> Result<(), String> {
    let spacing = if r.one_in(8) { 50 + r.below(20) as u64 } else { r.below(61) as u64 };
    lead_in_trial(r, spacing)?;
    minor_frame_trial(r, spacing)
}
