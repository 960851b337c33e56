// The frame store once more, from paper 02, request 12, and the proved one held to it over a random sequence of calls, refused ones among them.
// Which slots are in use is a list of frames here, and the bits are only made from it.

use crate::bridge;
use crate::stream::Random;

const FRAME: usize = 16_384;

const MOST: usize = 64;

// Every byte of the area, and the frame that each slot holds: the last one stored there, unless it was released.
struct Slots {
    area: Vec<u8>,
    held: Vec<Option<Vec<u8>>>,
}

// What a call is handed.
struct Handed {
    area: Vec<u8>,
    bits: u64,
}

impl Slots {
    fn new(r: &mut Random, slots: usize) -> Slots {
        let mut area = vec![0; slots * FRAME];
        r.fill(&mut area);
        Slots { area, held: vec![None; slots] }
    }

    fn bits(&self) -> u64 {
        (0..self.held.len()).filter(|&i| self.held[i].is_some()).map(|i| 1 << i).sum()
    }

    fn handed(&self) -> Handed {
        Handed { area: self.area.clone(), bits: self.bits() }
    }

    // The lowest free slot takes the frame.
    fn store(&mut self, frame: &[u8]) -> Result<u64, u8> {
        let slot = self.held.iter().position(|h| h.is_none()).ok_or(26)?;
        self.held[slot] = Some(frame.to_vec());
        self.area[slot * FRAME..(slot + 1) * FRAME].copy_from_slice(frame);
        Ok(slot as u64)
    }

    fn release(&mut self, slot: u64) -> Result<(), u8> {
        self.frame(slot)?;
        self.held[slot as usize] = None;
        Ok(())
    }

    fn frame(&self, slot: u64) -> Result<&[u8], u8> {
        let slot = usize::try_from(slot).map_err(|_| 27)?;
        self.held.get(slot).and_then(|h| h.as_deref()).ok_or(27)
    }
}

// The refusal that every call looks for first.
fn area_refusal(area: &[u8], bits: u64) -> Result<(), u8> {
    let slots = area.len() / FRAME;
    if area.len() % FRAME != 0 || slots == 0 || slots > MOST {
        return Err(24);
    }
    if u128::from(bits) >= 1 << slots {
        return Err(25);
    }
    Ok(())
}

// Other lengths, other bits, or both: refused 24 or 25 whatever is asked.
fn spoil(r: &mut Random, mut handed: Handed) -> Handed {
    let slots = handed.area.len() / FRAME;
    let kind = if slots == MOST { 0 } else { r.below(3) };
    if kind != 1 {
        // One slot too many is a megabyte, so it comes seldom.
        let lengths = if r.one_in(20) { 5 } else { 4 };
        let length = [0, 1, FRAME - 1, slots * FRAME + 1, (MOST + 1) * FRAME][r.below(lengths)];
        handed.area.resize(length, 7);
    }
    if kind != 0 {
        handed.bits = [1 << slots, u64::MAX, (1 << slots) | r.next()][r.below(3)];
    }
    handed
}

fn any_slot(r: &mut Random, slots: usize) -> u64 {
    match r.below(12) {
        0 => [slots as u64, 63, 64, 65, 256, 1 << 32, u64::MAX][r.below(7)],
        1 => r.next(),
        _ => r.below(slots) as u64,
    }
}

fn same<T: PartialEq + std::fmt::Debug>(what: &str, wants: T, has: T) -> Result<(), String> {
    if wants == has {
        return Ok(());
    }
    Err(format!("{what}: has {has:?}, wants {wants:?}"))
}

fn number<T>(wanted: &Result<T, u8>) -> u8 {
    wanted.as_ref().err().copied().unwrap_or(0)
}

// A call of each kind, accepted or refused as it comes; `refused` is the refusal of what was spoilt.
fn store(r: &mut Random, s: &mut Slots, mut handed: Handed, refused: Result<(), u8>) -> Result<(), String> {
    let length = if r.one_in(10) { [0, FRAME - 1, FRAME + 1][r.below(3)] } else { FRAME };
    let mut frame = vec![0; length];
    r.fill(&mut frame);
    let before = handed.area.clone();
    let bits = handed.bits;
    let lent = r.next();
    let (mut bits_left, mut slot) = (bits, lent);
    let has = bridge::store(&mut handed.area, &mut bits_left, &frame, &mut slot);
    let wanted = if length != FRAME { Err(2) } else { refused.and_then(|()| s.store(&frame)) };
    same("the refusal of a store", number(&wanted), has)?;
    let (bits, area) = if wanted.is_ok() { (s.bits(), &s.area) } else { (bits, &before) };
    same("the slot of a store", wanted.unwrap_or(lent), slot)?;
    same("the bits after a store", bits, bits_left)?;
    if *area != handed.area {
        return Err("the area after a store".to_string());
    }
    Ok(())
}

fn release(r: &mut Random, s: &mut Slots, handed: Handed, refused: Result<(), u8>) -> Result<(), String> {
    let slot = any_slot(r, s.held.len());
    let mut bits = handed.bits;
    let has = bridge::release(&handed.area, &mut bits, slot);
    let wanted = refused.and_then(|()| s.release(slot));
    same("the refusal of a release", number(&wanted), has)?;
    same("the bits after a release", if wanted.is_ok() { s.bits() } else { handed.bits }, bits)
}

fn read(r: &mut Random, s: &Slots, handed: Handed, refused: Result<(), u8>) -> Result<(), String> {
    let slot = any_slot(r, s.held.len());
    let has = bridge::slot_refusal(&handed.area, handed.bits, slot);
    let wanted = refused.and_then(|()| s.frame(slot));
    same("the refusal of a reading", number(&wanted), has)?;
    match wanted {
        Ok(frame) if handed.area[slot as usize * FRAME..][..FRAME] != *frame => Err(format!("slot {slot} holds another frame")),
        _ => Ok(()),
    }
}

// Up to five slots as a rule, and all 64 now and then.
pub fn trials(r: &mut Random) -> Result<(), String> {
    let slots = if r.one_in(150) { MOST - r.below(2) } else { 1 + r.below(5) };
    let mut s = Slots::new(r, slots);
    for call in 0..4 + r.below(3 * slots + 8) {
        let mut handed = s.handed();
        if r.one_in(5) {
            handed = spoil(r, handed);
        }
        let refused = area_refusal(&handed.area, handed.bits);
        match r.below(8) {
            0..=3 => store(r, &mut s, handed, refused),
            4 | 5 => release(r, &mut s, handed, refused),
            _ => read(r, &s, handed, refused),
        }
        .map_err(|what| format!("frame store of {slots} slots, call {call}: {what}"))?;
    }
    Ok(())
}
