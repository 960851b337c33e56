// What an entry answers and what it leaves, held to what paper 01 wants of it.

use std::fmt::Debug;

use crate::stream::Random;

// The entry returned this number and left this in the lent place. Wanted is what is to be given there, or the number of the refusal, which
// leaves what was lent.
pub fn same<T: PartialEq + Debug>(entry: &str, wanted: Result<T, u8>, lent: T, number: u8, left: T) -> Result<(), String> {
    let refusal = wanted.as_ref().err().copied().unwrap_or(0);
    let wanted = wanted.unwrap_or(lent);
    if number == refusal && left == wanted {
        Ok(())
    } else {
        Err(format!("{entry} answers {number} and leaves {left:02X?}, not {refusal} and {wanted:02X?}"))
    }
}

// Bytes to lend where so many are right: now and then fewer or more.
pub fn lent(r: &mut Random, right: usize) -> Vec<u8> {
    let n = if r.one_in(8) { r.below(2 * right + 2) } else { right };
    let mut bytes = vec![0; n];
    r.fill(&mut bytes);
    bytes
}
