//! Moments, from document 01: "the head a call got with the stores of its first
//! entries .. put in".

use crate::head::{Head, LARGEST};
use crate::world::{DELAY, WAIT};

/// The head with the stores of some entries put in. `Err` is 3, where a word is no
/// entry: its number is neither a register's nor a delay's or a wait's, or its value
/// has a byte outside its register's codes.
pub fn moment(head: &Head, entries: &[u32]) -> Result<Head, u64> {
    let mut head = head.clone();
    for &entry in entries {
        let (number, value) = (entry >> 24, entry & 0xFF_FFFF);
        match number {
            DELAY | WAIT => {}
            1..=34 if fits(number as usize, value) => head.registers[number as usize] = value,
            _ => return Err(3),
        }
    }
    Ok(head)
}

fn fits(number: usize, value: u32) -> bool {
    let [_, bytes @ ..] = value.to_be_bytes();
    let pairs = bytes.iter().zip(LARGEST[number - 1]);
    pairs.into_iter().all(|(&byte, largest)| byte <= largest)
}

/// Entries from their bytes, four each, high byte first; bytes that are left over are
/// none.
pub fn entries(bytes: &[u8]) -> Vec<u32> {
    let (words, _) = bytes.as_chunks();
    words.iter().copied().map(u32::from_be_bytes).collect()
}

/// The bytes of entries.
pub fn bytes(entries: &[u32]) -> Vec<u8> {
    let bytes = |entry: &u32| entry.to_be_bytes();
    entries.iter().flat_map(bytes).collect()
}
