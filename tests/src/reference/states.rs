//! State numbers of a planned table, as request 11 of document 02 has them: for each slot a number in base three, with a digit
//! for each job whose window holds the slot.

use super::lists::slots;
use super::needs::Graph;
use std::cmp::Ordering;

/// Two bytes for each slot that a table may have.
pub const STATES_BYTES: usize = 128;

/// The numbers of the slots of a start list. The windows are those of the file's limit, which may be more than the slots.
pub fn state_numbers(graph: &Graph, limit: i32, starts: &[usize]) -> Vec<u16> {
    let windows = graph.windows(limit);
    let digits_in = |slot: usize| -> Vec<u16> {
        let held = (0..graph.jobs()).filter(|&job| windows.holds(job, slot as i32));
        held.map(|job| digit(slot, starts[job])).collect()
    };
    (0..slots(starts)).map(|slot| number(&digits_in(slot))).collect()
}

/// The digit in a slot of a job with this start.
fn digit(slot: usize, start: usize) -> u16 {
    match start.cmp(&slot) {
        Ordering::Greater => 0,
        Ordering::Less => 1,
        Ordering::Equal => 2,
    }
}

/// The number with these digits in base three, the lowest first.
pub fn number(digits: &[u16]) -> u16 {
    (0..).zip(digits).map(|(place, digit)| digit * 3u16.pow(place)).sum()
}

/// Two bytes for each number, the low one first.
pub fn bytes(numbers: &[u16]) -> Vec<u8> {
    numbers.iter().flat_map(|number| number.to_le_bytes()).collect()
}

/// The table of 256 numbers: what each byte, written in base two, says when it is read in base three.
pub fn entries() -> Vec<u16> {
    let entry = |byte: u8| u16::from_str_radix(&format!("{byte:b}"), 3).expect("digits 0 and 1");
    (0..=255).map(entry).collect()
}
