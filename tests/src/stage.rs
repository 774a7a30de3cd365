//! Calls the library and compares. Buffers are full of noise before a call, and after it every byte of every buffer, and
//! some in front of it, must be what document 01 says.

use crate::generate::random::Random;
use crate::lent::Lent;
use crate::reference::entries::{self, Plan};
use crate::reference::reading::LONGEST_FILE;
use crate::reference::states::{self, STATES_BYTES};
use crate::reference::table::LONGEST_TABLE;

pub const LONGEST_INPUT: usize = 1 << 17;
pub const LONGEST_WORK: usize = entries::WORK_BYTES + 8192;
pub const LONGEST_STATES: usize = 200;
/// The sizes that the bindings name are those of documents 01 and 02.
const _: () = assert!(gate::FILE_BYTES == LONGEST_FILE && gate::WORK_BYTES == entries::WORK_BYTES);
const _: () = assert!(gate::TABLE_BYTES == LONGEST_TABLE && gate::STATES_BYTES == STATES_BYTES);
/// Bytes watched in front of each buffer.
const MARGIN: usize = 64;
const REFUSED: u32 = 65_536;
static ZEROS: [u8; entries::WORK_BYTES] = [0; entries::WORK_BYTES];

/// What went wrong, in words.
pub type Verdict = Result<(), String>;

pub struct Stage {
    file: Lent,
    work: Lent,
    table: Lent,
    states: Lent,
    noise: Vec<u8>,
}

/// What the library put into the buffers of a call: the table's bytes, and those of the state numbers, two for each slot.
pub struct Written {
    pub table: Vec<u8>,
    pub states: Vec<u8>,
}

impl Stage {
    pub fn new() -> Stage {
        Stage {
            file: Lent::new(LONGEST_INPUT),
            work: Lent::new(LONGEST_WORK + MARGIN),
            table: Lent::new(LONGEST_INPUT),
            states: Lent::new(LONGEST_STATES + MARGIN),
            noise: Random::new(0, 0).bytes(2 * LONGEST_INPUT),
        }
    }

    /// Plans a file, of which the reference says this, with buffers of these lengths; gives what the library answered, the
    /// bytes of the table or the refusal, beside the verdict.
    pub fn plan(
        &mut self,
        random: &mut Random,
        file: &[u8],
        planned: &Result<Plan, u8>,
        work_len: usize,
        table_len: usize,
    ) -> (Result<Vec<u8>, u8>, Verdict) {
        let expected = entries::plan_in(planned, work_len, table_len);
        let noise = &self.noise[random.below(LONGEST_INPUT)..];
        let (work_noise, table_noise) = (&noise[..work_len + MARGIN], &noise[..table_len + MARGIN]);
        let lent_file = self.file.holding(file);
        let work = self.work.holding(work_noise);
        let table = self.table.holding(table_noise);

        let answer = call_plan(random.percent(50), lent_file, &mut work[MARGIN..], &mut table[MARGIN..]);

        let verdict = same("gate_plan", answer, number(expected))
            .and_then(|()| unchanged("the job file", lent_file, file))
            .and_then(|()| overwritten("the working buffer", work, work_noise, zeroed(expected)))
            .and_then(|()| overwritten("the table buffer", table, table_noise, table_bytes(expected)));
        let answered = match answer.checked_sub(REFUSED) {
            Some(number) => Err(number as u8),
            None => Ok(front(&table[MARGIN..], answer as usize)),
        };
        (answered, verdict)
    }

    /// The same of the call that gives state numbers too; the lengths are those of the working buffer, the table buffer and the
    /// buffer for the numbers.
    pub fn states(
        &mut self,
        random: &mut Random,
        file: &[u8],
        planned: &Result<Plan, u8>,
        lengths: [usize; 3],
    ) -> (Result<Written, u8>, Verdict) {
        let expected = entries::states_in(planned, lengths);
        let numbers = expected.map_or(Vec::new(), |plan| states::bytes(&plan.states));
        let (noise, other_noise) = self.noise[random.below(LONGEST_INPUT)..].split_at(LONGEST_WORK + MARGIN);
        let [work_len, table_len, states_len] = lengths.map(|length| length + MARGIN);
        let (work_noise, table_noise, states_noise) =
            (&noise[..work_len], &noise[..table_len], &other_noise[..states_len]);
        let lent_file = self.file.holding(file);
        let work = self.work.holding(work_noise);
        let table = self.table.holding(table_noise);
        let states = self.states.holding(states_noise);

        let c_form = random.percent(50);
        let answer = call_states(c_form, lent_file, &mut work[MARGIN..], &mut table[MARGIN..], &mut states[MARGIN..]);

        let verdict = same("gate_states", answer, number(expected))
            .and_then(|()| unchanged("the job file", lent_file, file))
            .and_then(|()| overwritten("the working buffer", work, work_noise, zeroed(expected)))
            .and_then(|()| overwritten("the table buffer", table, table_noise, table_bytes(expected)))
            .and_then(|()| overwritten("the buffer for state numbers", states, states_noise, &numbers));
        let answered = match answer.checked_sub(REFUSED) {
            Some(number) => Err(number as u8),
            None => {
                let table = front(&table[MARGIN..], answer as usize);
                let slots = table.get(4).map_or(0, |&slots| slots as usize);
                Ok(Written { table, states: front(&states[MARGIN..], 2 * slots) })
            }
        };
        (answered, verdict)
    }

    /// Checks a table for a file; gives what the library answered.
    pub fn check(&mut self, random: &mut Random, file: &[u8], table: &[u8]) -> (Result<(), u8>, Verdict) {
        let expected = entries::check(file, table);
        let (lent_file, lent_table) = (self.file.holding(file), self.table.holding(table));
        let answer = call_check(random.percent(50), lent_file, lent_table);
        let verdict = same("gate_check", answer, expected.err().unwrap_or(0) as u32)
            .and_then(|()| unchanged("the job file", lent_file, file))
            .and_then(|()| unchanged("the table", lent_table, table));
        let answered = if answer == 0 { Ok(()) } else { Err(answer as u8) };
        (answered, verdict)
    }

    /// Looks up a slot and a board, and the name there.
    pub fn lookup(
        &mut self,
        random: &mut Random,
        table: &[u8],
        slot: usize,
        board: usize,
    ) -> (Result<Option<usize>, u8>, Verdict) {
        let expected = entries::lookup(table, slot, board);
        let number = match expected {
            Ok(job) => job.unwrap_or(0) as u32,
            Err(number) => REFUSED + number as u32,
        };
        let part = entries::name(table, slot, board).map_or(0, |part| part.start << 16 | part.len());
        let lent = self.table.holding(table);
        let job = call_lookup(random.percent(50), lent, slot, board);
        let name = call_name(random.percent(50), lent, slot, board);
        let verdict = same("gate_lookup", job, number)
            .and_then(|()| same("gate_name_at", name, part as u32))
            .and_then(|()| unchanged("the table", lent, table))
            .map_err(|what| format!("{what} (slot {slot}, board {board})"));
        (expected, verdict)
    }
}

/// What a call answers for a plan or a refusal, as one number.
fn number(expected: Result<&Plan, u8>) -> u32 {
    expected.map_or_else(|number| REFUSED + number as u32, |plan| plan.table.len() as u32)
}

/// What stands in the working buffer after a call.
fn zeroed(expected: Result<&Plan, u8>) -> &'static [u8] {
    match expected {
        Err(1) => &[],
        _ => &ZEROS,
    }
}

fn table_bytes(expected: Result<&Plan, u8>) -> &[u8] {
    expected.map_or(&[], |plan| &plan.table)
}

/// So many bytes, or all if there are fewer.
fn front(bytes: &[u8], length: usize) -> Vec<u8> {
    bytes.iter().take(length).copied().collect()
}

/// Each call below goes through the C form or through the safe form, whose answer is put back into the number that the
/// C form gives.
fn call_plan(c_form: bool, file: &[u8], work: &mut [u8], table: &mut [u8]) -> u32 {
    if c_form {
        let (work_at, table_at) = (work.as_mut_ptr(), table.as_mut_ptr());
        // SAFETY: pointers and lengths of slices, the last two of them mutable.
        return unsafe { gate::c::gate_plan(file.as_ptr(), file.len(), work_at, work.len(), table_at, table.len()) };
    }
    match gate::plan(file, work, table) {
        Ok(length) => length as u32,
        Err(refusal) => REFUSED + refusal.0,
    }
}

fn call_states(c_form: bool, file: &[u8], work: &mut [u8], table: &mut [u8], states: &mut [u8]) -> u32 {
    if c_form {
        let (work_at, table_at, states_at) = (work.as_mut_ptr(), table.as_mut_ptr(), states.as_mut_ptr());
        let (work_len, table_len, states_len) = (work.len(), table.len(), states.len());
        // SAFETY: pointers and lengths of slices, the last three of them mutable.
        return unsafe {
            gate::c::gate_states(
                file.as_ptr(),
                file.len(),
                work_at,
                work_len,
                table_at,
                table_len,
                states_at,
                states_len,
            )
        };
    }
    match gate::states(file, work, table, states) {
        Ok(length) => length as u32,
        Err(refusal) => REFUSED + refusal.0,
    }
}

fn call_check(c_form: bool, file: &[u8], table: &[u8]) -> u32 {
    if c_form {
        // SAFETY: pointers and lengths of slices.
        return unsafe { gate::c::gate_check(file.as_ptr(), file.len(), table.as_ptr(), table.len()) };
    }
    gate::check(file, table).map_or_else(|refusal| refusal.0, |()| 0)
}

fn call_lookup(c_form: bool, table: &[u8], slot: usize, board: usize) -> u32 {
    if c_form {
        // SAFETY: pointer and length of a slice.
        return unsafe { gate::c::gate_lookup(table.as_ptr(), table.len(), slot, board) };
    }
    match gate::lookup(table, slot, board) {
        Ok(job) => job.unwrap_or(0),
        Err(refusal) => REFUSED + refusal.0,
    }
}

fn call_name(c_form: bool, table: &[u8], slot: usize, board: usize) -> u32 {
    if c_form {
        // SAFETY: pointer and length of a slice.
        return unsafe { gate::c::gate_name_at(table.as_ptr(), table.len(), slot, board) };
    }
    let name = gate::name(table, slot, board);
    if name.is_empty() {
        return 0;
    }
    let offset = name.as_ptr() as usize - table.as_ptr() as usize;
    (offset << 16 | name.len()) as u32
}

fn same(entry: &str, answer: u32, expected: u32) -> Verdict {
    if answer == expected {
        Ok(())
    } else {
        Err(format!("{entry} answered {}, not {}", spelled(answer), spelled(expected)))
    }
}

fn spelled(answer: u32) -> String {
    match answer.checked_sub(REFUSED) {
        Some(number) if number < 100 => format!("refused {number}"),
        _ => answer.to_string(),
    }
}

fn unchanged(what: &str, now: &[u8], before: &[u8]) -> Verdict {
    if now == before {
        Ok(())
    } else {
        Err(format!("{what} was changed"))
    }
}

/// A buffer, with its margin, that holds `written` in front and what was there before behind it.
fn overwritten(what: &str, now: &[u8], before: &[u8], written: &[u8]) -> Verdict {
    let end = MARGIN + written.len();
    let right = now[..MARGIN] == before[..MARGIN] && now[MARGIN..end] == *written && now[end..] == before[end..];
    if right {
        return Ok(());
    }
    let expected = [&before[..MARGIN], written, &before[end..]].concat();
    let at = (0..now.len()).find(|&at| now[at] != expected[at]).unwrap_or(0);
    Err(format!("{what} has {} at byte {}, not {}", now[at], at as isize - MARGIN as isize, expected[at]))
}
