//! Safe Rust forms of the slot-table library `libgate.a`: plan, give state numbers, check, look up.
//!
//! No call allocates, keeps anything between calls or changes a file or a table that it reads. Every input is
//! allowed: a bad one is refused with the number of the first question that it fails.

#![no_std]

/// The C forms as the archive exports them; `include/gate.h` has the same.
pub mod c {
    extern "C" {
        pub fn gate_plan(
            file: *const u8,
            file_len: usize,
            work: *mut u8,
            work_len: usize,
            table: *mut u8,
            table_len: usize,
        ) -> u32;
        pub fn gate_states(
            file: *const u8,
            file_len: usize,
            work: *mut u8,
            work_len: usize,
            table: *mut u8,
            table_len: usize,
            states: *mut u8,
            states_len: usize,
        ) -> u32;
        pub fn gate_check(file: *const u8, file_len: usize, table: *const u8, table_len: usize) -> u32;
        pub fn gate_lookup(table: *const u8, table_len: usize, slot: usize, board: usize) -> u32;
        pub fn gate_name_at(table: *const u8, table_len: usize, slot: usize, board: usize) -> u32;
    }
}

/// The longest job file that is read.
pub const FILE_BYTES: usize = 49_152;
/// The working buffer that `plan` and `states` need; it comes back zeroed.
pub const WORK_BYTES: usize = 65_536;
/// The table buffer that `plan` and `states` need: the longest table.
pub const TABLE_BYTES: usize = 7_606;
/// The buffer for state numbers that `states` needs: two bytes for each of 64 slots.
pub const STATES_BYTES: usize = 128;
/// What `gate_plan`, `gate_states` and `gate_lookup` add to the number of a refusal.
pub const REFUSED: u32 = 65_536;

/// The number of the first question that got a "no".
#[derive(Clone, Copy, Debug, PartialEq, Eq)]
pub struct Refusal(pub u32);

impl core::fmt::Display for Refusal {
    fn fmt(&self, out: &mut core::fmt::Formatter) -> core::fmt::Result {
        write!(out, "refused {}", self.0)
    }
}

/// Plans a job file. The table stands in the first bytes of `table`, as many as the answer says. After a refusal `table`
/// is untouched. The first `WORK_BYTES` of `work` are zero afterwards, unless a buffer was too short.
pub fn plan(file: &[u8], work: &mut [u8], table: &mut [u8]) -> Result<usize, Refusal> {
    // SAFETY: each pointer comes with the length of its own slice, and mutable slices overlap with nothing.
    let answer = unsafe {
        c::gate_plan(file.as_ptr(), file.len(), work.as_mut_ptr(), work.len(), table.as_mut_ptr(), table.len())
    };
    length_or_refusal(answer)
}

/// Plans a job file as `plan` does, with the same answer, and puts the state number of each slot of the table, 0 to 6560, into
/// the first bytes of `states`, two bytes a slot, low byte first: in base three a digit for each job whose window holds the
/// slot, the lowest job's the lowest; 0 not done, 1 done in an earlier slot, 2 running now. Bytes behind them, and all after
/// a refusal, are untouched. With fewer than `STATES_BYTES` there the refusal is 1, and no buffer is touched.
pub fn states(file: &[u8], work: &mut [u8], table: &mut [u8], states: &mut [u8]) -> Result<usize, Refusal> {
    // SAFETY: each pointer comes with the length of its own slice, and mutable slices overlap with nothing.
    let answer = unsafe {
        c::gate_states(
            file.as_ptr(),
            file.len(),
            work.as_mut_ptr(),
            work.len(),
            table.as_mut_ptr(),
            table.len(),
            states.as_mut_ptr(),
            states.len(),
        )
    };
    length_or_refusal(answer)
}

fn length_or_refusal(answer: u32) -> Result<usize, Refusal> {
    if answer < REFUSED {
        Ok(answer as usize)
    } else {
        Err(Refusal(answer - REFUSED))
    }
}

/// Passes or refuses a table for a job file.
pub fn check(file: &[u8], table: &[u8]) -> Result<(), Refusal> {
    // SAFETY: each pointer comes with the length of its own slice.
    match unsafe { c::gate_check(file.as_ptr(), file.len(), table.as_ptr(), table.len()) } {
        0 => Ok(()),
        number => Err(Refusal(number)),
    }
}

/// The number, from 1, of the job that a board runs in a slot, or `None` where it is idle.
pub fn lookup(table: &[u8], slot: usize, board: usize) -> Result<Option<u32>, Refusal> {
    // SAFETY: the pointer comes with the length of its own slice.
    match unsafe { c::gate_lookup(table.as_ptr(), table.len(), slot, board) } {
        0 => Ok(None),
        answer if answer < REFUSED => Ok(Some(answer)),
        answer => Err(Refusal(answer - REFUSED)),
    }
}

/// The name of the job that a board runs in a slot, as a part of `table`; empty where `lookup` has no job.
pub fn name(table: &[u8], slot: usize, board: usize) -> &[u8] {
    // SAFETY: the pointer comes with the length of its own slice.
    let part = unsafe { c::gate_name_at(table.as_ptr(), table.len(), slot, board) } as usize;
    let (offset, length) = (part >> 16, part & 0xffff);
    &table[offset..offset + length]
}
