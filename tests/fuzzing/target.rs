//! The fuzz target: one input is one call, or a few, of the library; its answer and all buffers are compared with the
//! reference. What the bytes of an input mean depends on the kind of run, which GATE_FUZZ names: `plan`, `check`,
//! `lookup`, or `changed` for tables that were planned and then changed.

use gate_tests::generate::drafts::field;
use gate_tests::generate::random::Random;
use gate_tests::reference::entries::{self, WORK_BYTES};
use gate_tests::reference::reading::{take_field, LONGEST_FILE};
use gate_tests::reference::states::STATES_BYTES;
use gate_tests::reference::table::{Table, LONGEST_TABLE};
use gate_tests::stage::{Stage, Verdict, LONGEST_INPUT, LONGEST_STATES};
use std::cell::RefCell;

struct Target {
    stage: Stage,
    compare: fn(&mut Stage, &mut Random, u8, u8, &[u8]) -> Verdict,
}

thread_local! {
    static TARGET: RefCell<Target> = RefCell::new(Target {
        stage: Stage::new(),
        compare: match std::env::var("GATE_FUZZ").as_deref() {
            Ok("plan") => plan,
            Ok("check") => check,
            Ok("lookup") => lookup,
            _ => changed,
        },
    });
}

/// Called by libFuzzer with each input. Two bytes of it choose, the others are file and table.
///
/// # Safety
/// `bytes` points to `length` readable bytes.
#[no_mangle]
pub unsafe extern "C" fn LLVMFuzzerTestOneInput(bytes: *const u8, length: usize) -> i32 {
    let input = std::slice::from_raw_parts(bytes, length);
    let [first, second, rest @ ..] = input else { return 0 };
    if length > LONGEST_INPUT {
        return 0;
    }
    let mut random = Random::new(length as u64, input.iter().map(|&byte| byte as u64).sum());
    let verdict =
        TARGET.with_borrow_mut(|target| (target.compare)(&mut target.stage, &mut random, *first, *second, rest));
    if let Err(what) = verdict {
        eprintln!("{what}");
        std::process::abort();
    }
    0
}

/// The sizes of the buffers and whether a comment fills the file up to the longest that is read or one byte more; file. It is
/// planned by both calls.
fn plan(stage: &mut Stage, random: &mut Random, first: u8, second: u8, rest: &[u8]) -> Verdict {
    let work = [WORK_BYTES, WORK_BYTES + 1, WORK_BYTES - 1, 0][(first / 64) as usize];
    let table = [LONGEST_TABLE, LONGEST_TABLE + 1, LONGEST_TABLE - 1, 0][(second / 64) as usize];
    let enough = [STATES_BYTES, STATES_BYTES + 1, LONGEST_STATES][(first / 8 % 3) as usize];
    let states = [enough, enough, enough, STATES_BYTES - 1][(first / 2 % 4) as usize];
    let room = (LONGEST_FILE + (first % 2) as usize).saturating_sub(rest.len() + 3);
    let filling = if second % 64 == 63 { field(5, &vec![0; room]) } else { Vec::new() };
    let file = [rest, &filling].concat();
    // with a buffer too short the answer is 1, whatever the file is
    let planned = if work < WORK_BYTES || table < LONGEST_TABLE { Err(1) } else { entries::plan(&file) };
    stage.plan(random, &file, &planned, work, table).1?;
    stage.states(random, &file, &planned, [work, table, states]).1
}

/// The length of the file; file, table.
fn check(stage: &mut Stage, random: &mut Random, first: u8, second: u8, rest: &[u8]) -> Verdict {
    let length = u16::from_le_bytes([first, second]) as usize;
    let (file, table) = rest.split_at(length.min(rest.len()));
    stage.check(random, file, table).1
}

/// Slot, board; table.
fn lookup(stage: &mut Stage, random: &mut Random, first: u8, second: u8, rest: &[u8]) -> Verdict {
    stage.lookup(random, rest, first as usize, second as usize).1
}

/// How many changes, whether the counts in the table's header follow them, and whether the table is planned for eight
/// boards; slot and board; changes, file.
fn changed(stage: &mut Stage, random: &mut Random, first: u8, second: u8, rest: &[u8]) -> Verdict {
    let (changes, file) = rest.split_at((3 * (first % 8) as usize).min(rest.len()));
    let planned = if first & 16 != 0 { without_boards(file) } else { file.to_vec() };
    let mut table = entries::table(&planned).unwrap_or_default();
    for change in changes.chunks_exact(3) {
        let at = u16::from_le_bytes([change[0], change[1]]) as usize % table.len().max(1);
        if let Some(byte) = table.get_mut(at) {
            *byte = change[2];
        }
    }
    if first & 8 != 0 {
        recount(&mut table);
    }
    stage.check(random, file, &table).1?;
    stage.lookup(random, &table, (second % 16) as usize, (second / 16) as usize).1
}

/// The fields of a file but those with tag 9.
fn without_boards(mut file: &[u8]) -> Vec<u8> {
    let mut kept = Vec::new();
    while let Some((tag, value, behind)) = take_field(file) {
        if tag != 9 {
            kept.extend(field(tag, value));
        }
        file = behind;
    }
    kept
}

/// Makes the header's counts fit the rows, so that changes to rows get as far as the later questions.
fn recount(bytes: &mut Vec<u8>) {
    if let Some(mut table) = Table::read(bytes) {
        table.recount();
        *bytes = table.bytes();
    }
}
