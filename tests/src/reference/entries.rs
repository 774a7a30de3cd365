//! What planner, state numbers, check, lookup and name answer. A refusal is the number of its question.

use super::boards::place;
use super::needs::Graph;
use super::reading::{read, JobFile, MOST_BOARDS, MOST_JOBS};
use super::search;
use super::states::{state_numbers, STATES_BYTES};
use super::table::{centimetres, Row, Table, LONGEST_TABLE};
use std::ops::Range;

pub const WORK_BYTES: usize = 65_536;

/// What the planner finds for a file: the table's bytes, and the state number of each of its slots.
pub struct Plan {
    pub table: Vec<u8>,
    pub states: Vec<u16>,
}

/// What the planner answers where the buffers are long enough: questions 2 to 13, and 21.
pub fn plan(file: &[u8]) -> Result<Plan, u8> {
    let file = read(file)?;
    let graph = sound_graph(&file)?;
    let limit = file.limit as i32;
    if graph.width(limit) > MOST_BOARDS as usize {
        return Err(12);
    }
    let starts = search::best(&graph, limit, file.most_boards()).ok_or(13)?;
    let table = table_of(&file, &starts, &place(&graph, &starts)).bytes();
    Ok(Plan { table, states: state_numbers(&graph, limit, &starts) })
}

/// The table alone.
pub fn table(file: &[u8]) -> Result<Vec<u8>, u8> {
    plan(file).map(|plan| plan.table)
}

/// The planner's answer for buffers of these lengths: question 1, then what it answers where they are long enough.
pub fn plan_in(answer: &Result<Plan, u8>, work_len: usize, table_len: usize) -> Result<&Plan, u8> {
    if work_len < WORK_BYTES || table_len < LONGEST_TABLE {
        return Err(1);
    }
    answer.as_ref().map_err(|&number| number)
}

/// The same of the call that gives state numbers too, which has one buffer more.
pub fn states_in(answer: &Result<Plan, u8>, [work_len, table_len, states_len]: [usize; 3]) -> Result<&Plan, u8> {
    if states_len < STATES_BYTES {
        return Err(1);
    }
    plan_in(answer, work_len, table_len)
}

/// The graph of the needs, unless it has a circle: question 11.
pub fn sound_graph(file: &JobFile) -> Result<Graph, u8> {
    let graph = Graph::new(file.jobs.len(), &file.needs);
    if graph.has_circle() {
        Err(11)
    } else {
        Ok(graph)
    }
}

/// The table that gives the file's jobs these starts and boards.
pub fn table_of(file: &JobFile, starts: &[usize], boards: &[u8]) -> Table {
    let row = |job: usize| Row {
        start: starts[job] as u8,
        board: boards[job],
        level: centimetres(file.jobs[job].level),
        name: file.jobs[job].name.clone(),
    };
    let mut table = Table { slots: 0, boards: 0, rows: (0..file.jobs.len()).map(row).collect() };
    table.recount();
    table
}

/// Whether a table passes: questions 2 to 11, 14 to 18, and 21.
pub fn check(file: &[u8], table: &[u8]) -> Result<(), u8> {
    let file = read(file)?;
    sound_graph(&file)?;
    let table = Table::read(table).filter(|table| table.rows.len() == file.jobs.len()).ok_or(14)?;
    let same = |(job, row): (&super::reading::Job, &Row)| row.name == job.name && row.level == centimetres(job.level);
    if !file.jobs.iter().zip(&table.rows).all(same) {
        return Err(15);
    }
    if !table.counts_are_right(file.limit, file.most_boards()) {
        return Err(16);
    }
    if !table.places_differ() {
        return Err(17);
    }
    let kept = |&(giver, taker): &(usize, usize)| {
        let (giver, taker) = (&table.rows[giver], &table.rows[taker]);
        let least = if giver.board == taker.board { 1 } else { 2 };
        giver.start as u32 + least <= taker.start as u32
    };
    if !file.needs.iter().all(kept) {
        return Err(18);
    }
    Ok(())
}

/// A table that the lookup accepts: questions 14, 16 and 17.
fn usable(table: &[u8]) -> Result<Table, u8> {
    let table = Table::read(table).filter(|table| (1..=MOST_JOBS).contains(&table.rows.len())).ok_or(14)?;
    if !table.counts_are_right(64, MOST_BOARDS) {
        return Err(16);
    }
    if !table.places_differ() {
        return Err(17);
    }
    Ok(table)
}

/// The job number, from 1, that a board runs in a slot; none if it is idle.
pub fn lookup(table: &[u8], slot: usize, board: usize) -> Result<Option<usize>, u8> {
    let table = usable(table)?;
    Ok(job_at(&table, slot, board).map(|row| row + 1))
}

/// The part of the table that holds that job's name; none if the lookup is idle or refused.
pub fn name(table: &[u8], slot: usize, board: usize) -> Option<Range<usize>> {
    let table = usable(table).ok()?;
    job_at(&table, slot, board).map(|row| table.name_range(row))
}

fn job_at(table: &Table, slot: usize, board: usize) -> Option<usize> {
    table.rows.iter().position(|row| row.start as usize == slot && row.board as usize == board)
}
