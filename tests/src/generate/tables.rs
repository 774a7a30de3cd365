//! Tables: valid ones of every kind, one rule broken at a time, damage anywhere, and slots and boards to ask for.

use super::damage;
use super::random::Random;
use crate::reference::entries::table_of;
use crate::reference::needs::Graph;
use crate::reference::reading::JobFile;
use crate::reference::table::{half_away, Table};

/// Any table that keeps the rules, seldom the shortest, on any boards; none where luck or the limit does not allow it.
pub fn valid(random: &mut Random, file: &JobFile) -> Option<Table> {
    let graph = Graph::new(file.jobs.len(), &file.needs);
    let delay = random.pick(&[0, 0, 10, 30, 60]);
    let most_boards = random.pick(&[1, 2, 3, 8, 8]).min(file.most_boards());
    let (mut starts, mut boards) = (vec![usize::MAX; graph.jobs()], vec![0; graph.jobs()]);
    for slot in 0..file.limit as usize {
        let mut free: Vec<u8> = (1..=most_boards).collect();
        random.shuffle(&mut free);
        let mut waiting: Vec<usize> = (0..graph.jobs()).filter(|&job| starts[job] == usize::MAX).collect();
        random.shuffle(&mut waiting);
        for job in waiting {
            let kept = |&board: &u8| {
                graph.givers[job].iter().all(|&giver| {
                    let wait = if boards[giver] == board { 1 } else { 2 };
                    starts[giver].checked_add(wait).is_some_and(|ready| ready <= slot)
                })
            };
            let place = free.iter().position(kept);
            if let Some(place) = place.filter(|_| !random.percent(delay)) {
                starts[job] = slot;
                boards[job] = free.remove(place);
            }
        }
    }
    starts.iter().all(|&start| start < usize::MAX).then(|| table_of(file, &starts, &boards))
}

/// A table that keeps the rules: any, or else the planned one, if there is one, on other boards.
pub fn valid_or_planned(random: &mut Random, file: &JobFile, planned: &Result<Vec<u8>, u8>) -> Option<Table> {
    let drawn = valid(random, file);
    drawn.or_else(|| Some(renamed(random, file, Table::read(planned.as_ref().ok()?)?)))
}

/// The table with its boards exchanged for any that the file has.
fn renamed(random: &mut Random, file: &JobFile, mut table: Table) -> Table {
    let mut boards: Vec<u8> = (1..=file.most_boards()).collect();
    random.shuffle(&mut boards);
    for row in &mut table.rows {
        row.board = boards.get(row.board.wrapping_sub(1) as usize).copied().unwrap_or(row.board);
    }
    table.recount();
    table
}

/// The table with one rule broken, or nearly so.
pub fn broken(random: &mut Random, file: &JobFile, table: &Table) -> Vec<u8> {
    let mut table = table.clone();
    match random.below(5) {
        0 => return broken_fields(random, &table),
        1 => other_jobs(random, file, &mut table),
        2 => wrong_counts(random, file, &mut table),
        3 => shared_place(random, &mut table),
        _ => broken_need(random, file, &mut table),
    }
    table.bytes()
}

/// A row of a table, often the last one.
fn any_row(random: &mut Random, table: &Table) -> usize {
    let last = table.rows.len() - 1;
    if random.percent(20) {
        last
    } else {
        random.between(0, last)
    }
}

/// Question 14: fields that are not as they should be.
fn broken_fields(random: &mut Random, table: &Table) -> Vec<u8> {
    let mut table = table.clone();
    let row = any_row(random, &table);
    match random.below(11) {
        0 => table.rows.truncate(row),
        1 => drop(table.rows.remove(row)),
        2 => table.rows.push(table.rows[row].clone()),
        3 => table.rows[row].name.clear(),
        4 => table.rows[row].name = vec![b'x'; random.pick(&[12, 13, 300])],
        5 => table.rows[row].name[0] = random.pick(&[0, 32, 33, 126, 127, 255]),
        kind => {
            let mut bytes = table.bytes();
            let start = table.name_range(row).start - 7;
            match kind {
                6 => bytes[start] = random.pick(&[0, 3, 16, 18, 255]),
                7 => bytes[start + 1] = bytes[start + 1].wrapping_add(random.pick(&[1, 255])),
                8 => bytes[start + 2] = random.pick(&[1, 255]),
                9 => bytes[random.pick(&[0, 1, 2, 3])] = random.pick(&[0, 1, 2, 3, 4, 16, 17]),
                _ => bytes.extend(random.pick(&[&[0][..], &[17, 0], &[17, 0, 0], &[5, 0, 0], &[16, 3, 0, 1, 1, 1]])),
            }
            return bytes;
        }
    }
    table.bytes()
}

/// Question 15: another name or level, or levels from before request 4.
fn other_jobs(random: &mut Random, file: &JobFile, table: &mut Table) {
    let (row, other) = (any_row(random, table), random.below(table.rows.len()));
    match random.below(7) {
        0 => table.rows[row].level = table.rows[row].level.wrapping_add(random.pick(&[1, -1, 256, 10])),
        1 => table.rows[row].level = table.rows[row].level.wrapping_neg(),
        2 => {
            let end = table.rows[row].name.len() - 1;
            table.rows[row].name[end] ^= 1;
        }
        3 => table.rows[row].name.push(b'x'),
        4 => drop(table.rows[row].name.pop()),
        5 => table.rows.iter_mut().zip(&file.jobs).for_each(|(row, job)| row.level = half_away(job.level)),
        _ => table.rows.swap(row, other),
    }
}

/// Question 16: counts that do not fit the rows, or rows beyond limit or boards.
fn wrong_counts(random: &mut Random, file: &JobFile, table: &mut Table) {
    let row = any_row(random, table);
    match random.below(8) {
        0 => table.slots = table.slots.wrapping_add(random.pick(&[1, 255, 2])),
        1 => table.boards = table.boards.wrapping_add(random.pick(&[1, 255, 2])),
        2 => table.rows[row].board = 0,
        3 => {
            // all rows later, so that the last is just within the limit or just beyond it
            let later = (file.limit + random.below(2) as u8).saturating_sub(table.slots);
            table.rows.iter_mut().for_each(|row| row.start += later);
            table.recount();
        }
        4 => {
            table.rows[row].board = random.pick(&[8, 9, 255, file.most_boards(), file.most_boards() + 1]);
            table.recount();
        }
        5 => {
            table.rows[row].start = random.pick(&[63, 64, 254, 255]);
            table.recount();
        }
        6 => {
            table.rows[row].start = 255;
            table.slots = random.pick(&[0, 255]);
        }
        _ => {
            table.rows.iter_mut().for_each(|row| row.board = 0);
            table.boards = 0;
        }
    }
}

/// Question 17: two jobs in one place.
fn shared_place(random: &mut Random, table: &mut Table) {
    let (row, other) = (any_row(random, table), random.below(table.rows.len()));
    table.rows[row].start = table.rows[other].start;
    table.rows[row].board = table.rows[other].board;
    table.recount();
}

/// Question 18: a taker moved close to one of its givers, or two takers both right after it; or places exchanged, so that no two jobs
/// share one.
pub fn broken_need(random: &mut Random, file: &JobFile, table: &mut Table) {
    if file.needs.is_empty() {
        return;
    }
    let (giver, taker) = file.needs[random.below(file.needs.len())];
    let (start, board) = (table.rows[giver].start, table.rows[giver].board);
    match random.below(7) {
        0 => {
            let others = file.needs.iter().filter(|need| need.0 == giver);
            for (at, need) in others.enumerate() {
                table.rows[need.1].start = start.saturating_add(1);
                table.rows[need.1].board = (board as usize + at - 1) as u8 % file.most_boards() + 1;
            }
        }
        1 => table.rows[taker].start = start,
        2 => table.rows[taker].start = start.saturating_sub(1),
        3 => exchange_places(table, giver, taker),
        4 => exchange_places(table, taker, random.below(table.rows.len())),
        kind => {
            table.rows[taker].start = start.saturating_add(1);
            table.rows[taker].board = if kind == 5 { board } else { board % file.most_boards() + 1 };
        }
    }
    table.recount();
}

fn exchange_places(table: &mut Table, row: usize, other: usize) {
    let (one, two) = (table.rows[row].clone(), table.rows[other].clone());
    (table.rows[row].start, table.rows[row].board) = (two.start, two.board);
    (table.rows[other].start, table.rows[other].board) = (one.start, one.board);
}

/// Bytes changed, lost or added anywhere.
pub fn damaged(random: &mut Random, table: &Table) -> Vec<u8> {
    let mut bytes = table.bytes();
    damage::bytes(random, &mut bytes);
    bytes
}

/// Slots and boards to ask a table for: around its edges, and where numbers of few bytes would wrap.
pub fn questions(random: &mut Random, table: &[u8]) -> Vec<(usize, usize)> {
    const FAR: [usize; 14] = [
        63,
        64,
        65,
        255,
        256,
        257,
        65_535,
        65_536,
        65_537,
        1 << 32,
        (1 << 32) + 1,
        1 << 63,
        usize::MAX - 1,
        usize::MAX,
    ];
    let (slots, boards) = if table.len() > 5 { (table[4] as usize, table[5] as usize) } else { (1, 1) };
    let mut questions = vec![(0, 0), (0, 1), (slots, 1), (slots.saturating_sub(1), boards), (0, boards + 1)];
    for _ in 0..6 {
        questions.push((random.below(slots + 2), random.below(boards + 2)));
    }
    let (slot, board) = (random.below(slots + 1), random.below(boards + 1));
    let wraps = random.pick(&[1 << 8, 1 << 16, 1 << 32]);
    questions.extend([(slot + wraps, board), (slot, board + wraps)]);
    questions.extend([(random.pick(&FAR), board), (slot, random.pick(&FAR)), (random.pick(&FAR), random.pick(&FAR))]);
    questions
}

/// Every slot and board within the table and one beyond, 0 included.
pub fn all_questions(table: &Table) -> Vec<(usize, usize)> {
    let boards = 0..=table.boards as usize + 1;
    (0..=table.slots as usize).flat_map(|slot| boards.clone().map(move |board| (slot, board))).collect()
}
