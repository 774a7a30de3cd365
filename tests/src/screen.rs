//! Reads state numbers back into the states of jobs, as one who stands before the screen would: each number says of every job
//! whose window holds the slot what the table says. Of the reference it takes the reading of file and table alone; the
//! windows are found here in another way.

use crate::reference::reading::{read, JobFile};
use crate::reference::table::Table;
use crate::stage::{Verdict, Written};

/// The numbers are below 3 to the power 8.
const NUMBERS: u16 = 6_561;

/// For each job its release, and how many slots must follow the one that it runs in.
struct Bounds {
    releases: Vec<usize>,
    behind: Vec<usize>,
}

/// Do the numbers that the library gave for a file say what its table does?
pub fn read_back(file: &[u8], written: &Written) -> Verdict {
    let file = read(file).map_err(|number| format!("a table for a file that is refused {number}"))?;
    let table = Table::read(&written.table).ok_or("a table that does not read")?;
    if table.rows.len() != file.jobs.len() || written.states.len() != 2 * table.slots as usize {
        return Err("a row for each job and two bytes for each slot are not there".to_string());
    }
    let bounds = Bounds::of(&file);
    for (slot, bytes) in written.states.chunks_exact(2).enumerate() {
        let number = u16::from_le_bytes([bytes[0], bytes[1]]);
        says_what_table_does(slot, number, &bounds.held(slot, file.limit as usize), &table)
            .map_err(|what| format!("{number} in slot {slot}: {what}"))?;
    }
    Ok(())
}

/// The number of a slot is taken apart, the digit of the lowest of the held jobs first.
fn says_what_table_does(slot: usize, number: u16, held: &[usize], table: &Table) -> Verdict {
    if number >= NUMBERS {
        return Err(format!("not below {NUMBERS}"));
    }
    let (mut rest, mut running) = (number, 0);
    for &job in held {
        let start = table.rows[job].start as usize;
        let right = match rest % 3 {
            0 => start > slot,
            1 => start < slot,
            _ => start == slot,
        };
        if !right {
            return Err(format!("{} for job {}, which starts in slot {start}", rest % 3, job + 1));
        }
        running += (rest % 3 == 2) as usize;
        rest /= 3;
    }
    if rest != 0 {
        return Err(format!("more digits than the {} windows that hold the slot", held.len()));
    }
    if running != table.rows.iter().filter(|row| row.start as usize == slot).count() {
        return Err(format!("{running} jobs are running, the table has others"));
    }
    Ok(())
}

impl Bounds {
    fn of(file: &JobFile) -> Bounds {
        let turned: Vec<(usize, usize)> = file.needs.iter().map(|&(giver, taker)| (taker, giver)).collect();
        Bounds { releases: settled(file.jobs.len(), &file.needs), behind: settled(file.jobs.len(), &turned) }
    }

    /// The jobs whose windows hold a slot, in rising order.
    fn held(&self, slot: usize, limit: usize) -> Vec<usize> {
        let holds = |job: &usize| self.releases[*job] <= slot && slot + 1 + self.behind[*job] <= limit;
        (0..self.releases.len()).filter(holds).collect()
    }
}

/// Formula (1) for all jobs at once, one pass over the needs after the other until nothing moves any more.
fn settled(jobs: usize, needs: &[(usize, usize)]) -> Vec<usize> {
    let mut releases = vec![0; jobs];
    loop {
        // the latest slot after a giver's release, and whether two givers have it
        let mut after = vec![(0, false); jobs];
        for &(giver, taker) in needs {
            let next = releases[giver] + 1;
            let (latest, _) = after[taker];
            if next >= latest {
                after[taker] = (next, next == latest);
            }
        }
        let moved: Vec<usize> = after.into_iter().map(|(latest, tied)| latest + tied as usize).collect();
        if moved == releases {
            return releases;
        }
        releases = moved;
    }
}
